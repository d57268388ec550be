/* The end of a program, and what there is no system for. */
#include <stddef.h>
#include <stdint.h>
#include <stdio.h>
#include <stdlib.h>
#include <string.h>
#include <time.h>
#include <unistd.h>
#include <errno.h>
#include "platform.h"

int errno;

static void (*at_exit[16])(void);
static int at_exit_n;
int atexit(void (*f)(void))
{
    if (at_exit_n == 16)
        return 1;
    at_exit[at_exit_n++] = f;
    return 0;
}

/* disco has no exit code for a guest: one that isn't 0 is printed */
void exit(int c)
{
    while (at_exit_n)
        at_exit[--at_exit_n]();
    if (c)
        printf("[exit %d]\n", c);
    halt();
}

void abort(void)
{
    puts("[abort]");
    halt();
}

void kit_assert(const char *x, const char *file, int line)
{
    const char *s = strrchr(file, '/');
    printf("[assert %s:%d: %s]\n", s ? s + 1 : file, line, x);
    halt();
}

char *getenv(const char *n)
{
    (void)n;
    return 0;
}

int system(const char *c)
{
    (void)c;
    return -1;
}

time_t time(time_t *t)
{
    if (t)
        *t = 0;
    return 0;
}

clock_t clock(void)
{
    return 0;
}

struct tm *gmtime(const time_t *t)
{
    static struct tm z;
    (void)t;
    return &z;
}

struct tm *localtime(const time_t *t)
{
    return gmtime(t);
}

char *ctime(const time_t *t)
{
    (void)t;
    return "";
}

size_t strftime(char *b, size_t n, const char *f, const struct tm *t)
{
    (void)f;
    (void)t;
    if (n)
        *b = 0;
    return 0;
}

int isatty(int f)
{
    (void)f;
    return 0;
}

int getpid(void)
{
    return 1;
}

int getuid(void)
{
    return 0;
}

unsigned sleep(unsigned s)
{
    (void)s;
    return 0;
}

/* the program's main has this name when foreign.py compiles it */
int program_main(int count, char **words);

int main(void)
{
    exit(program_main(program_word_count, (char **)program_words));
}
