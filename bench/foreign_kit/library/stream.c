/* What is read from files and written to them. */
#include <errno.h>
#include <stdint.h>
#include <stdlib.h>
#include <string.h>
#include "platform.h"

/* a byte of the console's input, when it has come */
static int wait(void)
{
    int c;
    do
        c = get();
    while (c < 0);
    return c;
}

/* room for so many bytes, and some more; whether there is memory for it. An embedded file is copied here for the first time. */
static int make_room(struct entry *entry, size_t bytes)
{
    if (bytes <= entry->room)
        return 1;
    size_t room = bytes + bytes / 2 + 64;
    unsigned char *data = malloc(room);
    if (data == NULL)
        return 0;
    memcpy(data, entry->data, entry->size);
    if (entry->room > 0)
        free(entry->data);
    entry->data = data;
    entry->room = room;
    return 1;
}

static int write_at(struct kit_file *file, const unsigned char *from, size_t count)
{
    struct entry *entry = file->entry;
    if (!make_room(entry, file->at + count))
        return 0;
    if (file->at > entry->size)
        memset(entry->data + entry->size, 0, file->at - entry->size);
    memcpy(entry->data + file->at, from, count);
    file->at += count;
    if (file->at > entry->size)
        entry->size = file->at;
    return 1;
}

size_t fwrite(const void *from, size_t each, size_t count, FILE *file)
{
    const unsigned char *bytes = from;
    if (file->kind == IS_OUTPUT) {
        for (size_t i = 0; i < each * count; i++)
            put((char)bytes[i]);
        return count;
    }
    if (file->kind == IS_FILE && write_at(file, bytes, each * count))
        return count;
    file->err = 1;
    return 0;
}

int fgetc(FILE *f)
{
    if (f->back >= 0) {
        int c = f->back;
        f->back = -1;
        return c;
    }
    if (f->kind == IS_FILE) {
        if (f->at < f->entry->size)
            return f->entry->data[f->at++];
        f->eof = 1;
        return EOF;
    }
    if (f->kind != IS_INPUT || f->eof)
        return EOF;
    int c = wait();
    if (c == 4) {
        f->eof = 1;
        return EOF;
    }
    return c;
}

int getc(FILE *f)
{
    return fgetc(f);
}

int getchar(void)
{
    return fgetc(stdin);
}

int ungetc(int c, FILE *f)
{
    if (c != EOF) {
        f->back = c;
        f->eof = 0;
    }
    return c;
}

size_t fread(void *p, size_t w, size_t n, FILE *f)
{
    unsigned char *d = p;
    size_t k = w * n, i = 0;
    if (f->kind == IS_FILE && f->back < 0) {
        size_t m = f->entry->size > f->at ? f->entry->size - f->at : 0;
        if (m < k)
            f->eof = 1;
        else
            m = k;
        memcpy(d, f->entry->data + f->at, m);
        f->at += m;
        return w ? m / w : 0;
    }
    for (; i < k; i++) {
        int c = fgetc(f);
        if (c == EOF)
            break;
        d[i] = (unsigned char)c;
    }
    return w ? i / w : 0;
}

char *fgets(char *s, int n, FILE *f)
{
    int i = 0;
    while (i + 1 < n) {
        int c = fgetc(f);
        if (c == EOF)
            break;
        s[i++] = (char)c;
        if (c == '\n')
            break;
    }
    if (!i)
        return 0;
    s[i] = 0;
    return s;
}

int fputc(int c, FILE *f)
{
    if (f->kind == IS_OUTPUT) {
        put((char)c);
        return (unsigned char)c;
    }
    unsigned char b = (unsigned char)c;
    return fwrite(&b, 1, 1, f) ? b : EOF;
}

int putc(int c, FILE *f)
{
    return fputc(c, f);
}

int putchar(int c)
{
    return fputc(c, stdout);
}

int fputs(const char *s, FILE *f)
{
    fwrite(s, 1, strlen(s), f);
    return 0;
}

int puts(const char *s)
{
    fputs(s, stdout);
    putchar('\n');
    return 0;
}

int fflush(FILE *f)
{
    (void)f;
    return 0;
}

int feof(FILE *f)
{
    return f->eof;
}

int ferror(FILE *f)
{
    return f->err;
}

void clearerr(FILE *f)
{
    f->eof = f->err = 0;
}

int fseek(FILE *f, long o, int w)
{
    if (f->kind != IS_FILE)
        return -1;
    long at = o + (w == SEEK_CUR ? (long)f->at : w == SEEK_END ? (long)f->entry->size : 0);
    if (at < 0)
        return -1;
    f->at = (size_t)at;
    f->eof = 0;
    f->back = -1;
    return 0;
}

long ftell(FILE *f)
{
    return f->kind == IS_FILE ? (long)f->at - (f->back >= 0) : -1;
}

void rewind(FILE *f)
{
    fseek(f, 0, SEEK_SET);
    f->err = 0;
}

int setvbuf(FILE *f, char *b, int m, size_t n)
{
    (void)f;
    (void)b;
    (void)m;
    (void)n;
    return 0;
}

void setbuf(FILE *f, char *b)
{
    (void)f;
    (void)b;
}

int fileno(FILE *f)
{
    return f == stdin ? 0 : f == stdout ? 1 : f == stderr ? 2 : 3;
}

void perror(const char *s)
{
    fprintf(stderr, "%s: error %d\n", s, errno);
}
