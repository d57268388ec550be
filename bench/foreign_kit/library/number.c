/* Numbers out of text, and random ones. */
#include <stddef.h>
#include <stdint.h>
#include <ctype.h>
#include <errno.h>
#include <stdlib.h>

unsigned long long strtoull(const char *s, char **end, int base)
{
    const char *b = s;
    unsigned long long v = 0;
    int neg = 0, any = 0;
    while (isspace((unsigned char)*s))
        s++;
    if (*s == '-') {
        neg = 1;
        s++;
    } else if (*s == '+')
        s++;
    if ((base == 0 || base == 16) && s[0] == '0' && (s[1] | 32) == 'x' && isxdigit((unsigned char)s[2])) {
        s += 2;
        base = 16;
    } else if (base == 0)
        base = *s == '0' ? 8 : 10;
    for (;; s++, any = 1) {
        int d = isdigit((unsigned char)*s) ? *s - '0' : isalpha((unsigned char)*s) ? (*s | 32) - 'a' + 10 : 99;
        if (d >= base)
            break;
        v = v * (unsigned)base + (unsigned)d;
    }
    if (end)
        *end = (char *)(any ? s : b);
    return neg ? 0 - v : v;
}

long long strtoll(const char *s, char **end, int base)
{
    return (long long)strtoull(s, end, base);
}

unsigned long strtoul(const char *s, char **end, int base)
{
    return (unsigned long)strtoull(s, end, base);
}

long strtol(const char *s, char **end, int base)
{
    long long v = strtoll(s, end, base);
    if (v > 2147483647LL) {
        errno = ERANGE;
        return 2147483647L;
    }
    if (v < -2147483647LL - 1) {
        errno = ERANGE;
        return -2147483647L - 1;
    }
    return (long)v;
}

int atoi(const char *s)
{
    return (int)strtol(s, 0, 10);
}

long atol(const char *s)
{
    return strtol(s, 0, 10);
}

int abs(int x)
{
    return x < 0 ? -x : x;
}

long labs(long x)
{
    return x < 0 ? -x : x;
}

static uint32_t seed = 1;
void srand(unsigned s)
{
    seed = s;
}

int rand(void)
{
    seed = seed * 1103515245u + 12345u;
    return (int)(seed >> 1);
}

void srandom(unsigned s)
{
    seed = s;
}

long random(void)
{
    return rand();
}
