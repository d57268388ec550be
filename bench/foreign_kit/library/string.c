/* Strings and memory. */
#include <stddef.h>
#include <stdint.h>
#include <string.h>
#include <stdlib.h>
#include <ctype.h>

void *memcpy(void *d, const void *s, size_t n)
{
    unsigned char *a = d;
    const unsigned char *b = s;
    if ((((uintptr_t)a | (uintptr_t)b) & 3) == 0) {
        uint32_t *p = (uint32_t *)a;
        const uint32_t *q = (const uint32_t *)b;
        for (; n >= 16; n -= 16, p += 4, q += 4) {
            uint32_t w = q[0], x = q[1], y = q[2], z = q[3];
            p[0] = w;
            p[1] = x;
            p[2] = y;
            p[3] = z;
        }
        for (; n >= 4; n -= 4)
            *p++ = *q++;
        a = (unsigned char *)p;
        b = (const unsigned char *)q;
    }
    while (n--)
        *a++ = *b++;
    return d;
}

void *memmove(void *d, const void *s, size_t n)
{
    unsigned char *a = d;
    const unsigned char *b = s;
    if (a <= b || a >= b + n)
        return memcpy(d, s, n);
    a += n;
    b += n;
    if ((((uintptr_t)a | (uintptr_t)b) & 3) == 0)
        for (; n >= 4; n -= 4) {
            a -= 4;
            b -= 4;
            *(uint32_t *)a = *(const uint32_t *)b;
        }
    while (n--)
        *--a = *--b;
    return d;
}

void *memset(void *d, int c, size_t n)
{
    unsigned char *a = d;
    for (; n && ((uintptr_t)a & 3); n--)
        *a++ = (unsigned char)c;
    uint32_t w = (unsigned char)c * 0x01010101u, *p = (uint32_t *)a;
    for (; n >= 16; n -= 16, p += 4) {
        p[0] = w;
        p[1] = w;
        p[2] = w;
        p[3] = w;
    }
    for (; n >= 4; n -= 4)
        *p++ = w;
    for (a = (unsigned char *)p; n; n--)
        *a++ = (unsigned char)c;
    return d;
}

int memcmp(const void *x, const void *y, size_t n)
{
    const unsigned char *a = x, *b = y;
    for (; n; n--, a++, b++)
        if (*a != *b)
            return *a - *b;
    return 0;
}

void *memchr(const void *s, int c, size_t n)
{
    const unsigned char *a = s;
    for (; n; n--, a++)
        if (*a == (unsigned char)c)
            return (void *)a;
    return 0;
}

size_t strlen(const char *s)
{
    const char *p = s;
    while (*p)
        p++;
    return (size_t)(p - s);
}

size_t strnlen(const char *s, size_t m)
{
    size_t n = 0;
    while (n < m && s[n])
        n++;
    return n;
}

int strcmp(const char *a, const char *b)
{
    while (*a && *a == *b)
        a++, b++;
    return (unsigned char)*a - (unsigned char)*b;
}

int strcoll(const char *a, const char *b)
{
    return strcmp(a, b);
}

int strncmp(const char *a, const char *b, size_t n)
{
    for (; n; n--, a++, b++) {
        if (*a != *b)
            return (unsigned char)*a - (unsigned char)*b;
        if (!*a)
            break;
    }
    return 0;
}

int strncasecmp(const char *a, const char *b, size_t n)
{
    for (; n; n--, a++, b++) {
        int x = tolower((unsigned char)*a), y = tolower((unsigned char)*b);
        if (x != y)
            return x - y;
        if (!x)
            break;
    }
    return 0;
}

int strcasecmp(const char *a, const char *b)
{
    return strncasecmp(a, b, (size_t)-1);
}

char *strcpy(char *d, const char *s)
{
    char *r = d;
    while ((*d++ = *s++))
        ;
    return r;
}

char *strncpy(char *d, const char *s, size_t n)
{
    size_t i = 0;
    for (; i < n && s[i]; i++)
        d[i] = s[i];
    for (; i < n; i++)
        d[i] = 0;
    return d;
}

char *strcat(char *d, const char *s)
{
    strcpy(d + strlen(d), s);
    return d;
}

char *strncat(char *d, const char *s, size_t n)
{
    char *e = d + strlen(d);
    while (n-- && *s)
        *e++ = *s++;
    *e = 0;
    return d;
}

char *strchr(const char *s, int c)
{
    for (;; s++) {
        if (*s == (char)c)
            return (char *)s;
        if (!*s)
            return 0;
    }
}

char *strrchr(const char *s, int c)
{
    const char *r = 0;
    for (;; s++) {
        if (*s == (char)c)
            r = s;
        if (!*s)
            return (char *)r;
    }
}

char *strstr(const char *h, const char *n)
{
    size_t l = strlen(n);
    for (;; h++) {
        if (!strncmp(h, n, l))
            return (char *)h;
        if (!*h)
            return 0;
    }
}

size_t strspn(const char *s, const char *t)
{
    size_t n = 0;
    while (s[n] && strchr(t, s[n]))
        n++;
    return n;
}

size_t strcspn(const char *s, const char *t)
{
    size_t n = 0;
    while (s[n] && !strchr(t, s[n]))
        n++;
    return n;
}

char *strpbrk(const char *s, const char *t)
{
    s += strcspn(s, t);
    return *s ? (char *)s : 0;
}

char *strtok(char *s, const char *t)
{
    static char *at;
    if (!s)
        s = at;
    if (!s)
        return 0;
    s += strspn(s, t);
    if (!*s) {
        at = 0;
        return 0;
    }
    char *e = s + strcspn(s, t);
    if (*e) {
        *e = 0;
        at = e + 1;
    } else
        at = 0;
    return s;
}

char *strdup(const char *s)
{
    size_t n = strlen(s) + 1;
    char *p = malloc(n);
    if (p)
        memcpy(p, s, n);
    return p;
}

char *strerror(int e)
{
    (void)e;
    return "error";
}
