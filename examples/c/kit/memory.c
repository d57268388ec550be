/* What compilers call by themselves, for copies and zeros. Words where both ends are aligned, else bytes. */
#include <stdint.h>
#include "kit.h"

static bool aligned(const void *one, const void *other)
{
    return (((uintptr_t)one | (uintptr_t)other) & 3) == 0;
}

void *memcpy(void *to, const void *from, size_t count)
{
    unsigned char *d = to;
    const unsigned char *s = from;
    if (aligned(to, from))
        for (; count >= 4; count -= 4, d += 4, s += 4)
            *(uint32_t *)d = *(const uint32_t *)s;
    while (count-- > 0)
        *d++ = *s++;
    return to;
}

void *memmove(void *to, const void *from, size_t count)
{
    unsigned char *d = to;
    const unsigned char *s = from;
    if (d <= s || d >= s + count)
        return memcpy(to, from, count);
    while (count-- > 0)
        d[count] = s[count];
    return to;
}

void *memset(void *to, int byte, size_t count)
{
    unsigned char *d = to;
    uint32_t word = (unsigned char)byte * 0x01010101u;
    if (aligned(to, to))
        for (; count >= 4; count -= 4, d += 4)
            *(uint32_t *)d = word;
    while (count-- > 0)
        *d++ = (unsigned char)byte;
    return to;
}

int memcmp(const void *one, const void *other, size_t count)
{
    const unsigned char *a = one, *b = other;
    for (; count > 0; count--, a++, b++)
        if (*a != *b)
            return *a - *b;
    return 0;
}

size_t strlen(const char *text)
{
    size_t length = 0;
    while (text[length] != 0)
        length++;
    return length;
}

int strcmp(const char *one, const char *other)
{
    while (*one != 0 && *one == *other)
        one++, other++;
    return (unsigned char)*one - (unsigned char)*other;
}
