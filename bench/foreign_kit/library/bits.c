/* What compilers call to count bits, swap bytes and compare numbers of 64 bits. */
#include <stdint.h>

/* zeros before the first 1 */
int __clzsi2(uint32_t x)
{
    int zeros = 0;
    if (x == 0)
        return 32;
    for (int by = 16; by > 0; by /= 2)
        if (x >> (32 - by) == 0) {
            zeros += by;
            x <<= by;
        }
    return zeros;
}

int __clzdi2(uint64_t x)
{
    return x >> 32 != 0 ? __clzsi2((uint32_t)(x >> 32)) : 32 + __clzsi2((uint32_t)x);
}

/* zeros behind the last 1 */
int __ctzsi2(uint32_t x)
{
    return 31 - __clzsi2(x & (0 - x));
}

int __ctzdi2(uint64_t x)
{
    return (uint32_t)x != 0 ? __ctzsi2((uint32_t)x) : 32 + __ctzsi2((uint32_t)(x >> 32));
}

int __ffssi2(uint32_t x)
{
    return x != 0 ? __ctzsi2(x) + 1 : 0;
}

int __ffsdi2(uint64_t x)
{
    return x != 0 ? __ctzdi2(x) + 1 : 0;
}

/* sums of the bits in pairs, in fours, in bytes, and of these */
int __popcountsi2(uint32_t x)
{
    x -= x >> 1 & 0x55555555;
    x = (x & 0x33333333) + (x >> 2 & 0x33333333);
    x = (x + (x >> 4)) & 0x0F0F0F0F;
    return (int)(x * 0x01010101u >> 24);
}

int __popcountdi2(uint64_t x)
{
    return __popcountsi2((uint32_t)x) + __popcountsi2((uint32_t)(x >> 32));
}

int __paritysi2(uint32_t x)
{
    return __popcountsi2(x) & 1;
}

uint32_t __bswapsi2(uint32_t x)
{
    return x >> 24 | (x >> 8 & 0xFF00) | (x << 8 & 0xFF0000) | x << 24;
}

uint64_t __bswapdi2(uint64_t x)
{
    return (uint64_t)__bswapsi2((uint32_t)x) << 32 | __bswapsi2((uint32_t)(x >> 32));
}

/* 0, 1, 2 for less, equal, greater */
int __ucmpdi2(uint64_t a, uint64_t b)
{
    return a < b ? 0 : a == b ? 1 : 2;
}

int __cmpdi2(int64_t a, int64_t b)
{
    return a < b ? 0 : a == b ? 1 : 2;
}
