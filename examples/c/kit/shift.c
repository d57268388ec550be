/* What compilers call to shift numbers of 64 bits: in two words, the upper one first. */
#include <stdint.h>

union pair {
    uint64_t whole;
    struct { uint32_t high, low; } part;
};

uint64_t __ashldi3(uint64_t number, int by)
{
    union pair p = { number };
    if (by >= 32)
        p.part.high = p.part.low << (by - 32), p.part.low = 0;
    else if (by > 0)
        p.part.high = p.part.high << by | p.part.low >> (32 - by), p.part.low <<= by;
    return p.whole;
}

uint64_t __lshrdi3(uint64_t number, int by)
{
    union pair p = { number };
    if (by >= 32)
        p.part.low = p.part.high >> (by - 32), p.part.high = 0;
    else if (by > 0)
        p.part.low = p.part.low >> by | p.part.high << (32 - by), p.part.high >>= by;
    return p.whole;
}

int64_t __ashrdi3(int64_t number, int by)
{
    union pair p = { (uint64_t)number };
    uint32_t sign = number < 0 ? 0xFFFFFFFFu : 0;
    if (by >= 32)
        p.part.low = (uint32_t)((int32_t)p.part.high >> (by - 32)), p.part.high = sign;
    else if (by > 0)
        p.part.low = p.part.low >> by | p.part.high << (32 - by), p.part.high = (uint32_t)((int32_t)p.part.high >> by);
    return (int64_t)p.whole;
}
