/* What compilers call to divide numbers of 64 bits: faster than the kit's divide.c where the divisor has 32 bits. */
#include <stdint.h>

int __clzsi2(uint32_t x);

struct halves {
    uint32_t quotient, rest;
};

/* (rest, 16 bits more) by a divisor whose first bit is 1, in the manner of long division: a digit of 16 bits by its first half, and corrected */
static struct halves next_digit(uint32_t rest, uint32_t more, uint32_t by)
{
    uint32_t digit = rest / (by >> 16), left = rest - digit * (by >> 16), product = digit * (by & 0xFFFF);
    left = left << 16 | more;
    for (int tries = 0; tries < 2 && left < product; tries++) {
        digit--;
        left += by;
        if (left < by) /* past 2^32: it suffices now */
            break;
    }
    return (struct halves){ digit, left - product };
}

/* (high, low) by a divisor above high */
static struct halves divide_pair(uint32_t high, uint32_t low, uint32_t by)
{
    int shift = __clzsi2(by);
    by <<= shift;
    if (shift > 0) {
        high = high << shift | low >> (32 - shift);
        low <<= shift;
    }
    struct halves first = next_digit(high, low >> 16, by), second = next_digit(first.rest, low & 0xFFFF, by);
    return (struct halves){ first.quotient << 16 | second.quotient, second.rest >> shift };
}

static uint64_t by_word(uint64_t number, uint32_t by, uint64_t *rest)
{
    uint32_t high = (uint32_t)(number >> 32), low = (uint32_t)number;
    if (high == 0) {
        *rest = low % by;
        return low / by;
    }
    struct halves below = divide_pair(high % by, low, by);
    *rest = below.rest;
    return (uint64_t)(high / by) << 32 | below.quotient;
}

/* by a divisor of more than 32 bits: as many bits as its first 1 is behind the number's */
static uint64_t by_pair(uint64_t number, uint64_t by, uint64_t *rest)
{
    int shift = __clzsi2((uint32_t)(by >> 32)) - __clzsi2((uint32_t)(number >> 32));
    uint64_t quotient = 0;
    for (by <<= shift > 0 ? shift : 0; shift >= 0; shift--, by >>= 1) {
        quotient <<= 1;
        if (number >= by) {
            number -= by;
            quotient |= 1;
        }
    }
    *rest = number;
    return quotient;
}

uint64_t __udivmoddi4(uint64_t number, uint64_t by, uint64_t *rest)
{
    uint64_t left;
    uint64_t quotient = by >> 32 == 0 ? by_word(number, (uint32_t)by, &left) : by_pair(number, by, &left);
    if (rest != 0)
        *rest = left;
    return quotient;
}

static uint64_t size_of(int64_t number)
{
    return number < 0 ? 0 - (uint64_t)number : (uint64_t)number;
}

uint64_t __udivdi3(uint64_t number, uint64_t by)
{
    return __udivmoddi4(number, by, 0);
}

uint64_t __umoddi3(uint64_t number, uint64_t by)
{
    uint64_t rest;
    __udivmoddi4(number, by, &rest);
    return rest;
}

int64_t __divdi3(int64_t number, int64_t by)
{
    uint64_t quotient = __udivdi3(size_of(number), size_of(by));
    return (int64_t)((number < 0) != (by < 0) ? 0 - quotient : quotient);
}

int64_t __moddi3(int64_t number, int64_t by)
{
    uint64_t rest = __umoddi3(size_of(number), size_of(by));
    return (int64_t)(number < 0 ? 0 - rest : rest);
}

int64_t __divmoddi4(int64_t number, int64_t by, int64_t *rest)
{
    int64_t quotient = __divdi3(number, by);
    *rest = number - quotient * by;
    return quotient;
}
