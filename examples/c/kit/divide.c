/* What compilers call to divide numbers of 64 bits. Their own library for this processor has later instructions than the machine's. */
#include <stdint.h>

/* One bit of the quotient after the other, from the highest that it can have. A divisor of 0 gives a quotient of ones, as DIVU does. */
static uint64_t divided(uint64_t number, uint64_t by, uint64_t *rest)
{
    uint64_t quotient = 0, left = 0;
    if (number >> 32 == 0 && by >> 32 == 0 && by != 0) {
        *rest = (uint32_t)number % (uint32_t)by;
        return (uint32_t)number / (uint32_t)by;
    }
    for (unsigned bit = 0; bit < 64; bit++) {
        unsigned carry = (unsigned)(left >> 63);
        left = left << 1 | number >> 63;
        number <<= 1;
        quotient <<= 1;
        if (carry != 0 || left >= by) {
            left -= by;
            quotient |= 1;
        }
    }
    *rest = left;
    return quotient;
}

static uint64_t size_of(int64_t number)
{
    return number < 0 ? 0 - (uint64_t)number : (uint64_t)number;
}

uint64_t __udivdi3(uint64_t number, uint64_t by)
{
    uint64_t rest;
    return divided(number, by, &rest);
}

uint64_t __umoddi3(uint64_t number, uint64_t by)
{
    uint64_t rest;
    divided(number, by, &rest);
    return rest;
}

int64_t __divdi3(int64_t number, int64_t by)
{
    uint64_t quotient = __udivdi3(size_of(number), size_of(by));
    return (int64_t)((number < 0) != (by < 0) ? 0 - quotient : quotient);
}

int64_t __moddi3(int64_t number, int64_t by)
{
    uint64_t rest = __umoddi3(size_of(number), size_of(by));
    return (int64_t)(number < 0 ? 0 - rest : rest);
}
