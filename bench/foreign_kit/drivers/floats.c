/* Sums, products, quotients, comparisons and conversions of doubles, and a digest of their bits. */
#include <stdint.h>
#include <stdio.h>

#define PAIRS 2000

static uint64_t state = 1, digest;

static uint64_t random_bits(void)
{
    state = state * 6364136223846793005u + 1442695040888963407u;
    uint64_t high = state & 0xFFFFFFFF00000000u;
    state = state * 6364136223846793005u + 1442695040888963407u;
    return high | state >> 32;
}

/* any bits; or numbers near each other; or what stands at the ends */
static double random_double(void)
{
    static const uint64_t ends[] = { 0, 1, 0x000FFFFFFFFFFFFF, 0x0010000000000000, 0x3FF0000000000000, 0x7FEFFFFFFFFFFFFF, 0x7FF0000000000000,
                                     0x7FF8000000000000 };
    union { uint64_t bits; double number; } u = { random_bits() };
    unsigned choice = (unsigned)(random_bits() >> 32) % 8;
    if (choice == 0)
        u.bits = ends[random_bits() >> 32 & 7] | (u.bits & 1) << 63;
    else if (choice < 5)
        u.bits = (u.bits & 0x800FFFFFFFFFFFFF) | (uint64_t)(1000 + (u.bits >> 52) % 80) << 52;
    return u.number;
}

/* what is no number has many forms, which are one here */
static void add(double number)
{
    union { double number; uint64_t bits; } u = { number };
    if (number != number)
        u.bits = 0;
    digest = (digest ^ u.bits) * 1099511628211u;
}

static void add_whole(uint64_t number)
{
    digest = (digest ^ number) * 1099511628211u;
}

int main(void)
{
    for (unsigned i = 0; i < PAIRS; i++) {
        double a = random_double(), b = random_double();
        add(a + b);
        add(a - b);
        add(a * b);
        add(a / b);
        add((double)(float)a);
        add((double)(int64_t)random_bits());
        add((double)random_bits());
        add((double)(int32_t)random_bits());
        add_whole((uint64_t)((a < b) | (a <= b) << 1 | (a == b) << 2 | (a != b) << 3 | (a > b) << 4 | (a >= b) << 5));
        if (a > -2147483648.0 && a < 2147483648.0)
            add_whole((uint32_t)(int32_t)a);
        if (a > -9223372036854775808.0 && a < 9223372036854775808.0)
            add_whole((uint64_t)(int64_t)a);
    }
    printf("%u pairs, digest %08x%08x\n", PAIRS, (unsigned)(digest >> 32), (unsigned)digest);
    return 0;
}
