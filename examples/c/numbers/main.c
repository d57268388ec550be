/* Divisions and shifts of 64-bit numbers, by what the compiler calls for them, and a digest of their results. */
#include <stdint.h>
#include "kit.h"

#define PAIRS 30

static uint64_t state = 1, digest;

static uint32_t random_word(void)
{
    state = state * 6364136223846793005u + 1442695040888963407u;
    return (uint32_t)(state >> 32);
}

/* numbers of all lengths, and some at the ends */
static uint64_t random_number(void)
{
    static const uint64_t ends[] = { 0, 1, 2, 0x7FFFFFFF, 0x80000000, 0xFFFFFFFF, 0x100000000, INT64_MAX, (uint64_t)INT64_MAX + 1, UINT64_MAX };
    uint32_t choice = random_word();
    if (choice % 8 == 0)
        return ends[choice / 8 % 10];
    uint64_t high = (uint64_t)random_word() << 32;
    return (high | random_word()) >> choice / 8 % 64;
}

static void add(uint64_t result)
{
    digest = (digest ^ result) * 1099511628211u;
}

static void divide(uint64_t a, uint64_t b)
{
    int64_t c = (int64_t)a, d = (int64_t)b;
    if (b == 0)
        return;
    add(a / b);
    add(a % b);
    if (c != INT64_MIN || d != -1) {
        add((uint64_t)(c / d));
        add((uint64_t)(c % d));
    }
}

static void shift(uint64_t a, unsigned by)
{
    add(a << by);
    add(a >> by);
    add((uint64_t)((int64_t)a >> by));
}

int main(void)
{
    for (unsigned i = 0; i < PAIRS; i++) {
        uint64_t a = random_number(), b = random_number();
        divide(a, b);
        shift(a, random_word() % 64);
    }
    print("%u pairs of numbers, digest %08x%08x\n", PAIRS, (unsigned)(digest >> 32), (unsigned)digest);
    return 0;
}
