/* The primes below 4000 by the sieve of Eratosthenes, 300 numbers sorted in a heap, and a digest of both. */
#include <stdint.h>
#include "kit.h"

#define LIMIT 4000
#define NUMBERS 300

static bool crossed[LIMIT];
static unsigned numbers[NUMBERS];
static uint32_t remainders[256];

/* CRC-32, of words with their most significant byte first */
static void make_remainders(void)
{
    for (uint32_t byte = 0; byte < 256; byte++) {
        uint32_t rest = byte;
        for (int bit = 0; bit < 8; bit++)
            rest = rest >> 1 ^ (rest & 1 ? 0xEDB88320u : 0);
        remainders[byte] = rest;
    }
}

static uint32_t digest(uint32_t crc, uint32_t word)
{
    for (int shift = 24; shift >= 0; shift -= 8)
        crc = crc >> 8 ^ remainders[(crc ^ word >> shift) & 0xFF];
    return crc;
}

static void sieve(void)
{
    for (unsigned n = 2; n * n < LIMIT; n++)
        if (!crossed[n])
            for (unsigned multiple = n * n; multiple < LIMIT; multiple += n)
                crossed[multiple] = true;
}

static void tell_primes(void)
{
    unsigned count = 0, last = 0;
    uint32_t crc = 0xFFFFFFFFu;
    for (unsigned n = 2; n < LIMIT; n++)
        if (!crossed[n]) {
            count++;
            last = n;
            crc = digest(crc, n);
        }
    print("%u primes below %u, the last is %u, digest %08x\n", count, LIMIT, last, ~crc);
}

/* The largest of a heap stands first, and each number is no less than the two at twice its place. */
static void sink(unsigned place, unsigned count)
{
    for (unsigned child = 2 * place + 1; child < count; place = child, child = 2 * place + 1) {
        if (child + 1 < count && numbers[child] < numbers[child + 1])
            child++;
        if (numbers[place] >= numbers[child])
            return;
        unsigned number = numbers[place];
        numbers[place] = numbers[child];
        numbers[child] = number;
    }
}

static void sort(void)
{
    for (unsigned place = NUMBERS / 2; place-- > 0;)
        sink(place, NUMBERS);
    for (unsigned count = NUMBERS; count-- > 1;) {
        unsigned largest = numbers[0];
        numbers[0] = numbers[count];
        numbers[count] = largest;
        sink(0, count);
    }
}

static void tell_numbers(const char *what)
{
    uint32_t crc = 0xFFFFFFFFu;
    for (unsigned i = 0; i < NUMBERS; i++)
        crc = digest(crc, numbers[i]);
    print("%s: %u .. %u, digest %08x\n", what, numbers[0], numbers[NUMBERS - 1], ~crc);
}

int main(void)
{
    make_remainders();
    sieve();
    tell_primes();
    for (uint32_t i = 0, number = 1; i < NUMBERS; i++)
        numbers[i] = number = number * 1103515245u + 12345u;
    tell_numbers("as they came");
    sort();
    tell_numbers("sorted");
    return 0;
}
