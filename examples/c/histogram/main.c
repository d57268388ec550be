/* Four virtual processors make 1024 bytes, wait for each other, and count them together. */
#include <stdint.h>
#include "disco.h"
#include "kit.h"

#define BYTES 1024
#define BINS 16

static unsigned char bytes[BYTES];
static unsigned bins[BINS];
static struct lock lock;
static unsigned finished; /* under the lock */

/* Nobody goes on before all have come. Who comes last opens the next round. */
static void barrier(void)
{
    static unsigned come, round;
    unsigned mine = *(volatile unsigned *)&round;
    if (atomic_add(&come, 1) + 1 == load_device(VCPUS)) {
        come = 0;
        atomic_add(&round, 1);
    }
    while (*(volatile unsigned *)&round == mine) {
    }
}

/* one part of the bytes: part n of the numbers that begin with n */
static void make(unsigned part, unsigned size)
{
    uint32_t number = part;
    for (unsigned i = 0; i < size; i++) {
        number = number * 1103515245u + 12345u;
        bytes[part * size + i] = (unsigned char)(number >> 24);
    }
}

static void count(unsigned part, unsigned size)
{
    for (unsigned i = 0; i < size; i++)
        atomic_add(&bins[bytes[part * size + i] * BINS / 256], 1);
}

static void tell(void)
{
    unsigned sum = 0;
    for (unsigned bin = 0; bin < BINS; bin++) {
        print("%02x to %02x %4u\n", bin * 256 / BINS, (bin + 1) * 256 / BINS - 1, bins[bin]);
        sum += bins[bin];
    }
    print("%u bytes by %u virtual processors\n", sum, finished);
}

int main(void)
{
    unsigned number = load_device(NUMBER), vcpus = load_device(VCPUS);
    make((number + 1) % vcpus, BYTES / vcpus); /* its neighbour's part */
    barrier();
    count(number, BYTES / vcpus);
    lock_take(&lock);
    finished++;
    lock_give(&lock);
    barrier();
    if (number == 0)
        tell();
    return 0;
}
