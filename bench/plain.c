/* A plain interpreter of the guest machine, to compare speeds with: what bench/guests use, without devices but the console, and without exceptions.
 *
 *     plain MEMORY ENTRY STEPS [THREADS]
 *
 * MEMORY is a file with the first bytes of the guest's memory, ENTRY its first address in hexadecimal. It makes STEPS steps, each with the tick of
 * coprocessor 0 and a look for interrupts, and puts out what was printed. Where an instruction isn't known or a page isn't there, it stops
 * with status 1. Compiled with -DTHREADS -pthread, it runs so many guests at once, each in a thread of its own. */
#include <stdint.h>
#include <stdio.h>
#include <stdlib.h>
#include <string.h>

#ifdef THREADS
#include <pthread.h>
#define OWN static _Thread_local
#else
#define OWN static
#endif

enum { PAGES = 64, PAGE = 4096, ENTRIES = 48, MOST_THREADS = 16 };

struct entry { uint32_t hi, lo[2]; };

static uint8_t image[PAGES * PAGE];
static uint32_t entry;
static uint64_t steps;

OWN uint8_t memory[PAGES * PAGE];
OWN struct entry tlb[ENTRIES];
OWN uint32_t reg[32], hi, lo, pc, next_pc;
OWN uint32_t index_, random_ = ENTRIES - 1, wired, entry_hi, entry_lo[2], count, compare, status, cause, epc;

static void stop(const char *why, uint32_t at)
{
    fprintf(stderr, "plain: %s at %08x, pc %08x\n", why, at, pc);
    exit(1);
}

/* Where an address leads; the device page is the last one below 10000000. */
static uint32_t place(uint32_t address, int store)
{
    if (address >= 0xC0000000 && address < 0xD0000000)
        return address - 0xC0000000;
    for (int i = 0; i < ENTRIES; i++) {
        struct entry *e = &tlb[i];
        if (((e->hi ^ address) & 0xFFFFE000) == 0 && ((e->lo[0] & e->lo[1] & 1) || (e->hi & 0xFF) == (entry_hi & 0xFF))) {
            uint32_t half = e->lo[address >> 12 & 1];
            if (!(half & 2) || (store && !(half & 4)))
                stop("a half that isn't valid", address);
            return (half >> 6 << 12) | (address & 0xFFF);
        }
    }
    stop("no entry", address);
    return 0;
}

static uint32_t load_word(uint32_t address)
{
    uint32_t at = place(address, 0), word;
    if (at >= sizeof memory || at & 3)
        stop("no memory", address);
    memcpy(&word, memory + at, 4);
    return __builtin_bswap32(word);
}

static void store_word(uint32_t address, uint32_t word)
{
    uint32_t at = place(address, 1);
    if (at == 0x0FFFF000) {
        putchar(word & 0xFF);
        return;
    }
    if (at >= sizeof memory || at & 3)
        stop("no memory", address);
    word = __builtin_bswap32(word);
    memcpy(memory + at, &word, 4);
}

static uint32_t load_byte(uint32_t address)
{
    uint32_t at = place(address, 0);
    if (at >= sizeof memory)
        stop("no memory", address);
    return memory[at];
}

static void store_byte(uint32_t address, uint8_t byte)
{
    uint32_t at = place(address, 1);
    if (at >= sizeof memory)
        stop("no memory", address);
    memory[at] = byte;
}

static void write_register(uint32_t number, uint32_t value)
{
    switch (number) {
    case 0: index_ = value & 0x3F; break;
    case 2: entry_lo[0] = value & 0x3FFFFFFF; break;
    case 3: entry_lo[1] = value & 0x3FFFFFFF; break;
    case 6: wired = value & 0x3F; random_ = ENTRIES - 1; break;
    case 9: count = value; break;
    case 10: entry_hi = value & 0xFFFFE0FF; break;
    case 11: compare = value; cause &= ~0x8000u; break;
    case 12: status = value & 0xFF1B; break;
    case 14: epc = value; break;
    default: stop("a register", number);
    }
}

static uint32_t read_register(uint32_t number)
{
    switch (number) {
    case 0: return index_;
    case 1: return random_;
    case 2: return entry_lo[0];
    case 3: return entry_lo[1];
    case 6: return wired;
    case 9: return count;
    case 10: return entry_hi;
    case 11: return compare;
    case 12: return status;
    case 13: return cause;
    case 14: return epc;
    default: stop("a register", number); return 0;
    }
}

static void write_entry(uint32_t at)
{
    if (at < ENTRIES)
        tlb[at] = (struct entry){entry_hi, {entry_lo[0], entry_lo[1]}};
}

static void special(uint32_t word, uint32_t s, uint32_t t, uint32_t *d)
{
    uint32_t amount = word >> 6 & 31;
    int64_t product;
    switch (word & 63) {
    case 0: *d = t << amount; break;
    case 2: *d = t >> amount; break;
    case 3: *d = (int32_t)t >> amount; break;
    case 4: *d = t << (s & 31); break;
    case 6: *d = t >> (s & 31); break;
    case 7: *d = (int32_t)t >> (s & 31); break;
    case 8: next_pc = s; break;
    case 9: *d = next_pc; next_pc = s; break;
    case 16: *d = hi; break;
    case 17: hi = s; break;
    case 18: *d = lo; break;
    case 19: lo = s; break;
    case 24: product = (int64_t)(int32_t)s * (int32_t)t; hi = product >> 32; lo = product; break;
    case 25: product = (uint64_t)s * t; hi = product >> 32; lo = product; break;
    case 33: *d = s + t; break;
    case 35: *d = s - t; break;
    case 36: *d = s & t; break;
    case 37: *d = s | t; break;
    case 38: *d = s ^ t; break;
    case 39: *d = ~(s | t); break;
    case 42: *d = (int32_t)s < (int32_t)t; break;
    case 43: *d = s < t; break;
    default: stop("an instruction", word);
    }
}

static void coprocessor(uint32_t word, uint32_t *t)
{
    if (word >> 21 == 0x200)
        *t = read_register(word >> 11 & 31);
    else if (word >> 21 == 0x204)
        write_register(word >> 11 & 31, *t);
    else if (word == 0x42000002)
        write_entry(index_);
    else if (word == 0x42000006)
        write_entry(random_);
    else
        stop("an instruction", word);
}

static void step(void)
{
    if ((status & 3) == 1 && status & cause & 0xFF00)
        stop("an interrupt", cause);
    uint32_t word = load_word(pc), here = pc;
    uint32_t s = reg[word >> 21 & 31], *t = &reg[word >> 16 & 31], *d = &reg[word >> 11 & 31];
    uint32_t low = word & 0xFFFF, number = (int16_t)word, target = here + 4 + (number << 2);
    pc = next_pc;
    next_pc += 4;
    switch (word >> 26) {
    case 0: special(word, s, *t, d); break;
    case 1:
        if ((word >> 16 & 30) != 0)
            stop("an instruction", word);
        if (((int32_t)s < 0) != (word >> 16 & 1))
            next_pc = target;
        break;
    case 2: next_pc = (pc & 0xF0000000) | (word & 0x03FFFFFF) << 2; break;
    case 3: reg[31] = next_pc; next_pc = (pc & 0xF0000000) | (word & 0x03FFFFFF) << 2; break;
    case 4: if (s == *t) next_pc = target; break;
    case 5: if (s != *t) next_pc = target; break;
    case 6: if ((int32_t)s <= 0) next_pc = target; break;
    case 7: if ((int32_t)s > 0) next_pc = target; break;
    case 9: *t = s + number; break;
    case 10: *t = (int32_t)s < (int32_t)number; break;
    case 11: *t = s < number; break;
    case 12: *t = s & low; break;
    case 13: *t = s | low; break;
    case 14: *t = s ^ low; break;
    case 15: *t = low << 16; break;
    case 16: coprocessor(word, t); break;
    case 32: *t = (int8_t)load_byte(s + number); break;
    case 35: *t = load_word(s + number); break;
    case 36: *t = load_byte(s + number); break;
    case 40: store_byte(s + number, *t); break;
    case 43: store_word(s + number, *t); break;
    default: stop("an instruction", word);
    }
    reg[0] = 0;
    count++;
    if (count == compare)
        cause |= 0x8000;
    random_ = random_ <= wired ? ENTRIES - 1 : random_ - 1;
}

static void *guest(void *unused)
{
    (void)unused;
    memcpy(memory, image, sizeof memory);
    for (uint32_t i = 0; i < ENTRIES; i++)
        tlb[i].hi = 0x80000000 + 0x2000 * i;
    pc = entry;
    next_pc = pc + 4;
    for (uint64_t left = steps; left > 0; left--)
        step();
    return NULL;
}

#ifdef THREADS
static int guests(unsigned long threads)
{
    pthread_t thread[MOST_THREADS];
    if (threads < 1 || threads > MOST_THREADS)
        return 2;
    for (unsigned long i = 1; i < threads; i++)
        if (pthread_create(&thread[i], NULL, guest, NULL) != 0)
            return 2;
    guest(NULL);
    for (unsigned long i = 1; i < threads; i++)
        pthread_join(thread[i], NULL);
    return 0;
}
#endif

int main(int words, char **word)
{
#ifdef THREADS
    if (words != 5)
        return 2;
#else
    if (words != 4)
        return 2;
#endif
    FILE *file = fopen(word[1], "rb");
    if (file == NULL || fread(image, 1, sizeof image, file) == 0)
        return 2;
    entry = strtoul(word[2], NULL, 16);
    steps = strtoull(word[3], NULL, 10);
#ifdef THREADS
    return guests(strtoul(word[4], NULL, 10));
#else
    guest(NULL);
    return 0;
#endif
}
