/* What several virtual processors share. LL loads a word and links its line of 32 bytes; SC stores only while the line is still linked, and
   answers 1 then and 0 otherwise. A store into the line by another virtual processor ends the link, and so does a return from a trap. */
#include "disco.h"
#include "kit.h"

unsigned atomic_add(unsigned *word, unsigned amount)
{
    unsigned before, after;
    __asm__ volatile(
        ".set push\n\t.set noreorder\n"
        "1:\tll   %0, %2\n\t"
        "addu %1, %0, %3\n\t"
        "sc   %1, %2\n\t"
        "beqz %1, 1b\n\t"
        "nop\n\t"
        ".set pop"
        : "=&r"(before), "=&r"(after), "+m"(*word)
        : "r"(amount)
        : "memory");
    return before;
}

/* 0 becomes 1, by one alone */
static bool taken(unsigned *word)
{
    unsigned before, made;
    __asm__ volatile(
        ".set push\n\t.set noreorder\n\t"
        "li   %1, 0\n\t"
        "ll   %0, %2\n\t"
        "bnez %0, 1f\n\t"
        "nop\n\t"
        "li   %1, 1\n\t"
        "sc   %1, %2\n"
        "1:\n\t.set pop"
        : "=&r"(before), "=&r"(made), "+m"(*word)
        :
        : "memory");
    return made != 0;
}

void lock_take(struct lock *lock)
{
    while (!taken(&lock->held)) {
    }
}

void lock_give(struct lock *lock)
{
    memory_barrier();
    *(volatile unsigned *)&lock->held = 0;
}
