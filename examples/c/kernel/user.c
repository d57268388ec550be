/* The program of all processes. Process 0 sends the numbers from 2 on through a row of sieves: each further one keeps the first number that comes,
   which is a prime, and sends on what it doesn't divide. Process 5 prints the rest, and then does what no process may. Process 6 counts by
   itself, and calls nobody until its end. */
#include "calls.h"

#define LAST 5
#define LIMIT 30
#define ROUNDS 2000

__asm__(".section .start, \"ax\"\n\t.set push\n\t.set noreorder\n"
        "\t.globl user_start\nuser_start:\n"
        "\tjal   main\n\tnop\n"
        "\tmove  $4, $2\n\tli $2, 0\n\tsyscall\n" /* CALL_END with what main returned */
        "\t.set pop\n\t.text\n");

static unsigned call(enum call number, unsigned one, unsigned two)
{
    register unsigned r2 __asm__("$2") = number, r4 __asm__("$4") = one, r5 __asm__("$5") = two;
    __asm__ volatile("syscall" : "+r"(r2) : "r"(r4), "r"(r5) : "memory");
    return r2;
}

static unsigned seen; /* at one address in all processes, and each has its own */
static volatile unsigned nowhere = 8;

static unsigned receive(unsigned me)
{
    unsigned number = call(CALL_READ, me - 1, 0);
    seen += number != 0;
    return number;
}

static void send(unsigned me, unsigned number)
{
    call(CALL_WRITE, me, number);
}

static void show(unsigned number)
{
    if (number >= 10)
        call(CALL_PUT, '0' + number / 10, 0);
    call(CALL_PUT, '0' + number % 10, 0);
    call(CALL_PUT, ' ', 0);
}

static void source(void)
{
    for (unsigned number = 2; number <= LIMIT; number++)
        send(0, number);
    send(0, 0);
}

static void sieve(unsigned me)
{
    unsigned prime = receive(me), number;
    show(prime);
    while ((number = receive(me)) != 0)
        if (number % prime != 0)
            send(me, number);
    send(me, 0);
}

static void sink(unsigned me)
{
    unsigned number;
    while ((number = receive(me)) != 0)
        show(number);
    call(CALL_PUT, '\n', 0);
    *(volatile unsigned *)nowhere = seen;
}

/* the low bits of a row of numbers */
static void worker(void)
{
    for (unsigned round = 0, number = 1; round < ROUNDS; round++) {
        number = number * 1103515245u + 12345u;
        seen += number >> 16 & 1;
    }
}

int main(unsigned me)
{
    if (me == 0)
        source();
    else if (me < LAST)
        sieve(me);
    else if (me == LAST)
        sink(me);
    else
        worker();
    return (int)seen;
}
