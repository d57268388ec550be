/* In how many ways 4 to 8 queens stand on a board of 4 to 8 rows so that none attacks another. */

/* The device page, as the guest's kernel reaches it. A word stored to the first register is printed, and to the second halts. */
#define CONSOLE (*(volatile unsigned *)0xCFFFF000)
#define HALT (*(volatile unsigned *)0xCFFFF004)

/* The guest starts at _start with all registers 0. The stack ends where its memory does, behind page 1. */
__asm__(".section .text.start, \"ax\"\n"
        ".globl _start\n"
        "_start:\n"
        "    .set noreorder\n"
        "    lui   $29, 0xC000\n"
        "    ori   $29, $29, 0x2000\n"
        "    jal   main\n"
        "    addiu $29, $29, -32\n"
        "    .set reorder\n");

static void print(char c)
{
    CONSOLE = c;
}

static void print_number(unsigned n)
{
    if (n >= 10)
        print_number(n / 10);
    print('0' + n % 10);
}

/* The ways to fill the rows from this one on. A column that is taken, or attacked along a diagonal, has its bit set. */
static unsigned ways(unsigned all, unsigned columns, unsigned left, unsigned right)
{
    if (columns == all)
        return 1;
    unsigned sum = 0;
    unsigned open = all & ~(columns | left | right);
    while (open != 0) {
        unsigned queen = open & -open;
        open -= queen;
        sum += ways(all, columns | queen, (left | queen) << 1, (right | queen) >> 1);
    }
    return sum;
}

void main(void)
{
    for (unsigned size = 4; size <= 8; size++) {
        print_number(size);
        print(' ');
        print_number(ways((1u << size) - 1, 0, 0, 0));
        print('\n');
    }
    HALT = 0;
    for (;;) {
    }
}
