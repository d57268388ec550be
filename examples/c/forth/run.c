/* Runs what is compiled: a stack of numbers, and a stack of places to return to, on which loops keep their index and limit. */
#include "forth.h"

#define DEEP 64

static int numbers[DEEP];
static unsigned count;
static int returns[DEEP];
static unsigned depth;

void push(int number)
{
    if (count < DEEP)
        numbers[count++] = number;
    else
        fail("too many numbers", "");
}

int pop(void)
{
    if (count > 0)
        return numbers[--count];
    fail("no number", "");
    return 0;
}

static void keep(int value)
{
    if (depth < DEEP)
        returns[depth++] = value;
    else
        fail("too deep", "");
}

/* the cell that a number on the stack names; cell 0 where there is none */
static int *cell_of(int address)
{
    if (address >= 0 && address < CELLS)
        return &cells[address];
    fail("no such cell", "");
    return &cells[0];
}

static int divided(int one, int other, bool rest)
{
    if (other == 0) {
        fail("division by zero", "");
        return 0;
    }
    if (other == -1)
        return rest ? 0 : (int)(0u - (unsigned)one);
    return rest ? one % other : one / other;
}

static int computed(enum operation operation, int one, int other)
{
    switch (operation) {
    case ADD: return (int)((unsigned)one + (unsigned)other);
    case SUBTRACT: return (int)((unsigned)one - (unsigned)other);
    case MULTIPLY: return (int)((unsigned)one * (unsigned)other);
    case DIVIDE: return divided(one, other, false);
    case MODULO: return divided(one, other, true);
    case EQUAL: return -(one == other);
    case LESS: return -(one < other);
    case GREATER: return -(one > other);
    case AND: return one & other;
    default: return one | other;
    }
}

/* operations on the stack alone; those of two numbers above all */
static void operate(enum operation operation)
{
    int one, other, third;
    switch (operation) {
    case DUPLICATE: one = pop(); push(one); push(one); break;
    case DROP: pop(); break;
    case SWAP: other = pop(); one = pop(); push(other); push(one); break;
    case OVER: other = pop(); one = pop(); push(one); push(other); push(one); break;
    case ROTATE: third = pop(); other = pop(); one = pop(); push(other); push(third); push(one); break;
    case IS_ZERO: push(-(pop() == 0)); break;
    case LOAD: push(*cell_of(pop())); break;
    case STORE: other = pop(); one = pop(); *cell_of(other) = one; break;
    case PRINT: print("%d ", pop()); break;
    case EMIT: put((char)pop()); break;
    case NEW_LINE: put('\n'); break;
    case INDEX: push(depth >= 2 ? returns[depth - 1] : 0); break;
    default: other = pop(); one = pop(); push(computed(operation, one, other)); break;
    }
}

/* the number of characters and then each in a cell; answers the cell behind them */
static int show_text(int cell)
{
    int length = cells[cell++];
    while (length-- > 0)
        put((char)cells[cell++]);
    return cell;
}

/* the end of a loop: on to its first cell, or behind it once the index has come to the limit */
static int next_loop(int cell)
{
    if (depth < 2)
        return cell + 1;
    if (++returns[depth - 1] < returns[depth - 2])
        return cells[cell];
    depth -= 2;
    return cell + 1;
}

void run(int cell)
{
    unsigned bottom = depth;
    int limit, index;
    while (!failed) {
        int what = cells[cell++];
        switch (what) {
        case EXIT:
            if (depth == bottom)
                return;
            cell = returns[--depth];
            break;
        case NUMBER: push(cells[cell++]); break;
        case JUMP: cell = cells[cell]; break;
        case JUMP_ZERO: cell = pop() == 0 ? cells[cell] : cell + 1; break;
        case BEGIN_LOOP: index = pop(); limit = pop(); keep(limit); keep(index); break;
        case NEXT_LOOP: cell = next_loop(cell); break;
        case TEXT: cell = show_text(cell); break;
        default:
            if (what < OPERATIONS) {
                operate((enum operation)what);
            } else {
                keep(cell);
                cell = what - OPERATIONS;
            }
        }
    }
    depth = bottom;
    count = 0;
}
