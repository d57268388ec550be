/* The cells, and what goes wrong. */
#include "forth.h"

int cells[CELLS];
unsigned cells_used;
bool failed;

void fail(const char *what, const char *with)
{
    if (!failed)
        print("? %s%s\n", what, with);
    failed = true;
}

void compile(int cell)
{
    if (cells_used < CELLS)
        cells[cells_used++] = cell;
    else
        fail("no room", "");
}
