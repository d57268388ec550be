/* The timer. Count grows by one with each step of this virtual processor; where it comes to Compare, line 7 goes on, until Compare is written. */
#include "disco.h"
#include "kit.h"

void timer_start(unsigned steps)
{
    write_cp0(COMPARE, read_cp0(COUNT) + steps);
    write_cp0(STATUS, read_cp0(STATUS) | STATUS_LINE(LINE_TIMER) | STATUS_IE);
}

/* from trapped(). The steps have to be more than a trap takes: a Compare that Count has passed comes again after 2^32 steps only. */
void timer_again(unsigned steps)
{
    write_cp0(COMPARE, read_cp0(COMPARE) + steps);
}
