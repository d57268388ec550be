/* Pipes of numbers, with room for a few. Who finds one empty or full waits, and asks again once somebody has read or written there. */
#include "kernel.h"

#define ROOM 4

static struct pipe { unsigned values[ROOM], first, count; } pipes[PIPES];

static bool wait_for(struct process *process, unsigned pipe)
{
    process->state = WAITS;
    process->waits_for = pipe;
    return false;
}

static void wake(unsigned pipe)
{
    for (unsigned i = 0; i < PROCESSES; i++)
        if (processes[i].state == WAITS && processes[i].waits_for == pipe)
            processes[i].state = READY;
}

bool pipe_write(struct process *process, unsigned number, unsigned value)
{
    struct pipe *pipe = &pipes[number % PIPES];
    if (pipe->count == ROOM)
        return wait_for(process, number);
    pipe->values[(pipe->first + pipe->count++) % ROOM] = value;
    wake(number);
    return true;
}

bool pipe_read(struct process *process, unsigned number)
{
    struct pipe *pipe = &pipes[number % PIPES];
    if (pipe->count == 0)
        return wait_for(process, number);
    process->frame.registers[2] = pipe->values[pipe->first];
    pipe->first = (pipe->first + 1) % ROOM;
    pipe->count--;
    wake(number);
    return true;
}
