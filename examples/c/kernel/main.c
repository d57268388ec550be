/* The kernel's traps: system calls, the timer, and faults, which end the process that made them. */
#include "calls.h"
#include "kernel.h"

#define TURN 2000 /* steps */

static struct process *running; /* NULL before the first */
static unsigned ticks;

/* the next one that is ready, after the one that ran; NULL where there is none */
static struct process *next_ready(void)
{
    unsigned last = running != NULL ? (unsigned)(running - processes) : PROCESSES - 1;
    for (unsigned i = 1; i <= PROCESSES; i++) {
        struct process *process = &processes[(last + i) % PROCESSES];
        if (process->state == READY)
            return process;
    }
    return NULL;
}

static void end(struct process *process, unsigned result, enum exception fault)
{
    process->state = ENDED;
    process->result = result;
    process->fault = fault;
}

/* whether the process goes on behind its system call; one that has to wait makes the call again */
static bool carry_out(struct process *process)
{
    unsigned *registers = process->frame.registers;
    switch (registers[2]) {
    case CALL_PUT: put((char)registers[4]); return true;
    case CALL_READ: return pipe_read(process, registers[4]);
    case CALL_WRITE: return pipe_write(process, registers[4], registers[5]);
    default: end(process, registers[4], INTERRUPT); return true;
    }
}

static void tell_ends(void)
{
    for (unsigned i = 0; i < PROCESSES; i++)
        if (processes[i].state != ENDED)
            print("process %u waits for pipe %u\n", i, processes[i].waits_for);
        else if (processes[i].fault != 0)
            print("process %u ended by exception %u at address %08x\n", i, processes[i].fault, processes[i].result);
        else
            print("process %u ended with %u\n", i, processes[i].result);
    print("the timer has %scome\n", ticks > 0 ? "" : "not ");
    halt();
}

static void serve(enum exception what)
{
    if (what == INTERRUPT) {
        ticks++;
        timer_again(TURN);
    } else if (what != SYSTEM_CALL) {
        end(running, running->frame.bad_address, what);
    } else if (carry_out(running)) {
        running->frame.epc += 4;
    }
}

/* Each trap may end in another process: its registers go into the frame that start.s returns to. */
void trapped(struct frame *frame)
{
    enum exception what = EXCEPTION_OF(frame->cause);
    if (running != NULL) {
        running->frame = *frame;
        serve(what);
    }
    if (running == NULL || what == INTERRUPT || running->state != READY)
        running = next_ready();
    if (running == NULL)
        tell_ends();
    page_use(&running->table, (unsigned)(running - processes));
    *frame = running->frame;
}

int main(void)
{
    for (unsigned number = 0; number < PROCESSES; number++)
        process_make(number);
    timer_start(TURN);
    __asm__ volatile("break"); /* into the first process */
    return 0;
}
