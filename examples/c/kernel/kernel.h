/* A kernel of processes, each in an address space of its own, that a timer takes turns of. */
#ifndef KERNEL_H
#define KERNEL_H
#include "disco.h"
#include "kit.h"

/* where each process has its program, its variables and its stack */
#define PROGRAM 0x10000u
#define STACK_END 0x20000u

enum state { READY, WAITS, ENDED };

struct process {
    struct frame frame;
    struct page_table table;
    enum state state;
    unsigned waits_for; /* a pipe */
    unsigned result;    /* what it ended with */
    unsigned fault;     /* and the exception that ended it, or 0 */
};

#define PROCESSES 7
extern struct process processes[PROCESSES];

/* process.c: makes one whose main() gets its number */
void process_make(unsigned number);

/* pipe.c: whether the call could be carried out; if not, the process waits for the pipe */
#define PIPES PROCESSES
bool pipe_write(struct process *process, unsigned pipe, unsigned value);
bool pipe_read(struct process *process, unsigned pipe);

#endif
