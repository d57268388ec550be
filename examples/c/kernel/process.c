/* A process at its start: pages of its own for program, variables and stack. All have the same addresses, and none reaches another's. */
#include "kernel.h"

#define PROGRAM_PAGES 2

extern const unsigned char user_image[], user_image_end[]; /* image.s */

struct process processes[PROCESSES];

static unsigned char program[PROCESSES][PROGRAM_PAGES][PAGE_SIZE] PAGE_ALIGNED;
static unsigned char stack[PROCESSES][PAGE_SIZE] PAGE_ALIGNED;

void process_make(unsigned number)
{
    struct process *process = &processes[number];
    memcpy(program[number], user_image, (size_t)(user_image_end - user_image)); /* its variables behind it are zeros */
    for (unsigned i = 0; i < PROGRAM_PAGES; i++)
        page_map(&process->table, PROGRAM + i * PAGE_SIZE, page_of(program[number][i]), true);
    page_map(&process->table, STACK_END - PAGE_SIZE, page_of(stack[number]), true);
    process->frame.epc = PROGRAM;
    process->frame.registers[4] = number;
    process->frame.registers[29] = STACK_END - 32;
    process->frame.status = STATUS_USER | STATUS_EXL | STATUS_IE | STATUS_LINE(LINE_TIMER); /* ERET takes EXL off */
}
