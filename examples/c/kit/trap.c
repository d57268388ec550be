/* A trap that the program doesn't expect: what it was, where, and with which stack. */
#include "disco.h"
#include "kit.h"

static const char *const names[] = { "interrupt", "TLB modified", "TLB load", "TLB store", "address load", "address store", "bus fetch",
                                     "bus data", "system call", "breakpoint", "reserved", "coprocessor", "overflow", "trap" };

void trap_report(const struct frame *frame)
{
    enum exception what = EXCEPTION_OF(frame->cause);
    print("\n[%s at %08x", what <= TRAP ? names[what] : "?", frame->epc);
    if (frame->cause >> 31 != 0)
        put_text(", in the slot behind it");
    if (what >= TLB_MODIFIED && what <= ADDRESS_STORE)
        print(", address %08x", frame->bad_address);
    print(", stack %08x, return %08x]\n", frame->registers[29], frame->registers[31]);
}

__attribute__((weak)) void trapped(struct frame *frame)
{
    trap_report(frame);
    halt();
}
