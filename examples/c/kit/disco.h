/* The machine as a guest's kernel sees it: the device page, memory's direct addresses, and coprocessor 0. */
#ifndef DISCO_H
#define DISCO_H

/* Registers of the device page, at CFFFF000. Each is a word, and nothing else than whole words is allowed there. */
enum device {
    CONSOLE = 0x00,       /* store: the low byte is printed */
    HALT = 0x04,          /* store: this virtual processor halts */
    INPUT = 0x08,         /* load: takes the next byte that was typed, or NOTHING */
    WAITING = 0x0C,       /* load: how many bytes wait */
    NUMBER = 0x10,        /* load: this virtual processor's number, from 0 */
    VCPUS = 0x14,         /* load: how many virtual processors there are */
    CALL = 0x18,          /* store: interrupt 4 of each virtual processor whose bit is 1 */
    ANSWERED = 0x1C,      /* store: interrupt 4 of this one goes off */
    DISK_BLOCK = 0x20,    /* this and the next are kept for each virtual processor */
    DISK_PAGE = 0x24,
    DISK_COMMAND = 0x28,  /* store 1: the block comes into the page; 2: the page goes to the block */
    DISK_STATUS = 0x2C,   /* load: what became of the command, as enum disk_status in kit.h */
    SEND_PAGE = 0x30,     /* and the next: kept for each virtual processor */
    SEND_LENGTH = 0x34,
    SEND = 0x38,          /* store: the page's first bytes go to the guest of that number */
    ARMED = 0x3C,         /* store: a packet may come into that page; load: the page, or NOTHING */
    PACKET_LENGTH = 0x40, /* load: of the last packet, as its sender */
    PACKET_SENDER = 0x44,
    PACKET_TAKEN = 0x48,  /* store: interrupt 3 goes off */
};

#define NOTHING 0xFFFFFFFFu

static inline unsigned load_device(enum device offset)
{
    return *(volatile unsigned *)(0xCFFFF000ul + offset);
}

static inline void store_device(enum device offset, unsigned value)
{
    *(volatile unsigned *)(0xCFFFF000ul + offset) = value;
}

/* Devices move whole pages, which they know by number: the page of an address of the direct segment. */
#define PAGE_SIZE 4096
#define PAGE_ALIGNED __attribute__((aligned(PAGE_SIZE)))

static inline unsigned page_of(const volatile void *address)
{
    return (unsigned)(((unsigned long)address - 0xC0000000ul) / PAGE_SIZE);
}

/* The compiler keeps loads and stores of memory on their side of this. The machine itself never reorders them. */
#define memory_barrier() __asm__ volatile("" ::: "memory")

/* Registers of coprocessor 0 */
enum cp0 { INDEX = 0, RANDOM = 1, ENTRY_LO0 = 2, ENTRY_LO1 = 3, CONTEXT = 4, WIRED = 6, BAD_ADDRESS = 8, COUNT = 9,
           ENTRY_HI = 10, COMPARE = 11, STATUS = 12, CAUSE = 13, EPC = 14 };

/* MFC0 and MTC0 have the register's number in the instruction, so these are macros over a constant. */
#define read_cp0(number) \
    ({ unsigned value_; __asm__ volatile("mfc0 %0, $%1" : "=r"(value_) : "i"(number)); value_; })
#define write_cp0(number, value) __asm__ volatile("mtc0 %0, $%1" : : "r"(value), "i"(number) : "memory")

/* Bits of Status: interrupts on; an exception is being handled; user mode; interrupt line n may interrupt */
#define STATUS_IE 0x01u
#define STATUS_EXL 0x02u
#define STATUS_USER 0x10u
#define STATUS_LINE(n) (0x100u << (n))

/* The lines, in Status and Cause */
enum line { LINE_INPUT = 2, LINE_PACKET = 3, LINE_CALL = 4, LINE_TIMER = 7 };

/* What Cause says of an exception, in bits 6 to 2 */
enum exception { INTERRUPT, TLB_MODIFIED, TLB_LOAD, TLB_STORE, ADDRESS_LOAD, ADDRESS_STORE, BUS_FETCH, BUS_DATA,
                 SYSTEM_CALL, BREAKPOINT, RESERVED, COPROCESSOR, OVERFLOW, TRAP };
#define EXCEPTION_OF(cause) ((enum exception)((cause) >> 2 & 31))

#endif
