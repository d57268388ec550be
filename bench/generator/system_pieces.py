"""Pieces of random programs that use coprocessor 0, the TLB, user mode and the device page."""

from __future__ import annotations

from . import operands
from .assembler import COPROCESSOR_REGISTERS, KERNEL, NOP, encode
from .kernel import DATA, DEVICE, KERNEL_DATA, USER_CODE, USER_DATA, USER_DEVICE, add_to_sum
from .pieces import (
    COUNTER,
    DATA_BASES,
    DEVICE_BASE,
    SCRATCH,
    USER_DEVICE_BASE,
    Context,
    any_word,
    call_kernel,
    conditional_branch,
    device_access,
    edge_access,
    exceptions,
    fresh_operands,
    jump,
    linked_update,
    loop,
    memory_access,
    move_from_coprocessor,
    unaligned_word,
    words,
)

VALUE = 28  # a register within a piece
REGISTER_PAGE = DEVICE - 0x1000
PAGED_REGISTERS = ("index", "index", "entrylo0", "entrylo0", "entrylo1", "entrylo1", "epc", "epc", "context", "badvaddr", "entryhi")
PAGE_LOADS = ("LW", "LW", "LW", "LW", "LW", "LW", "LL", "LH", "LBU")
STATUS_VALUES = (0, 0, 0xFF01, 0x8001, 0x0101, 0x0301, 0x0401, 0x0801, 0x1001, 0xFF00, 0xFF09, 0xFF19, 0xFF11, 0x0003, 0xFFFF_FFE1)
USER_STATUS_VALUES = (0x12, 0x12, 0x13, 0xFF13, 0x8013, 0x1013, 0x0A, 0x1A)
ENTRY_HI_VALUES = (USER_CODE, USER_DATA, USER_DATA + 0x2000, KERNEL_DATA, KERNEL_DATA, USER_DEVICE, 0x8000_0000, 0xFFFF_FFFF)
PAGE_NUMBERS = (2, 3, 4, 5, 6, 7, 0xFFFF, 0x10_0002, 0xFF_FFFF)
PAGE_MARKS = (0, 1, 2, 3, 6, 6, 6, 6, 7, 7, 7, 0x1F, 0x3E)
DISK_COMMANDS = (1, 1, 1, 1, 2, 2, 2, 2, 0, 3, 0x8000_0001)
SEND_LENGTHS = (1, 4, 7, 100, 4092, 4095, 4096, 4096, 0, 4097, 0xFFFF_FFFF)

BLOCK, DISK_PAGE, COMMAND, STATUS = 0x20, 0x24, 0x28, 0x2C
SEND_PAGE, SEND_LENGTH, SEND, ARM = 0x30, 0x34, 0x38, 0x3C
INTERRUPT_PROCESSORS = 0x18


def coprocessor_value(context: Context, register: str) -> int:
    """What a register of coprocessor 0 is set to: mostly something that means something."""
    random = context.random
    match register:
        case "index":
            return random.choice((0, 1, 2, 3, 46, 47, 48, 63, 0x8000_0005))
        case "entrylo0" | "entrylo1":
            return random.choice((*PAGE_NUMBERS, context.pages - 1, context.pages)) << 6 | random.choice(PAGE_MARKS)
        case "entryhi":
            return random.choice(ENTRY_HI_VALUES) | random.choice((0, 0, 1, 2, 0xFF, 0x1F00))
        case "wired":
            return random.choice((0, 1, 2, 3, 2, 3, 20, 45, 46, 47, 48, 63, 0xFFFF_FFC8))
        case "compare":
            return random.randrange(600)
        case "cause":
            return random.choice((0, 0x100, 0x200, 0x300, 0xFFFF_FFFF))
        case "status":
            return random.choice(STATUS_VALUES)
    return random.getrandbits(32)


def set_coprocessor(context: Context, register: str) -> None:
    context.code.constant(SCRATCH, coprocessor_value(context, register))
    context.code.op("MTC0", rt=SCRATCH, rd=COPROCESSOR_REGISTERS[register])


def coprocessor(context: Context) -> None:
    """A register is set and read again, in the next step or a later one."""
    register = context.random.choice((*COPROCESSOR_REGISTERS, "status", "cause", "compare", "wired"))
    set_coprocessor(context, register)
    if context.random.random() < 0.5:
        context.code.add(any_word(context.random))
    result = context.random.choice(operands.FREE_REGISTERS)
    context.code.op("MFC0", rt=result, rd=COPROCESSOR_REGISTERS[register])
    context.code.listing(add_to_sum(result))
    context.code.add(move_from_coprocessor(context.random))


def any_coprocessor_register(context: Context) -> None:
    """A register of any number is set, also one that isn't there."""
    context.code.op("MTC0", rt=operands.source(context.random), rd=context.random.choice((1, 4, 5, 7, 8, 9, 14, 15, 16, 23, 31)))


def register_page(context: Context) -> None:
    """Registers are stored and loaded on the register page: mostly those that are there, and at times others, or not as words."""
    random, code = context.random, context.code
    for _ in range(random.randrange(1, 4)):
        register = random.choice(PAGED_REGISTERS)
        code.constant(SCRATCH, REGISTER_PAGE)
        if random.random() < 0.6:
            code.constant(VALUE, coprocessor_value(context, register))
            code.op("SW", rt=VALUE, rs=SCRATCH, immediate=page_offset(context, register))
        if random.random() < 0.3:
            code.op(random.choice(("TLBR", "TLBP", "TLBWI")))
        result = random.choice(operands.FREE_REGISTERS)
        code.constant(SCRATCH, REGISTER_PAGE)
        code.op(random.choice(PAGE_LOADS), rt=result, rs=SCRATCH, immediate=page_offset(context, register))
        code.listing(add_to_sum(result))
        code.add(move_from_coprocessor(random))


def page_offset(context: Context, register: str) -> int:
    """Where a register lies on the register page, or mostly nothing does."""
    if context.random.random() < 0.8:
        return 4 * COPROCESSOR_REGISTERS[register]
    return context.random.choice((0x04, 0x10, 0x18, 0x20, 0x24, 0x28, 0x30, 0x34, 0x3C, 0x40, 0xFFC, 0x02, -4))


def tlb(context: Context) -> None:
    """An entry is written, read or looked for, and data is reached through it."""
    for register in ("entryhi", "entrylo0", "entrylo1", "index", "wired"):
        if context.random.random() < (0.2 if register == "wired" else 0.6):
            set_coprocessor(context, register)
    for _ in range(context.random.randrange(1, 3)):
        context.code.op(context.random.choice(("TLBWI", "TLBWI", "TLBWR", "TLBR", "TLBP")))
        if context.random.random() < 0.6:
            context.code.add(memory_access(context.random))
    result = context.random.choice(operands.FREE_REGISTERS)
    context.code.op("MFC0", rt=result, rd=context.random.choice((0, 2, 3, 10)))
    context.code.listing(add_to_sum(result))


def marks(context: Context) -> None:
    """Refills give other marks to pages from now on, and the entries there are may go."""
    for register in context.random.sample((24, 25), context.random.randrange(1, 3)):
        context.code.op("ORI", rt=register, immediate=context.random.choice((6, 6, 7, 7, 2, 3, 0)))
    if context.random.random() < 0.5:
        context.code.constant(SCRATCH, context.random.choice((0, 0, 0, 1, 2)))
        context.code.op("MTC0", rt=SCRATCH, rd=COPROCESSOR_REGISTERS["entryhi"])


def status(context: Context) -> None:
    """Another mode, or other interrupts."""
    set_coprocessor(context, "status")


def timer(context: Context) -> None:
    """The timer comes within a few steps, of which some pass here."""
    context.code.op("MFC0", rt=SCRATCH, rd=COPROCESSOR_REGISTERS["count"])
    context.code.op("ADDIU", rt=SCRATCH, rs=SCRATCH, immediate=context.random.choice((0, 1, 2, 3, 4, 10, 30)))
    context.code.op("MTC0", rt=SCRATCH, rd=COPROCESSOR_REGISTERS["compare"])
    set_coprocessor(context, "status")
    loop(context)


def user_code(context: Context) -> None:
    """A part of the program in user mode, up to a call of the kernel."""
    if context.random.random() < 0.7:
        context.code.op("MTC0", rt=0, rd=COPROCESSOR_REGISTERS["entryhi"])
    elsewhere = address_elsewhere(context)
    context.code.op("MTC0", rt=SCRATCH, rd=COPROCESSOR_REGISTERS["epc"])
    context.code.constant(SCRATCH, context.random.choice(USER_STATUS_VALUES))
    context.code.op("MTC0", rt=SCRATCH, rd=COPROCESSOR_REGISTERS["status"])
    context.code.op("ERET")
    run_elsewhere(context, elsewhere)
    context.code.op("SYSCALL")


def kernel_in_mapped_code(context: Context) -> None:
    """The kernel runs where user code does, and comes back."""
    elsewhere = address_elsewhere(context)
    context.code.op("JR", rs=SCRATCH)
    context.code.add(any_word(context.random))
    run_elsewhere(context, elsewhere)
    context.code.op("JR", rs=30)
    context.code.add(any_word(context.random))


def address_elsewhere(context: Context) -> str:
    """Puts the address where user code has a label into a register, and answers the label."""
    label = context.new_label()
    context.code.address(SCRATCH, label)
    context.code.op("ADDU", rd=SCRATCH, rs=SCRATCH, rt=29)
    return label


def run_elsewhere(context: Context, label: str) -> None:
    """A few pieces at the addresses of user code."""
    context.code.label(label)
    context.view = USER_CODE - KERNEL
    makers = (words, words, fresh_operands, edge_access, unaligned_word, linked_update, conditional_branch, jump, exceptions)
    for _ in range(context.random.randrange(2, 6)):
        context.random.choice(makers)(context)
    context.view = 0


def registers_of_devices(context: Context) -> None:
    """Each register of the device page is read, or a few are reached somehow."""
    if context.random.random() < 0.7:
        for _ in range(context.random.randrange(1, 5)):
            context.code.add(device_access(context.random))
        return
    for offset in range(0, 0x4C, 4):
        context.code.op("LW", rs=DEVICE_BASE, rt=15, immediate=offset)
        context.code.listing(add_to_sum(15))


def printing(context: Context) -> None:
    register = context.random.choice(operands.FREE_REGISTERS)
    context.code.op("SW", rs=context.random.choice((DEVICE_BASE, DEVICE_BASE, USER_DEVICE_BASE)), rt=register)


def processor_interrupt(context: Context) -> None:
    """Virtual processors interrupt each other and themselves."""
    context.code.constant(SCRATCH, context.random.choice((*range(1, 16), 0xFFFF_FFF0, 0xFFFF_FFFF)))
    context.code.op("SW", rs=DEVICE_BASE, rt=SCRATCH, immediate=INTERRUPT_PROCESSORS)


def set_device(context: Context, offset: int, value: int) -> None:
    context.code.constant(SCRATCH, value)
    context.code.op("SW", rs=DEVICE_BASE, rt=SCRATCH, immediate=offset)


def buffer_page(context: Context) -> int:
    """Mostly a page for the purpose; sometimes one of data, or none."""
    return context.random.choice((6, 7, 6, 7, 6, 7, 2, 3, 5, context.pages - 1, context.pages, 0xFFFF, 0xFFFF_FFFF))


def disk(context: Context) -> None:
    """A disk command, its status, and a word of the page."""
    set_device(context, BLOCK, context.random.choice((0, 0, 0, 1, 1, 1, 2, 3, 0xFFFF_FFFF)))
    set_device(context, DISK_PAGE, buffer_page(context))
    set_device(context, COMMAND, context.random.choice(DISK_COMMANDS))
    context.code.op("LW", rs=DEVICE_BASE, rt=14, immediate=STATUS)
    context.code.listing(add_to_sum(14))
    change_buffer(context)


def disk_and_link(context: Context) -> None:
    """A disk command between a linked load and a conditional store, of the page of the link or of another."""
    set_device(context, BLOCK, context.random.choice((0, 0, 1)))
    set_device(context, DISK_PAGE, context.random.choice((2, 2, 6)))
    context.code.op("LL", rs=18, rt=14, immediate=4 * context.random.randrange(8))
    set_device(context, COMMAND, context.random.choice((1, 1, 2)))
    context.code.op("SC", rs=18, rt=14, immediate=4 * context.random.randrange(8))
    context.code.listing(add_to_sum(14))


def change_buffer(context: Context) -> None:
    """A word of a buffer joins the sum, and is changed."""
    context.code.constant(SCRATCH, KERNEL + 0x1000 * context.random.choice((6, 7)) + 4 * context.random.randrange(8, 1024))
    context.code.op("LW", rs=SCRATCH, rt=14)
    context.code.listing(add_to_sum(14))
    context.code.op("SW", rs=SCRATCH, rt=17)


def code_from_disk(context: Context) -> None:
    """Each block begins with a few instructions and a return."""
    set_device(context, BLOCK, context.random.randrange(3))
    set_device(context, DISK_PAGE, 7)
    set_device(context, COMMAND, 1)
    context.code.constant(SCRATCH, KERNEL + 0x7000)
    context.code.op("JALR", rs=SCRATCH, rd=31)
    context.code.add(any_word(context.random))
    context.code.add(NOP)


def send(context: Context) -> None:
    """A page is sent to other guests, to the own one, or to one that isn't there."""
    set_device(context, SEND_PAGE, buffer_page(context))
    set_device(context, SEND_LENGTH, context.random.choice(SEND_LENGTHS))
    for _ in range(context.random.choice((1, 1, 1, 2, 3))):
        set_device(context, SEND, context.random.choice(context.receivers))
    change_buffer(context)


def many_sends(context: Context) -> None:
    """More packets than a wire has room for, each with its number."""
    set_device(context, SEND_PAGE, 6)
    set_device(context, SEND_LENGTH, 8)
    context.code.constant(SCRATCH, context.random.choice(context.receivers))
    context.code.constant(28, KERNEL + 0x6000)
    again = begin_loop(context, context.random.choice((10, 63, 64, 65, 70)))
    context.code.op("SW", rs=28, rt=COUNTER)
    context.code.op("SW", rs=DEVICE_BASE, rt=SCRATCH, immediate=SEND)
    end_loop(context, again)


def many_receipts(context: Context) -> None:
    """A page is armed again and again, and what came joins the sum."""
    context.code.op("ADDIU", rt=SCRATCH, immediate=7)
    context.code.constant(15, KERNEL + 0x7000)
    again = begin_loop(context, context.random.choice((10, 70, 140)))
    context.code.op("SW", rs=DEVICE_BASE, rt=SCRATCH, immediate=ARM)
    context.code.op("LW", rs=DEVICE_BASE, rt=14, immediate=ARM)
    context.code.listing(add_to_sum(14))
    context.code.op("LW", rs=15, rt=14)
    context.code.listing(add_to_sum(14))
    end_loop(context, again)


def begin_loop(context: Context, times: int) -> str:
    """The label to go back to."""
    context.code.op("ADDIU", rt=COUNTER, immediate=times)
    again = context.new_label()
    context.code.label(again)
    return again


def end_loop(context: Context, again: str) -> None:
    context.code.op("ADDIU", rt=COUNTER, rs=COUNTER, immediate=-1)
    context.code.statement("BGTZ", f"r{COUNTER}", again)
    context.code.add(NOP)


def arm(context: Context) -> None:
    """A page is armed, what comes is waited for a while, and a link into the page may be broken by it."""
    page = buffer_page(context)
    context.code.constant(15, KERNEL + 0x1000 * (page % 8) + 0x40)
    context.code.op("LL", rs=15, rt=14)
    set_device(context, ARM, page)
    if context.random.random() < 0.5:
        loop(context)
    context.code.op("SC", rs=15, rt=14)
    context.code.listing(add_to_sum(14))
    for offset in (ARM, 0x40, 0x44):
        context.code.op("LW", rs=DEVICE_BASE, rt=14, immediate=offset)
        context.code.listing(add_to_sum(14))
    change_buffer(context)


def sweep(context: Context) -> None:
    """A word of each of many pages, one after the other or by leaps: more than a processor's TLB has entries."""
    direct = (DATA, context.pages - 2)
    begin, count = context.random.choice((direct, direct, direct, (KERNEL_DATA, 130), (USER_DATA, 60)))
    context.code.constant(SCRATCH, begin + 0x800)
    again = begin_loop(context, max(count - context.random.choice((0, 1, 10, 30)), 2))
    context.code.op(context.random.choice(("LW", "LW", "SW", "LB")), rs=SCRATCH, rt=14)
    if context.random.random() < 0.3:
        context.code.op("LW", rs=18, rt=14)  # one page again and again
    context.code.listing(add_to_sum(14))
    context.code.op("ADDIU", rs=SCRATCH, rt=SCRATCH, immediate=context.random.choice((0x1000, 0x1000, 0x1004, 0x1FFC)))
    end_loop(context, again)


def call_in_kernel(context: Context) -> None:
    context.code.add(call_kernel(context.random))


def restored_bases(context: Context) -> None:
    """The registers that lead to data and devices, as they were at the start."""
    for register, address in (
        (DEVICE_BASE, DEVICE),
        (18, KERNEL + 0x2800),
        (19, USER_DATA + 0x1800),
        (20, KERNEL_DATA + 0x1800),
        (22, USER_DEVICE),
        (29, USER_CODE - KERNEL & 0xFFFF_FFFF),
    ):
        context.code.constant(register, address)


def lasting_entries(context: Context) -> None:
    """Entries 0 and 1, for user code and its device page, which no TLBWR replaces."""
    mark = context.random.choice((7, 7, 6))
    for index, (address, pages) in enumerate(((USER_CODE, (0, 1)), (USER_DEVICE, (0xFFFF, 0xFFFF)))):
        for register, value in (
            ("entryhi", address),
            ("entrylo0", pages[0] << 6 | mark),
            ("entrylo1", pages[1] << 6 | mark),
            ("index", index),
        ):
            context.code.constant(SCRATCH, value)
            context.code.op("MTC0", rt=SCRATCH, rd=COPROCESSOR_REGISTERS[register])
        context.code.op("TLBWI")
    context.code.constant(SCRATCH, 2)
    context.code.op("MTC0", rt=SCRATCH, rd=COPROCESSOR_REGISTERS["wired"])
    context.code.constant(SCRATCH, KERNEL)
    context.code.op("MTC0", rt=SCRATCH, rd=COPROCESSOR_REGISTERS["context"])
    context.code.add(encode("MTC0", rd=COPROCESSOR_REGISTERS["entryhi"]))
