"""Pieces that read the same few blocks, send and get whole pages, and use such a page right before and after."""

from __future__ import annotations

from .assembler import KERNEL
from .kernel import add_to_sum
from .pieces import SCRATCH, Context, loop
from .system_pieces import ARM, BLOCK, COMMAND, DISK_PAGE, SEND, SEND_LENGTH, SEND_PAGE, STATUS, set_device

READ, WRITE = 1, 2
PAGES = (6, 7, 6, 7, 6, 7, 8, 5)  # of each guest, that come to be shared
SENT_PAGES = (8, 9, 8, 9, 9, 6, 7)
BLOCKS = (0, 0, 0, 1, 1, 2, 3)
WHOLE = 4096


def blocks(context: Context) -> None:
    """A block is read once or a few times, used, and sometimes written back or read into another page."""
    page = context.random.choice(PAGES)
    set_device(context, BLOCK, context.random.choice(BLOCKS))
    set_device(context, DISK_PAGE, page)
    for _ in range(context.random.choice((1, 1, 1, 2))):
        command(context, READ)
    use(context, page)
    after = context.random.random()
    if after < 0.2:
        command(context, WRITE)
        command(context, READ)
    elif after < 0.4:
        set_device(context, DISK_PAGE, context.random.choice(PAGES))
        command(context, READ)


def command(context: Context, number: int) -> None:
    """A disk command, whose status joins the sum."""
    set_device(context, COMMAND, number)
    read_device(context, STATUS)


def read_device(context: Context, offset: int) -> None:
    context.code.op("LW", rs=16, rt=14, immediate=offset)
    context.code.listing(add_to_sum(14))


def use(context: Context, page: int) -> None:
    """A word of the page joins the sum, and one is stored, or none, or a conditional store isn't made."""
    context.code.constant(SCRATCH, KERNEL + 0x1000 * page + 4 * context.random.randrange(1024))
    for name in context.random.choice((("LW",), ("LW", "SW"), ("SW",), ("SW", "LW"), ("LW", "SC"), ("SB", "LW"), ())):
        context.code.op(name, rs=SCRATCH, rt=14 if name == "LW" else context.random.choice((15, 17)))
        if name == "LW":
            context.code.listing(add_to_sum(14))


def whole_pages(context: Context) -> None:
    """A page is sent whole to one or several guests, and used then."""
    page = context.random.choice(SENT_PAGES)
    if context.random.random() < 0.3:
        use(context, page)
    set_device(context, SEND_PAGE, page)
    set_device(context, SEND_LENGTH, WHOLE)
    for _ in range(context.random.choice((1, 1, 2, 3))):
        set_device(context, SEND, context.random.choice(context.receivers))
    if context.random.random() < 0.3:
        use(context, page)


def armed_page(context: Context) -> None:
    """A page is armed and used before and after a packet comes, which may be sent on."""
    page = context.random.choice(PAGES)
    set_device(context, ARM, page)
    between = context.random.choice((None, None, loop, blocks, whole_pages))
    if between is not None:
        between(context)
    if context.random.random() < 0.5:
        use(context, page)
    read_device(context, ARM)
    use(context, page)
    if context.random.random() < 0.3:
        set_device(context, SEND_PAGE, page)
        set_device(context, SEND_LENGTH, WHOLE)
        set_device(context, SEND, context.random.choice(context.receivers))
