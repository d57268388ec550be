"""Cells that fail."""

from .blocks import READS_BLOCKS
from .moving import A
from .packets import SENT, TWO_GUESTS
from .programs import PRINTS_A, PRINTS_A_WORD, READS, SENDS_A_PAGE, SENDS_FOUR_BYTES
from .reading import Row
from .writing import cells, failed, failure, guest, machine, moved, runs, told

ONE_GUEST = guest("a")
SENDS_AND_HALTS = told(0, "Q", "halted", steps=15, refills=2)

# guest 1 gets four bytes from guest 0, and before them a page from guest 2, which lies in cell 1
THREE_GUESTS = machine(nodes=2, frames=8) + cells(0, 0) + TWO_GUESTS + guest("2", node=1)
SENT_BY_TWO = {"0": SENDS_FOUR_BYTES, "1": PRINTS_A_WORD, "2": SENDS_A_PAGE}
BOTH_SENT = runs((1, 4), (0, 15), (2, 15))

# the home cell of guest 1 is cell 0, which keeps its block, and all its pages lie in cell 1
HOME_IS_FULL = machine(nodes=2, frames=5, cache=1, node=1) + cells(0, 4) + guest("b") + guest("a", disk="d")
HOME_FILES = READS_BLOCKS | {"b": PRINTS_A}

FAILURES = [
    Row(
        "a guest with a page there ends, and another one goes on",
        machine(nodes=2)
        + cells(0, 1)
        + guest("a", pages=8)
        + guest("a", pages=9)
        + runs((1, 4))
        + failed(1)
        + runs((1, 1), (0, 5)),
        A,
        told(0, "A", "halted", steps=5, refills=1) + told(1, "A", "cell 1", steps=4, refills=1) + failure(1, 1),
    ),
    Row(
        "a packet from there is thrown away",
        machine(nodes=2, frames=8)
        + cells(0, 0)
        + guest("0", node=1)
        + guest("1")
        + runs((0, 20))
        + failed(1)
        + runs((1, 11)),
        SENT,
        SENDS_AND_HALTS + told(1, "", "budget", steps=11, refills=1, discarded=1) + failure(1),
    ),
    Row(
        "a page there ends the guest",
        machine(nodes=2)
        + cells(0, 1)
        + ONE_GUEST
        + runs((0, 2))
        + moved(0, 1, "migrate", 1)
        + failed(1)
        + runs((0, 3)),
        A,
        told(0, "", "cell 1", steps=2, refills=1, moves=1) + failure(1, 0),
    ),
    Row(
        "a replica there doesn't",
        machine(nodes=2)
        + cells(0, 1)
        + ONE_GUEST
        + runs((0, 2))
        + moved(0, 1, "replicate", 1)
        + failed(1)
        + runs((0, 3)),
        A,
        told(0, "A", "halted", steps=5, refills=2, moves=1) + failure(1),
    ),
    Row(
        "a replica there is read, and after the failure the page itself",
        machine(nodes=3, frames=8, node=2)
        + cells(0, 1, 0)
        + ONE_GUEST
        + moved(0, 1, "replicate", 1)
        + runs((0, 2))
        + failed(1)
        + runs((0, 2)),
        {"a": READS},
        told(0, "", "budget", steps=4, refills=4, moves=1) + failure(1),
    ),
    Row(
        "a store lets a replica there go",
        machine(nodes=2) + cells(0, 1) + ONE_GUEST + moved(0, 1, "replicate", 1) + failed(1) + runs((0, 7)),
        {"a": READS},
        told(0, "", "budget", steps=7, refills=3, moves=2) + failure(1),
    ),
    Row(
        "a replica that was let go doesn't",
        machine(nodes=2)
        + cells(0, 1)
        + ONE_GUEST
        + runs((0, 2))
        + moved(0, 1, "replicate", 1)
        + moved(0, 1, "collapse")
        + failed(1)
        + runs((0, 3)),
        A,
        told(0, "A", "halted", steps=5, refills=2, moves=2) + failure(1),
    ),
    Row(
        "a guest whose page has left the cell goes on",
        machine(nodes=2)
        + cells(1, 0)
        + guest("a", pages=1, node=1)
        + moved(0, 0, "migrate", 0)
        + failed(1)
        + runs((0, 5)),
        A,
        told(0, "A", "halted", steps=5, refills=1, moves=1) + failure(1),
    ),
    Row(
        "a spare there ends the guest, and its page is copied as nobody holds the frame any more",
        machine(nodes=2, frames=8)
        + cells(0, 1)
        + TWO_GUESTS
        + runs((1, 4), (0, 11))
        + failed(1)
        + runs((0, 4), (1, 7)),
        SENT,
        told(0, "", "cell 1", steps=11, refills=2)
        + told(1, "P", "halted", steps=11, refills=3, received=1)
        + failure(1, 0),
    ),
    Row(
        "a guest that had halted stays halted",
        machine(nodes=2) + cells(0, 0) + guest("a", node=1) * 2 + runs((0, 5)) + failed(1),
        A,
        told(0, "A", "halted", steps=5, refills=1) + told(1, "", "cell 1") + failure(1, 1),
    ),
    Row(
        "two cells fail one after the other",
        machine(nodes=3)
        + cells(0, 0, 0)
        + "".join(guest("a", node=node) for node in range(3))
        + runs((0, 4), (1, 4), (2, 4))
        + failed(2)
        + failed(1)
        + runs((2, 1), (1, 1), (0, 1)),
        A,
        told(0, "A", "halted", steps=5, refills=2)
        + told(1, "A", "cell 1", steps=4, refills=1)
        + told(2, "A", "cell 2", steps=4, refills=1)
        + failure(2, 2)
        + failure(1, 1),
    ),
    Row(
        "a guest in two cells ends by the first that fails",
        machine(nodes=3)
        + cells(0, 0, 1)
        + guest("a", node=1)
        + moved(0, 1, "migrate", 2)
        + failed(2)
        + failed(1)
        + runs((0, 5)),
        A,
        told(0, "", "cell 2", moves=1) + failure(2, 0) + failure(1),
    ),
    Row(
        "with a replica alone in the first, it ends by the second",
        machine(nodes=3)
        + cells(0, 0, 1)
        + guest("a", node=1)
        + moved(0, 1, "replicate", 2)
        + failed(2)
        + failed(1)
        + runs((0, 5)),
        A,
        told(0, "", "cell 1", moves=1) + failure(2) + failure(1, 0),
    ),
    Row(
        "no page moves there any more",
        machine(nodes=2)
        + cells(0, 5)
        + ONE_GUEST
        + failed(1)
        + moved(0, 0, "migrate", 1)
        + moved(0, 0, "replicate", 1)
        + moved(0, 0, "collapse")
        + runs((0, 5)),
        A,
        told(0, "A", "halted", steps=5, refills=1, skips=3) + failure(1),
    ),
    Row(
        "a processor there asks for no move and makes no steps",
        machine(nodes=3, node=1)
        + cells(0, 0, 5)
        + ONE_GUEST
        + moved(0, 1, "replicate", 2)
        + failed(1)
        + moved(0, 0, "migrate", 2)
        + moved(0, 1, "collapse")
        + runs((0, 5)),
        A,
        told(0, "", "budget", moves=1, skips=2) + failure(1),
    ),
    Row(
        "a processor there lets another cell fail",
        machine(nodes=3, node=1)
        + cells(0, 0, 5)
        + ONE_GUEST
        + moved(0, 1, "migrate", 2)
        + failed(1)
        + failed(2)
        + runs((0, 5)),
        A,
        told(0, "", "cell 2", moves=1) + failure(1) + failure(2, 0),
    ),
    Row(
        "a slice on a processor there has no steps",
        machine(nodes=2, node=1) + cells(0, 0) + ONE_GUEST + runs((0, 4)) + failed(1) + runs((0, 1)),
        A,
        told(0, "A", "budget", steps=4, refills=1) + failure(1),
    ),
    Row(
        "a turn throws one packet away, and the third one comes in before the third turn",
        THREE_GUESTS + guest("2", node=1) + BOTH_SENT + runs((3, 15)) + failed(1) + runs((1, 20)),
        SENT_BY_TWO,
        SENDS_AND_HALTS
        + told(1, "P", "halted", steps=14, refills=3, received=1, discarded=2)
        + told(2, "Q", "halted", steps=15, refills=2)
        + told(3, "Q", "halted", steps=15, refills=2)
        + failure(1),
    ),
    Row(
        "once the plan is done a packet from there is thrown away, and the next one comes in",
        THREE_GUESTS + BOTH_SENT + failed(1),
        SENT_BY_TWO,
        SENDS_AND_HALTS
        + told(1, "", "budget", steps=4, refills=1, received=1, discarded=1)
        + told(2, "Q", "halted", steps=15, refills=2)
        + failure(1),
    ),
    Row(
        "a packet has the cell in which its page lay when it was sent",
        machine(nodes=2, frames=8)
        + cells(0, 1)
        + TWO_GUESTS
        + runs((1, 4))
        + moved(0, 2, "migrate", 1)
        + runs((0, 11))
        + moved(0, 2, "migrate", 0)
        + failed(1)
        + runs((1, 3), (0, 4)),
        SENT,
        told(0, "Q", "halted", steps=15, refills=4, moves=2)
        + told(1, "", "budget", steps=7, refills=2, discarded=1)
        + failure(1),
    ),
    Row(
        "a block is copied as the home cell has failed",
        HOME_IS_FULL + failed(0) + runs((1, 15)),
        HOME_FILES,
        told(0, "", "cell 0") + told(1, "ab", "halted", steps=15, refills=2) + failure(0, 0),
    ),
    Row(
        "a shared block there ends the guest",
        HOME_IS_FULL + runs((1, 7)) + failed(0) + runs((1, 8)),
        HOME_FILES,
        told(0, "", "cell 0") + told(1, "", "cell 0", steps=7, refills=1, shared=1) + failure(0, 0, 1),
    ),
    Row(
        "no frame there is found to be spare",
        machine(nodes=2, frames=8) + cells(0, 1) + TWO_GUESTS + failed(1) + runs((1, 4), (0, 20), (1, 20)),
        SENT,
        SENDS_AND_HALTS + told(1, "P", "halted", steps=11, refills=3, received=1) + failure(1),
    ),
    Row(
        "the frames of a guest that ended are free",
        machine(nodes=3, node=2)
        + cells(1, 1, 0)
        + guest("a", node=2)
        + guest("a", pages=17, node=1)
        + moved(0, 0, "migrate", 1)
        + failed(0)
        + moved(0, 0, "migrate", 1)
        + runs((0, 5)),
        A,
        told(0, "A", "halted", steps=5, refills=1, moves=1, skips=1) + told(1, "", "cell 0") + failure(0, 1),
    ),
    Row(
        "the loans of a guest that ended are given back",
        machine(nodes=3)
        + cells(0, 1, 0)
        + ONE_GUEST
        + guest("a", node=2)
        + moved(1, 1, "replicate", 1)
        + moved(0, 0, "migrate", 1)
        + failed(2)
        + moved(0, 0, "migrate", 1)
        + runs((0, 5)),
        A,
        told(0, "A", "halted", steps=5, refills=1, moves=1, skips=1) + told(1, "", "cell 2", moves=1) + failure(2, 1),
    ),
]
