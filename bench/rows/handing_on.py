"""Whole pages that guests hand on to each other."""

from .packets import SENT, TWO_GUESTS
from .programs import (
    BLOCK,
    ENDS,
    PRINTS_A,
    PRINTS_A_WORD,
    READS_AND_ARMS,
    SENDS_AGAIN,
    SENDS_A_BLOCK,
    SENDS_A_PAGE,
    SENDS_FOUR_BYTES,
    SENDS_TOO_MUCH,
    SENDS_TO_TWO,
    TAKES_TWO,
)
from .reading import Row
from .writing import cells, guest, machine, moved, runs, told

# the guest that sends page 2 and then writes it, in one slice
SENDER = told(0, "Q", "halted", steps=15, refills=4, breaks=1)

HANDED_ON = [
    Row(
        "a page that was written before it is taken",
        machine(frames=12) + TWO_GUESTS + runs((1, 4), (0, 20), (1, 20)),
        SENT,
        SENDER + told(1, "P", "halted", steps=11, refills=3, received=1),
    ),
    Row(
        "a page that is taken before it is written",
        machine(frames=12) + TWO_GUESTS + runs((1, 4), (0, 11), (1, 3), (0, 4), (1, 4)),
        SENT,
        told(0, "Q", "halted", steps=15, refills=5, breaks=1) + told(1, "P", "halted", steps=11, refills=4, shared=1, received=1),
    ),
    Row(
        "a page that is taken once the plan is done",
        machine(frames=12) + TWO_GUESTS + runs((1, 4), (0, 11)),
        SENT,
        told(0, "", "budget", steps=11, refills=2) + told(1, "", "budget", steps=4, refills=1, shared=1, received=1),
    ),
    Row(
        "no frame is left to be spare",
        machine(frames=8) + TWO_GUESTS + runs((1, 4), (0, 20), (1, 20)),
        SENT,
        told(0, "Q", "halted", steps=15, refills=2) + told(1, "P", "halted", steps=11, refills=3, received=1),
    ),
    Row(
        "the page lies in another cell than the receiver's",
        machine(nodes=2, frames=8) + cells(0, 0) + guest("0") + guest("1", node=1) + runs((1, 4), (0, 20), (1, 20)),
        SENT,
        told(0, "Q", "halted", steps=15, refills=2) + told(1, "P", "halted", steps=11, refills=3, received=1),
    ),
    Row(
        "the page lies on a frame that the receiver's cell has lent",
        machine(nodes=2, frames=8)
        + cells(0, 1)
        + guest("0")
        + guest("1", node=1)
        + moved(0, 2, "migrate", 1)
        + runs((1, 4), (0, 11), (1, 3), (0, 4), (1, 4)),
        SENT,
        told(0, "Q", "halted", steps=15, refills=5, moves=1, breaks=1)
        + told(1, "P", "halted", steps=11, refills=4, shared=1, received=1),
    ),
    Row(
        "the frame that is spare then lies on another node",
        machine(nodes=2, frames=5)
        + TWO_GUESTS.replace("node = 0", "node = 1").replace("node = 1", "node = 0", 1)
        + guest("a", pages=1)
        + runs((0, 14))
        + moved(0, 2, "migrate", 1)
        + runs((0, 1)),
        SENT | {"a": PRINTS_A},
        told(0, "Q", "halted", steps=15, refills=5, skips=1, breaks=1) + told(1, "", "budget") + told(2, "", "budget"),
    ),
    Row(
        "another cell lends the frame that is spare then",
        machine(nodes=2, frames=8) + cells(0, 1) + TWO_GUESTS + runs((1, 4), (0, 20), (1, 20)),
        SENT,
        SENDER + told(1, "P", "halted", steps=11, refills=3, received=1),
    ),
    Row(
        "the other cell lends none",
        machine(nodes=2, frames=8) + cells(0, 0) + TWO_GUESTS + runs((1, 4), (0, 20), (1, 20)),
        SENT,
        told(0, "Q", "halted", steps=15, refills=2) + told(1, "P", "halted", steps=11, refills=3, received=1),
    ),
    Row(
        "the wire is full",
        machine(frames=12) + TWO_GUESTS + runs((0, 300)),
        {"0": SENDS_TOO_MUCH, "1": PRINTS_A_WORD},
        told(0, "", "halted", steps=269, refills=3, breaks=1) + told(1, "", "budget"),
    ),
    Row(
        "a frame that was taken anew isn't the one that was handed on",
        machine(frames=12) + TWO_GUESTS + runs((1, 6), (0, 14), (1, 20)),
        {"0": SENDS_AGAIN, "1": TAKES_TWO},
        told(0, "", "budget", steps=14, refills=4, breaks=1) + told(1, "PQ", "halted", steps=24, refills=4, shared=1, received=2),
    ),
    Row(
        "a block that a cell keeps is handed on",
        machine(frames=9, cache=1) + guest("0", disk="d") + guest("1") + runs((1, 4), (0, 20), (1, 20)),
        {"0": SENDS_A_BLOCK, "1": PRINTS_A_WORD, "d": BLOCK},
        told(0, "", "halted", steps=13, refills=1, shared=1) + told(1, "a", "halted", steps=11, refills=3, shared=1, received=1),
    ),
    Row(
        "a page with a replica is handed on",
        machine(nodes=2, frames=12) + TWO_GUESTS + runs((0, 5)) + moved(0, 2, "replicate", 1) + runs((0, 10)),
        SENT,
        told(0, "Q", "halted", steps=15, refills=5, moves=1, breaks=1) + told(1, "", "budget"),
    ),
    Row(
        "a page with a replica becomes a page that was handed on",
        machine(nodes=2, frames=12) + TWO_GUESTS + moved(1, 2, "replicate", 1) + runs((1, 4), (0, 11), (1, 3), (0, 4), (1, 4)),
        SENT,
        told(0, "Q", "halted", steps=15, refills=5, breaks=1)
        + told(1, "P", "halted", steps=11, refills=4, moves=1, shared=1, received=1),
    ),
    Row(
        "a few bytes come into a page with a replica",
        machine(nodes=2, frames=12) + TWO_GUESTS + moved(1, 2, "replicate", 1) + runs((1, 4), (0, 11), (1, 3), (0, 4), (1, 4)),
        {"0": SENDS_FOUR_BYTES, "1": PRINTS_A_WORD},
        told(0, "Q", "halted", steps=15, refills=4) + told(1, "P", "halted", steps=11, refills=4, moves=2, received=1),
    ),
    Row(
        "the receiver has ended",
        machine(frames=12) + TWO_GUESTS + runs((1, 3), (0, 20)),
        {"0": SENDS_A_PAGE, "1": ENDS},
        SENDER + told(1, "", "halted", steps=3, refills=1),
    ),
    Row(
        "a receiver takes the page after it is written, while another one holds it",
        machine(frames=16) + TWO_GUESTS + guest("1") + runs((1, 4), (2, 4), (0, 12), (1, 1), (0, 3), (2, 7), (1, 6)),
        {"0": SENDS_TO_TWO, "1": PRINTS_A_WORD},
        told(0, "", "halted", steps=15, refills=5, breaks=1)
        + told(1, "P", "halted", steps=11, refills=4, shared=1, received=1)
        + told(2, "P", "halted", steps=11, refills=3, shared=1, received=1),
    ),
    Row(
        "a receiver takes the page once the other one has ended",
        machine(frames=16) + TWO_GUESTS + guest("1") + runs((1, 4), (2, 4), (0, 12), (1, 1), (0, 3), (1, 6), (2, 7)),
        {"0": SENDS_TO_TWO, "1": PRINTS_A_WORD},
        told(0, "", "halted", steps=15, refills=5, breaks=1)
        + told(1, "P", "halted", steps=11, refills=4, shared=1, received=1)
        + told(2, "P", "halted", steps=11, refills=3, received=1),
    ),
    Row(
        "a page comes into a shared one",
        machine(frames=12, cache=1) + guest("0") + guest("1", disk="d") + runs((1, 8), (0, 11), (1, 6)),
        {"0": SENDS_A_PAGE, "1": READS_AND_ARMS, "d": BLOCK},
        told(0, "", "budget", steps=11, refills=2) + told(1, "P", "halted", steps=14, refills=3, shared=2, received=1),
    ),
    Row(
        "a few bytes come into a shared page",
        machine(frames=12, cache=1) + guest("0") + guest("1", disk="d") + runs((1, 8), (0, 11), (1, 6)),
        {"0": SENDS_FOUR_BYTES, "1": READS_AND_ARMS, "d": BLOCK},
        told(0, "", "budget", steps=11, refills=2) + told(1, "P", "halted", steps=14, refills=3, breaks=1, shared=1, received=1),
    ),
]
