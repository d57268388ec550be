"""Blocks that guests share."""

from .moving import ONE_GUEST, A
from .programs import BLOCK, PRINTS_A, READS_A_BLOCK, READS_TWICE, STORES_TO_FIRST_OF_TWO, STORES_TO_THREE, THREE_BLOCKS
from .reading import Row
from .writing import cells, guest, machine, moved, runs, told

READS_BLOCKS = {"a": READS_A_BLOCK, "d": BLOCK}
READER = guest("a", disk="d")
READ = told(0, "ab", "halted", steps=15, refills=4, breaks=1, shared=1)

BLOCKS = [
    Row(
        "a block is copied where no cell keeps it",
        machine(frames=4) + READER + runs((0, 15)),
        READS_BLOCKS,
        told(0, "ab", "halted", steps=15, refills=2),
    ),
    Row(
        "three guests read one block",
        machine(frames=13, cache=1) + READER * 3 + runs((0, 7), (1, 7), (2, 7), (0, 8), (1, 8), (2, 8)),
        READS_BLOCKS,
        "".join(told(number, "ab", "halted", steps=15, refills=4, breaks=1, shared=1) for number in range(3)),
    ),
    Row(
        "all frames are held, and three shared pages are stored to",
        machine(frames=7, cache=3) + READER + runs((0, 27)),
        {"a": STORES_TO_THREE, "d": THREE_BLOCKS},
        told(0, "xyz", "halted", steps=27, refills=7, breaks=3, shared=3),
    ),
    Row(
        "the cache has room for one of three blocks",
        machine(frames=5, cache=1) + READER + runs((0, 27)),
        {"a": STORES_TO_THREE, "d": THREE_BLOCKS},
        told(0, "xyz", "halted", steps=27, refills=5, breaks=1, shared=1),
    ),
    Row(
        "a block comes into its page twice, and then is the guest's own",
        machine(frames=5, cache=1) + READER + runs((0, 20)),
        {"a": READS_TWICE, "d": BLOCK},
        told(0, "aab", "halted", steps=20, refills=4, breaks=1, shared=2),
    ),
    Row(
        "another cell keeps the block",
        machine(nodes=2, frames=5, cache=1) + cells(0, 0) + guest("b", node=0) + guest("a", node=1, disk="d") + runs((1, 15)),
        READS_BLOCKS | {"b": PRINTS_A},
        told(0, "", "budget") + told(1, "ab", "halted", steps=15, refills=3, breaks=1, shared=1),
    ),
    Row(
        "each cell keeps the disks of its own guests",
        machine(nodes=2, frames=5, cache=1) + cells(0, 0) + guest("a", disk="e") + guest("a", node=1, disk="d") + runs((0, 15), (1, 15)),
        READS_BLOCKS | {"e": BLOCK},
        told(0, "ab", "halted", steps=15, refills=3, breaks=1, shared=1)
        + told(1, "ab", "halted", steps=15, refills=3, breaks=1, shared=1),
    ),
    Row(
        "a shared page doesn't move",
        machine(nodes=2, frames=8, cache=1)
        + READER
        + runs((0, 7))
        + moved(0, 2, "migrate", 1)
        + moved(0, 2, "replicate", 1)
        + moved(0, 2, "collapse")
        + runs((0, 8)),
        READS_BLOCKS,
        told(0, "ab", "halted", steps=15, refills=4, skips=3, breaks=1, shared=1),
    ),
    Row(
        "a page with a replica becomes a shared one",
        machine(nodes=2, frames=8, cache=1) + READER + moved(0, 2, "replicate", 1) + runs((0, 7), (0, 8)),
        READS_BLOCKS,
        told(0, "ab", "halted", steps=15, refills=4, moves=1, breaks=1, shared=1),
    ),
    Row(
        "a page with a replica gets a copy",
        machine(nodes=2, frames=8) + READER + moved(0, 2, "replicate", 1) + runs((0, 7), (0, 8)),
        READS_BLOCKS,
        told(0, "ab", "halted", steps=15, refills=3, moves=2),
    ),
    Row(
        "the policy asks for a shared page, and again once it is stored to",
        machine(nodes=2, frames=8, cache=1, node=1) + READER + "[policy]\nmigrate = 1\n" + runs((0, 15)),
        READS_BLOCKS,
        told(0, "ab", "halted", steps=15, refills=4, moves=1, skips=1, breaks=1, shared=1),
    ),
    Row(
        "a page that is stored to is counted anew",
        machine(nodes=2, frames=8, cache=1, node=1) + READER + "[policy]\nmigrate = 2\n" + runs((0, 15)),
        READS_BLOCKS,
        told(0, "ab", "halted", steps=15, refills=3, moves=1, breaks=1, shared=1),
    ),
    Row(
        "a page that is stored to gets the frame that was spare last, on node 1",
        machine(nodes=2, frames=8, cache=2) + READER + moved(0, 2, "migrate", 1) + runs((0, 13)) + moved(0, 1, "migrate", 1) + runs((0, 1)),
        {"a": STORES_TO_FIRST_OF_TWO, "d": THREE_BLOCKS},
        told(0, "", "halted", steps=14, refills=4, moves=1, skips=1, breaks=1, shared=2),
    ),
    Row("the cache's frames are wanting to a guest", machine(cache=1) + ONE_GUEST, A, "fault admission guest 0 needs 16 has 15\n"),
    Row("a cell has too few frames to keep", machine(frames=4, cache=5) + ONE_GUEST, A, "fault admission cell 0 needs 5 has 4\n"),
]
