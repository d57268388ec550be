"""Pages that move as the plan and the policy ask."""

from .programs import PRINTS_A, READS, WRITES
from .reading import Row
from .writing import guest, machine, moved, runs, told

ONE_GUEST = guest("a", pages=16)
A = {"a": PRINTS_A}
FULL_NODE_1 = guest("a", pages=16, node=1)
TO_1, TO_0 = moved(0, 0, "migrate", 1), moved(0, 0, "migrate", 0)
FAR = machine(nodes=2, node=1)

MOVES = [
    Row("one guest", machine() + ONE_GUEST + runs((0, 5)), A, told(0, "A", "halted", steps=5, refills=1)),
    Row(
        "a page moves before the run",
        machine(2) + ONE_GUEST + TO_1 + runs((0, 5)),
        A,
        told(0, "A", "halted", steps=5, refills=1, moves=1),
    ),
    Row(
        "the other node is full",
        machine(2) + ONE_GUEST + FULL_NODE_1 + TO_1 + runs((0, 5)),
        A,
        told(0, "A", "halted", steps=5, refills=1, skips=1) + told(1, "", "budget"),
    ),
    Row(
        "a page lies there already",
        machine(2) + ONE_GUEST + TO_0 + runs((0, 5)),
        A,
        told(0, "A", "halted", steps=5, refills=1, skips=1),
    ),
    Row("the guest has ended", machine(2) + ONE_GUEST + runs((0, 5)) + TO_1, A, told(0, "A", "halted", steps=5, refills=1, skips=1)),
    Row(
        "a page moves after the run",
        machine(2) + ONE_GUEST + runs((0, 4)) + TO_1,
        A,
        told(0, "A", "budget", steps=4, refills=1, moves=1),
    ),
    Row(
        "a page moves there and back",
        machine(2) + ONE_GUEST + runs((0, 2)) + TO_1 + TO_0 + runs((0, 3)),
        A,
        told(0, "A", "halted", steps=5, refills=2, moves=2),
    ),
    Row(
        "a replica comes and goes",
        machine(2) + ONE_GUEST + moved(0, 0, "replicate", 1) * 2 + TO_1 + moved(0, 0, "collapse") * 2 + runs((0, 5)),
        A,
        told(0, "A", "halted", steps=5, refills=1, moves=2, skips=3),
    ),
    Row(
        "a store lets three replicas go",
        machine(4) + guest("a") + "".join(moved(0, 1, "replicate", node) for node in (1, 2, 3)) + runs((0, 7)),
        {"a": READS},
        told(0, "", "budget", steps=7, refills=3, moves=4),
    ),
]


def followed(about: str, policy: str, steps: int, image: bytes, **sums: int) -> Row:
    """A guest on node 0, of a processor of node 1."""
    text = FAR + guest("a") + f"[policy]\n{policy}" + runs((0, steps))
    return Row(about, text, {"a": image}, told(0, "", "budget", steps=steps, **sums))


POLICIES = [
    followed("no policy", "", 6, READS, refills=2),
    followed("the third miss asks", "migrate = 3\n", 6, READS, refills=3, moves=1),
    followed("the page is there then", "migrate = 3\n", 7, READS, refills=3, moves=1),
    followed("a replica, and a store lets it go", "replicate = 3\n", 7, READS, refills=4, moves=2),
    followed("a migration comes first", "migrate = 3\nreplicate = 3\n", 7, READS, refills=3, moves=1),
    followed("a page that is written gets no replica", "replicate = 3\n", 7, WRITES, refills=2),
    followed("what is due lapses", "migrate = 3\n", 4, READS, refills=2),
    Row(
        "the policy's node is full",
        FAR + guest("a") + FULL_NODE_1 + "[policy]\nmigrate = 3\n" + runs((0, 7)),
        {"a": READS},
        told(0, "", "budget", steps=7, refills=2, skips=1) + told(1, "", "budget"),
    ),
]
