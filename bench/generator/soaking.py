"""A random run that several processors carry out at once, with packets, shared disks, moves and failures."""

from __future__ import annotations

from random import Random

from reference import Run

from .program import Traits, disk
from .scenario import (
    SHARED_DISKS,
    Scenario,
    guest_asks,
    put_failures,
    put_guest,
    put_items,
    put_policy,
    put_tight_frames,
    put_tight_machine,
    with_asks,
)

ON_ONE = 0.4  # how many of the guests run on one processor alone
STEPS_AT_THE_END = 50_000  # enough for most guests to halt


WIDEST = 8  # nodes, cells and guests
MOST_PROCESSORS = 32


def wide_run(seed: int) -> Scenario:
    """The run of a seed on the widest machine: 32 processors, 8 guests, and 8 cells of one node, of which all but one fail."""
    random = Random(f"is wide {seed}")
    made = Scenario()
    made.files = {name: disk(random, random.choice(sizes)) for name, sizes in SHARED_DISKS.items()}
    traits = [soaking_traits(random, WIDEST) for _ in range(WIDEST)]
    made.hosts = [random.randrange(MOST_PROCESSORS) for _ in traits]
    made.processors = [random.randrange(WIDEST) for _ in range(MOST_PROCESSORS)]
    made.homes = [random.randrange(WIDEST) for _ in traits]
    made.cells = [[node] for node in range(WIDEST)]
    made.cache = random.choice((0, 1, 3))
    put_tight_frames(made, random, WIDEST, traits)
    for number, each in enumerate(traits):
        put_guest(made, random, number, each)
    put_policy(made, random)
    put_plan(made, random, traits)
    put_failures(made, random, WIDEST - 1)
    put_items(made)
    return made


def soaking_run(seed: int, failing: float) -> Scenario:
    """The run of a seed. In so many of all, from none (0) to each (1), cells fail."""
    random = Random(f"soaks {seed}")
    made = Scenario()
    made.files = {name: disk(random, random.choice(sizes)) for name, sizes in SHARED_DISKS.items()}
    fails = random.random() < failing
    guests, processors = random.choice((2, 3, 4, 6, 8)), random.choice((2, 3, 4, 6, 8))
    traits = [soaking_traits(random, guests) for _ in range(guests)]
    made.hosts = [random.randrange(processors) for _ in traits]
    put_tight_machine(made, random, processors, traits, fails)
    for number, each in enumerate(traits):
        put_guest(made, random, number, each)
    put_policy(made, random)
    put_plan(made, random, traits)
    if fails:
        put_failures(made, random)
    put_items(made)
    return made


def soaking_traits(random: Random, guests: int) -> Traits:
    """A guest that sends to others, or to nobody who is there."""
    receivers = (*range(guests), *range(guests), guests, 0xFFFF_FFFF)
    return Traits(
        pages=random.choice((10, 10, 11, 60)),
        processors=random.choice((1, 1, 2, 3, 4)),
        has_disk=random.random() < 0.7,
        has_packets=random.random() < 0.6,
        receivers=receivers if random.random() < 0.6 else (guests, 9, 0xFFFF_FFFF),
        shares=True,
        profile=random.choice((1, 2)),
    )


def put_plan(made: Scenario, random: Random, traits: list[Traits]) -> None:
    """The runs of all guests and the moves of their pages, mixed."""
    runs = [soaking_runs(made, random, number, each) for number, each in enumerate(traits)]
    items = [with_asks(random, *row) for row in zip(runs, guest_asks(made, random, traits), strict=True)]
    waiting = [number for number, each in enumerate(items) for _ in each]
    random.shuffle(waiting)
    made.plan = [items[number].pop(0) for number in waiting]


def soaking_runs(made: Scenario, random: Random, number: int, traits: Traits) -> list[Run]:
    """Short and long runs of a guest, each on any processor or all on one, and then enough for the rest."""
    processors = [made.hosts[number]] if random.random() < ON_ONE else range(len(made.processors))
    longest = random.choice((20, 200, 2000, 10_000))
    virtual = range(traits.processors)
    runs = [
        Run(number, random.choice(virtual), random.randrange(longest), random.choice(processors))
        for _ in range(random.choice((3, 10, 40)))
    ]
    return runs + [Run(number, each, STEPS_AT_THE_END, random.choice(processors)) for each in virtual]
