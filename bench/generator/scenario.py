"""A random machine with its guests, its plan and its files."""

from __future__ import annotations

import struct
from collections.abc import Sequence
from dataclasses import dataclass, field
from random import Random

from reference import (
    Ask,
    Collapse,
    DiskFile,
    Fail,
    Input,
    Item,
    Machine,
    Migrate,
    PageMove,
    Policy,
    Replicate,
    Run,
    Start,
)
from reference.cache import Cache
from reference.frames import AdmissionFault, Frames, Holder
from reference.plan import processor_of

from .assembler import KERNEL
from .kernel import PROGRAM
from .program import Traits, disk, image
from .sharing_pieces import PAGES, SENT_PAGES

GUESTS_MOST = 8
STEPS_AT_THE_END = 20_000  # enough for most guests to halt
DISKS = {"d0.img": (9001, 8192, 4096), "d1.img": (12288, 5000, 1, 0)}
SHARED_DISKS = {"d0.img": (9001, 8192, 4096, 16384), "d1.img": (12288, 5000)}


@dataclass
class Scenario:
    """All that a run is made of."""

    files: dict[str, bytes] = field(default_factory=dict)
    lines: list[str] = field(default_factory=list)  # of the description
    starts: list[Start] = field(default_factory=list)
    hosts: list[int] = field(default_factory=list)  # each guest's processor of the machine
    plan: list[Item] = field(default_factory=list)
    cells: list[list[int]] = field(default_factory=list)
    lends: list[int] = field(default_factory=list)  # of each cell
    frames: int = 0  # of each node
    cache: int = 0  # frames of each cell for blocks
    processors: list[int] = field(default_factory=list)  # the node of each
    homes: list[int] = field(default_factory=list)
    policy: Policy = Policy()

    def machine(self) -> Machine:
        return Machine(self.cells, self.frames, self.homes, self.processors, self.lends, self.cache)

    def description(self) -> bytes:
        return ("\n".join(self.lines) + "\n").encode()


def scenario(seed: int, sharing: float = 0, failing: float = 0) -> Scenario:
    """The run of a seed. In so many of all, from none (0) to each (1), guests share, and in so many cells fail."""
    failures = Random(f"fails {seed}")
    fails = failures.random() < failing
    if sharing and Random(f"kind {seed}").random() < sharing:
        made = sharing_run(Random(f"shares {seed}"), fails)
    else:
        made = any_run(Random(seed), fails)
    if fails:
        put_failures(made, failures)
    put_items(made)
    return made


def any_run(random: Random, fails: bool) -> Scenario:
    """Either all guests share a processor, and may send to each other, or each has its own or shares it with some."""
    made = Scenario()
    made.files = {name: disk(random, random.choice(sizes)) for name, sizes in DISKS.items()}
    guests = random.choice((1, 2, 3, 3, 4, 5, 8))
    together = random.random() < 0.4
    processors = 1 if together else random.randrange(1, 5)
    made.hosts = [random.randrange(processors) for _ in range(guests)]
    traits = [guest_traits(random, guests, together) for _ in range(guests)]
    put_machine(made, random, processors, sum(each.pages for each in traits), fails)
    for number, each in enumerate(traits):
        put_guest(made, random, number, each)
    put_policy(made, random)
    put_work(made, random, traits, together)
    return made


def sharing_run(random: Random, fails: bool) -> Scenario:
    """Few frames are left, few blocks are read, and pages are sent whole. Mostly all guests share a processor."""
    made = Scenario()
    made.files = {name: disk(random, random.choice(sizes)) for name, sizes in SHARED_DISKS.items()}
    guests = random.choice((1, 2, 2, 3, 3, 4, 6))
    together = random.random() < 0.9
    processors = 1 if together else random.randrange(2, 4)
    made.hosts = [random.randrange(processors) for _ in range(guests)]
    traits = [sharing_traits(random, guests, together) for _ in range(guests)]
    put_tight_machine(made, random, processors, traits, fails)
    for number, each in enumerate(traits):
        put_guest(made, random, number, each)
    put_policy(made, random)
    put_work(made, random, traits, together)
    return made


def sharing_traits(random: Random, guests: int, together: bool) -> Traits:
    receivers = (*range(guests), *range(guests), *range(guests), guests, 0xFFFF_FFFF)
    return Traits(
        pages=random.choice((10, 10, 11)),
        processors=random.choice((1, 1, 1, 2, 3)),
        has_disk=random.random() < 0.85,
        has_packets=together,
        receivers=receivers if together else (GUESTS_MOST, 9, 0xFFFF_FFFF),
        shares=True,
        profile=random.choice((1, 2)),
    )


def put_tight_machine(made: Scenario, random: Random, processors: int, traits: list[Traits], fails: bool) -> None:
    """Nodes with room for caches and pages, and a few frames more. Cells lend nothing, a few frames, or all of theirs.

    Where cells fail there are mostly several.
    """
    nodes = random.choice((1, 2, 3, 4, 4) if fails else (1, 1, 2, 3, 4))
    made.processors = [random.randrange(nodes) for _ in range(processors)]
    made.homes = [random.randrange(nodes) for _ in traits]
    made.cache = random.choice((0, 1, 1, 2, 3, 4, 6))
    made.cells = random_cells(random, nodes)
    put_tight_frames(made, random, nodes, traits)


def put_tight_frames(made: Scenario, random: Random, nodes: int, traits: list[Traits]) -> None:
    """Just so many frames on each node that the guests are let in, or a few more, and what each cell lends."""
    made.lends = [random.choice((0, 1, 3, 10, 1000)) if len(made.cells) > 1 else 0 for _ in made.cells]
    made.frames = 1
    while not fits(made.machine(), traits):
        made.frames += 1
    made.frames += random.choice((0, 0, 0, 1, 1, 2, 5, 30))
    made.lines += ["[machine]", f"nodes = {nodes}", f"frames = {made.frames}", f"processors = {made.processors}"]
    made.lines.append(f"cache = {made.cache}")
    for cell, lend in zip(made.cells, made.lends, strict=True):
        made.lines += ["[[cell]]", f"nodes = {cell}", f"lend = {lend}"]


def random_cells(random: Random, nodes: int) -> list[list[int]]:
    """Each node joins a cell, in any order."""
    count = random.randrange(1, nodes + 1)
    order = random.sample(range(nodes), nodes)
    return [order[number::count] for number in range(count)]


def fits(machine: Machine, traits: list[Traits]) -> bool:
    """Whether caches and guests get all their frames."""
    frames = Frames(machine)
    try:
        caches = [Cache(frames, cell) for cell in range(len(machine.cells))]
    except AdmissionFault:
        return False
    for number, each in enumerate(traits):
        holder = Holder(frames, machine.home_cell(number))
        if holder.room() < each.pages:
            return False
        for _ in range(each.pages):
            holder.find(machine.boot_order(machine.homes[number]))
    return len(caches) == len(machine.cells)


def guest_traits(random: Random, guests: int, together: bool) -> Traits:
    """Guests that share no processor send to nobody who is there, since it would be open when a packet arrives."""
    receivers = (*range(guests), guests, 7, 8, 0xFFFF_FFFF) if together else (GUESTS_MOST, 9, 0x8000_0000, 0xFFFF_FFFF)
    return Traits(
        pages=random.choice((8, 8, 8, 9, 11, 130)),
        processors=random.choice((1, 1, 1, 2, 3, 4)),
        has_disk=random.random() < 0.5,
        has_packets=together,
        receivers=receivers,
        profile=random.choice((1, 2)),
    )


def put_machine(made: Scenario, random: Random, processors: int, pages: int, fails: bool) -> None:
    """Nodes and cells with room for all pages, or with far more; each cell lends as much as it has.

    Where a cell fails there are two of them, if there are so many nodes.
    """
    nodes = random.choice((1, 2, 2, 3, 4, 8))
    made.frames = random.choice((-(-pages // nodes), 2 * pages)) + random.choice((0, 1, 7, 20))
    made.processors = [random.randrange(nodes) for _ in range(processors)]
    made.lines += ["[machine]", f"nodes = {nodes}", f"frames = {made.frames}", f"processors = {made.processors}"]
    made.cells = [list(range(nodes))]
    if nodes > 1 and (random.random() < 0.5 or fails):
        made.cells = [list(range(nodes - 1)), [nodes - 1]]
        made.lends = [made.frames * nodes] * 2
        for cell in made.cells:
            made.lines += ["[[cell]]", f"nodes = {cell}", f"lend = {made.frames * nodes}"]


def put_guest(made: Scenario, random: Random, number: int, traits: Traits) -> None:
    memory = image(random, traits)
    is_raw = random.random() < 0.5
    name = f"g{number}.{'raw' if is_raw else 'elf'}"
    made.files[name] = memory if is_raw else elf(random, memory)
    disk_name = random.choice(("d0.img", "d0.img", "d1.img") if traits.shares else list(DISKS)) if traits.has_disk else None
    made.lines += ["[[guest]]", f'image = "{name}"', f"pages = {traits.pages}", f"vcpus = {traits.processors}"]
    if not traits.shares:
        made.homes.append(random.choice(made.machine().nodes()))
    made.lines.append(f"node = {made.homes[number]}")
    made.lines += ['form = "raw"'] * is_raw + [f'disk = "{disk_name}"'] * traits.has_disk
    made.lines += [f"profile = {traits.profile}"] * (traits.profile != 1)
    made.starts.append(
        Start(
            image=memory,
            entry=KERNEL if is_raw else KERNEL + PROGRAM,
            pages=traits.pages,
            processors=traits.processors,
            disk=DiskFile(disk_name, made.files[disk_name]) if disk_name else None,
            inputs=tuple(inputs(random)),
            profile=traits.profile,
        )
    )


def inputs(random: Random) -> list[Input]:
    """What is typed, in any order of the file."""
    return [one_input(random) for _ in range(random.choice((0, 1, 1, 3, 6)))]


def one_input(random: Random) -> Input:
    at = random.choice((0, random.randrange(900), random.randrange(4000)))
    return Input(at, bytes(random.choices(b"abcXYZ 0189", k=random.randrange(1, 9))))


def put_policy(made: Scenario, random: Random) -> None:
    """Thresholds that are reached soon. A replica comes before a migration only where that has a higher one, or none."""
    if random.random() < 0.4:
        return
    low, high = random.choice((1, 2, 3, 7)), random.choice((3, 8, 40))
    made.policy = random.choice((Policy(low, 0), Policy(0, low), Policy(0, low), Policy(high, low), Policy(low, high)))
    made.lines += policy_lines(made.policy)


def policy_lines(policy: Policy) -> list[str]:
    """A threshold of 0 needs no line."""
    thresholds = (("migrate", policy.migrate), ("replicate", policy.replicate))
    return ["[policy]", *(f"{name} = {threshold}" for name, threshold in thresholds if threshold)]


def put_work(made: Scenario, random: Random, traits: list[Traits], together: bool) -> None:
    """The runs of all guests and the moves of their pages, mixed."""
    runs = [guest_items(random, number, each, together) for number, each in enumerate(traits)]
    asks = guest_asks(made, random, traits)
    items: list[list[Item]] = [with_asks(random, each, asked) for each, asked in zip(runs, asks, strict=True)]
    waiting = [number for number, each in enumerate(items) for _ in each]
    random.shuffle(waiting)
    made.plan = [items[number].pop(0) for number in waiting]


def put_failures(made: Scenario, random: Random, count: int | None = None) -> None:
    """So many cells fail, or one or two, at any places of the plan, through any processors."""
    for cell in random.sample(range(len(made.cells)), count or min(random.choice((1, 1, 2)), len(made.cells))):
        made.plan.insert(random.randrange(len(made.plan) + 1), Fail(random.randrange(len(made.processors)), cell))


def put_items(made: Scenario) -> None:
    """The lines of the plan, and of the input."""
    for item in made.plan:
        made.lines += item_lines(item, made.hosts)
    for number, start in enumerate(made.starts):
        for entry in start.inputs:
            made.lines += ["[[input]]", f"guest = {number}", f"at = {entry.at}", f'text = "{entry.text.decode()}"']


def item_lines(item: Item, hosts: Sequence[int]) -> list[str]:
    match item:
        case Run():
            return run_lines(item, processor_of(item, hosts))
        case Ask():
            return ask_lines(item)
        case Fail():
            return ["[[work]]", 'act = "fail"', f"processor = {item.asker}", f"cell = {item.cell}"]


def run_lines(run: Run, host: int) -> list[str]:
    return [
        "[[work]]", 'act = "run"', f"processor = {host}", f"guest = {run.guest}", f"vcpu = {run.processor}", f"steps = {run.steps}",
    ]


def ask_lines(ask: Ask) -> list[str]:
    return ["[[work]]", 'act = "move"', f"processor = {ask.asker}", f"guest = {ask.guest}", *move_lines(ask.move)]


def move_lines(move: PageMove) -> list[str]:
    """A collapse has no node."""
    lines = [f"page = {move.page}", f'kind = "{move.kind.value}"']
    return lines if isinstance(move, Collapse) else [*lines, f"node = {move.node}"]


def guest_asks(made: Scenario, random: Random, traits: list[Traits]) -> list[list[Ask]]:
    """Moves of each guest's pages, often of few pages, asked for by its host or by anyone."""
    most = random.choice((0, 0, 4, 30, 100))
    by_anyone = random.random() < 0.3
    asks = []
    for number, each in enumerate(traits):
        pages = range(random.choice((2, 8, each.pages)))
        if each.shares:
            pages = random.choice((pages, PAGES, PAGES + SENT_PAGES))
        askers = range(len(made.processors)) if by_anyone else [made.hosts[number]]
        moves = [page_move(made, random, random.choice(pages)) for _ in range(random.randrange(most + 1))]
        asks.append([Ask(random.choice(askers), number, move) for move in moves])
    return asks


def page_move(made: Scenario, random: Random, page: int) -> PageMove:
    """More replicas are asked for than collapses, as stores ask for these too."""
    node = random.choice(made.machine().nodes())
    return random.choice((Migrate(page, node), Replicate(page, node), Replicate(page, node), Collapse(page)))


def with_asks(random: Random, runs: list[Run], asks: list[Ask]) -> list[Item]:
    """The runs in their order, and the moves that are asked for anywhere between."""
    items: list[Item] = [*runs]
    for ask in asks:
        items.insert(random.randrange(len(items) + 1), ask)
    return items


def guest_items(random: Random, number: int, traits: Traits, together: bool) -> list[Run]:
    """A guest's runs: short ones, where others take their turn in between, and then enough for the rest."""
    count = random.choice((0, 1, 3, 8)) if traits.processors == 1 and not together else random.choice((10, 40, 120))
    longest = random.choice((5, 40, 200, 1000) if not traits.shares else (5, 20, 40, 100, 300))
    runs = [Run(number, random.randrange(traits.processors), random.randrange(longest)) for _ in range(count)]
    rest = [Run(number, processor, STEPS_AT_THE_END) for processor in range(traits.processors)]
    random.shuffle(rest)
    return runs + rest[: len(rest) - (random.random() < 0.1)]


def elf(random: Random, memory: bytes) -> bytes:
    """An ELF file of two segments, whose zeros at the end it leaves out, with a header that says nothing."""
    middle = random.choice((0x1000, 0x2000, 0x2345))
    segments = [(0, memory[:middle]), (middle, memory[middle:])]
    random.shuffle(segments)
    content = [part.rstrip(b"\0") for _, part in segments]
    identification = bytes((0x7F, *b"ELF", 1, 2, 1)).ljust(16, b"\0")
    header = struct.pack(">HHIIIIIHHHHHH", 2, 8, 1, KERNEL + PROGRAM, 52, 0, 0, 52, 32, 3, 0, 0, 0)
    place = 52 + 3 * 32
    headers = [struct.pack(">8I", 4, 0, 0, 0, 4, 4, 4, 4)]
    for (begin, part), kept in zip(segments, content, strict=True):
        headers.append(struct.pack(">8I", 1, place, KERNEL + begin, 0, len(kept), len(part), 7, 4096))
        place += len(kept)
    return b"".join((identification, header, *headers, *content))
