"""Descriptions: a guest alone, and several at once on four nodes and three cells, with moves and, if asked for, a cell that fails."""

from __future__ import annotations

import random
from dataclasses import dataclass

TURNS = 10
ONE = "[machine]\nnodes = 1\nframes = {frames}\nprocessors = [0]\n"
MANY = """[machine]
nodes = 4
frames = 700
processors = [0, 0, 1, 1, 2, 2, 3, 3]
cache = 6

[policy]
migrate = 48
replicate = 24

[[cell]]
nodes = [0, 1]
lend = 300

[[cell]]
nodes = [2]
lend = 100

[[cell]]
nodes = [3]
lend = 100
"""
# of each node: the processors of its cell, and the nodes of its cell
PROCESSORS = {0: (0, 1, 2, 3), 1: (0, 1, 2, 3), 2: (4, 5), 3: (6, 7)}
NODES = {0: (0, 1), 1: (0, 1), 2: (2,), 3: (3,)}
FAILING = 2  # the cell of node 3


@dataclass(frozen=True)
class Seat:
    """A guest of a description."""

    name: str
    pages: int
    node: int
    steps: int
    disk: str | None


def guest(seat: Seat) -> str:
    disk = f'disk = "{seat.disk}"\n' if seat.disk is not None else ""
    return f'\n[[guest]]\nimage = "{seat.name}.elf"\npages = {seat.pages}\nvcpus = 1\nnode = {seat.node}\n{disk}'


def run(processor: int, number: int, steps: int) -> str:
    return f'\n[[work]]\nact = "run"\nprocessor = {processor}\nguest = {number}\nvcpu = 0\nsteps = {steps}\n'


def move(processor: int, number: int, page: int, kind: str, node: int | None) -> str:
    to = f"node = {node}\n" if node is not None else ""
    return f'\n[[work]]\nact = "move"\nprocessor = {processor}\nguest = {number}\npage = {page}\nkind = "{kind}"\n{to}'


def fail(processor: int, cell: int) -> str:
    return f'\n[[work]]\nact = "fail"\nprocessor = {processor}\ncell = {cell}\n'


def alone(seat: Seat) -> str:
    return ONE.format(frames=seat.pages + 8) + guest(seat) + run(0, 0, seat.steps)


def pair(seats: list[Seat], turns: int, steps: int) -> str:
    """Two guests on one processor, in turns."""
    text = ONE.format(frames=sum(seat.pages for seat in seats) + 16).replace("[0]\n", "[0]\ncache = 8\n") + "".join(map(guest, seats))
    return text + (run(0, 0, steps) + run(0, 1, steps)) * turns


def one_turn(seats: list[Seat], turn: int, chance: random.Random) -> str:
    """A slice of each guest, each on a processor of its cell; and in every other turn moves of a page of each."""
    items = ""
    for number, seat in enumerate(seats):
        processors = PROCESSORS[seat.node]
        processor = processors[(number + turn) % len(processors)]
        items += run(processor, number, seat.steps // TURNS)
        if turn % 2:
            items += move(processor, number, chance.randrange(seat.pages), chance.choice(("migrate", "replicate")), chance.choice(NODES[seat.node]))
        if turn in (4, 8):
            items += move(processor, number, chance.randrange(12), "collapse", None)
    return items


def crowd(seats: list[Seat], seed: int, failing: bool) -> str:
    chance = random.Random(seed)
    text = MANY + "".join(map(guest, seats))
    for turn in range(TURNS):
        text += one_turn(seats, turn, chance)
        if failing and turn == 3:
            text += fail(7, FAILING)
    return text
