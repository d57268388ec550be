#!/usr/bin/env python3
"""How many data accesses of a guest are remote, with the policy off and on.

    python3 bench/locality.py DISCO [STEPS]

DISCO is the built program, STEPS how many steps each guest makes (100,000). Each guest has its pages on node 0 and runs on a processor of
node 1. It is run by disco and by the interpreter of bench/reference, and the two reports have to be equal, or the end is 1. disco doesn't
count accesses, so the table has the interpreter's: data accesses to memory, those of them that reach a frame of another node, and moves.
There is one processor alone, since which of several comes first is open, and with it what the policy chooses.

A second table has a machine of four nodes: how far away the frames lie, in nodes, that a guest reads from each node, where its pages lie on
node 0 with replicas on node 3: by the nearest frame, as disco takes it, and, by the interpreter alone, with the master wherever the own
node has none.
"""

from __future__ import annotations

import argparse
import pathlib
import sys
import tempfile
from collections.abc import Callable
from unittest import mock

from generator.assembler import KERNEL, Assembler
from generator.program import as_bytes
from generator.scenario import Scenario, ask_lines, policy_lines, run_lines
from random_guests import built_program, parting, report_of_disco, write_files
from reference import Ask, Monitor, Policy, Replicate, Run, Start
from reference.frames import Frame
from reference.moves import Page

STEPS = 100_000
PAGES = 9  # one of code and eight of data
FRAMES = 16
POLICIES = (Policy(), Policy(migrate=64), Policy(replicate=64), Policy(migrate=64, replicate=16))

FIRST_WORD = """
        lui   r8, 0xC000
        ori   r8, r8, 0x1000
"""


def pass_over_pages(label: str, words: int, body: str) -> str:
    """Does something with so many words that are spread evenly over the eight pages."""
    return f"""
        {FIRST_WORD}
        addiu r9, zero, {words}
    {label}:
        {body}
        addiu r9, r9, -1
        bne   r9, zero, {label}
        addiu r8, r8, {0x8000 // words}
    """


LOAD = "lw r10, 0(r8)"
ADD_ONE = f"""
        {LOAD}
        addiu r10, r10, 1
        sw    r10, 0(r8)
"""

GUESTS = {
    "walks: adds to each word": pass_over_pages("word", 256, ADD_ONE),
    "table: 2,048 loads, and a store into the first page": f"""
        {pass_over_pages("word", 2048, LOAD)}
        {FIRST_WORD}
        sw    r10, 0(r8)
    """,
    "alternates: 2,048 loads, and then adds to 256 words": f"""
        {pass_over_pages("loaded", 2048, LOAD)}
        {pass_over_pages("added", 256, ADD_ONE)}
    """,
}


def image(text: str) -> bytes:
    """A listing over and over."""
    code = Assembler(KERNEL)
    code.label("again")
    code.listing(text)
    code.listing("j again\nnop")
    return as_bytes(code.finished())


def run_of(memory: bytes, policy: Policy, steps: int) -> Scenario:
    made = Scenario(
        files={"guest.raw": memory},
        starts=[Start(memory, KERNEL, PAGES, processors=1)],
        hosts=[0],
        plan=[Run(guest=0, processor=0, steps=steps)],
        cells=[[0, 1]],
        frames=FRAMES,
        processors=[1],
        homes=[0],
        policy=policy,
    )
    made.lines = [
        *("[machine]", "nodes = 2", f"frames = {FRAMES}", "processors = [1]"),
        *("[[guest]]", 'image = "guest.raw"', 'form = "raw"', f"pages = {PAGES}", "vcpus = 1", "node = 0"),
        *policy_lines(policy),
        *run_lines(Run(guest=0, processor=0, steps=steps), host=0),
    ]
    return made


def interpreted(made: Scenario) -> Monitor:
    monitor = Monitor(made.starts, made.hosts, made.machine(), made.policy)
    monitor.carry_out(made.plan)
    return monitor


def run_by_disco(disco: pathlib.Path, made: Scenario) -> bytes:
    with tempfile.TemporaryDirectory() as folder:
        write_files(pathlib.Path(folder), made.description(), made.files)
        return report_of_disco(disco, "--machine", pathlib.Path(folder))


NODES = 4
READS = pass_over_pages("word", 2048, LOAD)


def copied_run(memory: bytes, node: int, steps: int) -> Scenario:
    """A guest on node 0 whose pages are copied to the last node, by the asking of a processor there, and read by one of this node."""
    last = NODES - 1
    asks = [Ask(asker=last, guest=0, move=Replicate(page=number, node=last)) for number in range(PAGES)]
    run = Run(guest=0, processor=0, steps=steps)
    processors = list(range(NODES))
    made = Scenario(
        files={"guest.raw": memory},
        starts=[Start(memory, KERNEL, PAGES, processors=1)],
        hosts=[node],
        plan=[*asks, run],
        cells=[processors],
        frames=FRAMES,
        processors=processors,
        homes=[0],
        policy=Policy(),
    )
    made.lines = [
        *("[machine]", f"nodes = {NODES}", f"frames = {FRAMES}", f"processors = {processors}"),
        *("[[guest]]", 'image = "guest.raw"', 'form = "raw"', f"pages = {PAGES}", "vcpus = 1", "node = 0"),
        *(line for ask in asks for line in ask_lines(ask)),
        *run_lines(run, host=node),
    ]
    return made


def own_or_master(page: Page, node: int, is_dead: Callable[[int], bool]) -> Frame:
    """The frame of a processor's own node, or the master where there is none."""
    return next((frame for frame in page.frames() if frame.node == node), page.master)


def far_row(node: int, how: str, monitor: Monitor) -> str:
    distances = monitor.guests[0].host.distances
    total = sum(distances.values())
    mean = sum(far * times for far, times in distances.items()) / total
    return f"| {node} | {how} | {' | '.join(str(distances[far]) for far in range(NODES))} | {mean:.2f} |"


def row(name: str, policy: Policy, monitor: Monitor) -> str:
    host = monitor.guests[0].host
    thresholds = ", ".join(policy_lines(policy)[1:]) or "off"
    return f"| {name} | {thresholds} | {host.accesses} | {host.misses} | {host.misses / host.accesses:.4f} | {host.pages.moves} |"


def main() -> int:
    parser = argparse.ArgumentParser(description=__doc__.split("\n", 1)[0])
    parser.add_argument("disco", type=built_program, help="the built program")
    parser.add_argument("steps", type=int, nargs="?", default=STEPS, help="how many steps each guest makes (%(default)s)")
    given = parser.parse_args()
    print("| guest, on pages of another node | policy | data accesses | remote | fraction | moves |")
    print("|---|---|---|---|---|---|")
    for name, text in GUESTS.items():
        for policy in POLICIES:
            made = run_of(image(text), policy, given.steps)
            monitor = interpreted(made)
            print(row(name, policy, monitor), flush=True)
            found = run_by_disco(given.disco, made)
            if found != monitor.report():
                print(f"the reports differ\n{parting(monitor.report(), found)}")
                return 1
    print("\n| reads from node | by | 0 nodes away | 1 | 2 | 3 | mean |\n|---|---|---|---|---|---|---|")
    for node in range(NODES):
        made = copied_run(image(READS), node, given.steps)
        monitor = interpreted(made)
        print(far_row(node, "the nearest frame", monitor), flush=True)
        with mock.patch.object(Page, "nearest", own_or_master):
            print(far_row(node, "the own node's or the master", interpreted(made)), flush=True)
        found = run_by_disco(given.disco, made)
        if found != monitor.report():
            print(f"the reports differ\n{parting(monitor.report(), found)}")
            return 1
    return 0


if __name__ == "__main__":
    sys.exit(main())
