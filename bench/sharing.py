#!/usr/bin/env python3
"""Eight guests that share blocks and hand pages to each other, all at once, each on a processor of its own.

    python3 bench/sharing.py DISCO [RUNS]

DISCO is the built program; RUNS is how often they run (10,000). In each of twelve rounds a guest reads a block of the disk that all have into a
page, writes to the page, sends it whole to the next guest, writes to it again, and waits for the page of the guest before it, to which it
writes too. So each page is shared, and broken, again and again, by guests of eight processors on two nodes. What a guest prints at the end
stands for all that it has read, and doesn't depend on who was faster. Each run's consoles are those of the interpreter in reference/, else
the run is printed, its folder is kept, and the end is 1.
"""

from __future__ import annotations

import argparse
import collections
import os
import pathlib
import re
import shutil
import subprocess
import sys
import tempfile
import time
from random import Random

from generator.assembler import KERNEL
from reference import DiskFile, Machine, Monitor, Policy, Run, Start
from rows.writing import listing

GUESTS = 8
PAGES = 5
BLOCKS = 6
ROUNDS = 12
FRAMES = 48  # of each of two nodes
CACHE = 4
STEPS = 2_000_000
NODES = [number % 2 for number in range(GUESTS)]

PROGRAM = """
    addiu r17, zero, {own}
    addiu r18, zero, {next}
    addiu r19, zero, 0            # what was read
    addiu r20, zero, 0            # the round
    addiu r21, zero, 0            # the block
    addiu r12, zero, 1
round:
    addiu r8, zero, 3
    sw    r8, 0x3C(r16)           # page 3 is armed
    sw    r21, 0x20(r16)
    addiu r8, zero, 2
    sw    r8, 0x24(r16)
    sw    r12, 0x28(r16)          # the block comes into page 2
    lw    r9, 0x2000(r10)
    sll   r13, r19, 1
    addu  r19, r13, r9
    addu  r9, r19, r17
    sw    r9, 0x2004(r10)         # which is written to
    addiu r8, zero, 2
    sw    r8, 0x30(r16)
    addiu r8, zero, 0x1000
    sw    r8, 0x34(r16)
    sw    r18, 0x38(r16)          # and sent
    sw    r17, 0x2004(r10)        # and written to
    addiu r8, zero, 3
wait:
    lw    r9, 0x3C(r16)
    beq   r9, r8, wait
    nop
    lw    r9, 0x3000(r10)
    sll   r13, r19, 1
    addu  r19, r13, r9
    lw    r9, 0x3004(r10)
    sll   r13, r19, 1
    addu  r19, r13, r9
    sw    r19, 0x3000(r10)
    addiu r21, r21, 1
    sltiu r9, r21, {blocks}
    bne   r9, zero, more
    nop
    addiu r21, zero, 0
more:
    addiu r20, r20, 1
    sltiu r9, r20, {rounds}
    bne   r9, zero, round
    nop
    addiu r20, zero, 8
print:
    andi  r9, r19, 15
    addiu r9, r9, 65
    sw    r9, 0(r16)
    srl   r19, r19, 4
    addiu r20, r20, -1
    bne   r20, zero, print
    nop
    sw    zero, 4(r16)
"""


def image(own: int) -> bytes:
    return listing(PROGRAM.format(own=own, next=(own + 1) % GUESTS, blocks=BLOCKS, rounds=ROUNDS))


def disk() -> bytes:
    return b"".join((0x01010101 * (block + 1) * 7 % 2**32).to_bytes(4, "big") * 1024 for block in range(BLOCKS))


def description() -> str:
    text = f"[machine]\nnodes = 2\nframes = {FRAMES}\nprocessors = {NODES}\ncache = {CACHE}\n"
    for number in range(GUESTS):
        text += f'[[guest]]\nimage = "g{number}.raw"\nform = "raw"\npages = {PAGES}\nvcpus = 1\nnode = {NODES[number]}\ndisk = "d.img"\n'
    for number in range(GUESTS):
        text += f'[[work]]\nact = "run"\nprocessor = {number}\nguest = {number}\nvcpu = 0\nsteps = {STEPS}\n'
    return text


def expected() -> list[str]:
    """The consoles, by the interpreter."""
    starts = [Start(image(number), KERNEL, PAGES, 1, DiskFile("d", disk())) for number in range(GUESTS)]
    monitor = Monitor(starts, list(range(GUESTS)), Machine([[0, 1]], FRAMES, NODES, NODES, cache=CACHE), Policy())
    monitor.carry_out_mixed([Run(number, 0, STEPS) for number in range(GUESTS)], Random(0))
    return consoles(monitor.report())


CONSOLE = re.compile(rb"guest \d+ console \d+\n(.*)\nend halted\n")
SUMS = re.compile(rb"breaks (\d+) shared (\d+) received (\d+)")


def consoles(report: bytes) -> list[str]:
    return [found.decode() for found in CONSOLE.findall(report)]


def main() -> int:
    parser = argparse.ArgumentParser(description=__doc__.split("\n\n")[0])
    parser.add_argument("disco", type=pathlib.Path, help="the built program")
    parser.add_argument("runs", type=int, nargs="?", default=10_000, help="how many runs (10,000)")
    given = parser.parse_args()
    wanted = expected()
    assert len(wanted) == GUESTS
    folder = pathlib.Path(tempfile.mkdtemp(prefix="sharing_"))
    (folder / "m.toml").write_text(description())
    (folder / "d.img").write_bytes(disk())
    for number in range(GUESTS):
        (folder / f"g{number}.raw").write_bytes(image(number))
    sums: collections.Counter[str] = collections.Counter()
    began = time.monotonic()
    for run in range(given.runs):
        done = subprocess.run([os.path.abspath(given.disco), "--machine", "m.toml"], cwd=folder, capture_output=True, timeout=300)
        if done.returncode != 0 or consoles(done.stdout) != wanted:
            print(f"run {run} differs, see {folder}\n{done.stdout.decode()}{done.stderr.decode()}wanted {wanted}")
            return 1
        for breaks, shared, received in SUMS.findall(done.stdout):
            sums.update(breaks=int(breaks), shared=int(shared), received=int(received))
    shutil.rmtree(folder)
    each = ", ".join(f"{count / given.runs:.1f} {name}" for name, count in sums.items())
    print(f"{given.runs} runs of {GUESTS} guests, {time.monotonic() - began:.0f} seconds, each with {each} on average: all as expected")
    return 0


if __name__ == "__main__":
    sys.exit(main())
