#!/usr/bin/env python3
"""What eight guests on one disk of 1,024 blocks cost in memory, with caches of no block and of all.

    python3 bench/shared_memory.py DISCO

DISCO is the built program. Each guest reads all blocks, one after the other, each into a page of its own, and halts. Prints for each cache how many
frames the cells and the guests have, how many reads were shared, and the most memory that the process had, beside that of the same guests which
read nothing. Both runs print the same consoles, else the end is 1.
"""

from __future__ import annotations

import argparse
import os
import pathlib
import re
import subprocess
import sys
import tempfile

from rows.writing import listing

GUESTS = 8
BLOCKS = 1024
FIRST = 2  # the page into which block 0 comes
PAGES = FIRST + BLOCKS
NODES = 4
STEPS = 20_000

PROGRAM = """
    addiu r9, zero, 0
    addiu r11, zero, {blocks}
    addiu r12, zero, 1
    addiu r19, zero, 0
    addiu r13, r10, 0x{first:X}000
read:
    beq   r9, r11, done
    nop
    sw    r9, 0x20(r16)
    addiu r8, r9, {first}
    sw    r8, 0x24(r16)
    sw    r12, 0x28(r16)          # block r9 comes into page r9 + {first}
    lw    r8, 0(r13)
    addu  r19, r19, r8
    addiu r13, r13, 0x1000
    addiu r9, r9, 1
    beq   zero, zero, read
    nop
done:
    addiu r20, zero, 8
print:
    andi  r8, r19, 15
    addiu r8, r8, 65
    sw    r8, 0(r16)
    srl   r19, r19, 4
    addiu r20, r20, -1
    bne   r20, zero, print
    nop
    sw    zero, 4(r16)
"""


def disk() -> bytes:
    return b"".join((block * 7 + 1).to_bytes(4, "big") * 1024 for block in range(BLOCKS))


def description(cache: int) -> str:
    frames = (GUESTS * PAGES + cache + NODES - 1) // NODES
    text = f"[machine]\nnodes = {NODES}\nframes = {frames}\nprocessors = [0]\ncache = {cache}\n"
    for _ in range(GUESTS):
        text += f'[[guest]]\nimage = "g.raw"\nform = "raw"\npages = {PAGES}\nvcpus = 1\nnode = 0\ndisk = "d.img"\n'
    for number in range(GUESTS):
        text += f'[[work]]\nact = "run"\nprocessor = 0\nguest = {number}\nvcpu = 0\nsteps = {STEPS}\n'
    return text


def run(disco: pathlib.Path, folder: pathlib.Path, cache: int, blocks: int) -> tuple[list[bytes], int, int]:
    """The consoles, how many reads were shared, and the kilobytes that the process had at most."""
    (folder / "m.toml").write_text(description(cache))
    (folder / "d.img").write_bytes(disk())
    (folder / "g.raw").write_bytes(listing(PROGRAM.format(first=FIRST, blocks=blocks)))
    with subprocess.Popen([os.path.abspath(disco), "--machine", "m.toml"], cwd=folder, stdout=subprocess.PIPE) as process:
        assert process.stdout is not None
        report = process.stdout.read()
        _, status, usage = os.wait4(process.pid, 0)
        process.returncode = os.waitstatus_to_exitcode(status)
    assert process.returncode == 0, report
    shared = sum(int(count) for count in re.findall(rb" shared (\d+)", report))
    return re.findall(rb"console 8\n(.*)\nend halted", report), shared, usage.ru_maxrss


def main() -> int:
    parser = argparse.ArgumentParser(description=__doc__.split("\n\n")[0])
    parser.add_argument("disco", type=pathlib.Path, help="the built program")
    given = parser.parse_args()
    with tempfile.TemporaryDirectory(prefix="shared_memory_") as name:
        folder = pathlib.Path(name)
        told = []
        for cache in (0, BLOCKS):
            idle = run(given.disco, folder, cache, 0)[2]
            consoles, shared, most = run(given.disco, folder, cache, BLOCKS)
            told.append(consoles)
            print(f"cache {cache}: {cache} frames of the cell and {GUESTS * PAGES} of guests, {shared} reads shared, {most} KB at most, {idle} KB where nothing is read")
    return 0 if told[0] == told[1] and len(told[0]) == GUESTS else 1


if __name__ == "__main__":
    sys.exit(main())
