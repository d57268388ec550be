#!/usr/bin/env python3
"""What moves of pages cost a guest that runs, as ratios of one run. It is no test and has no limit.

    moves.py DISCO [TIMES]

A guest loads, stores and branches on a page of its own, on a processor of one node; a processor of another node makes 1,000 steps of a guest of
its own between one move and the next, which brings the page to the other node and back. Each description is run TIMES times (5) with the moves
and without, in turns, and the shortest counts. Prints how fast the guests run with moves as a ratio to without (1 is as fast), and how many of
the moves were done; what a step costs with 2,048 pages as a ratio to 16, with no move; and what a step of a guest that only reads costs where
it reads its code and its data by replicas, and by frames of another node, as ratios to the frames of its own."""

import argparse
import pathlib
import struct
import subprocess
import tempfile
import time

STEPS = 4_000_000
ALONE = 16_000_000  # the most that a plan may have
BETWEEN = 1_000
MOVES = 2_000

# LUI 6, C000; ORI 6, 6, 1000; LW 2, 0(6); ADDIU 2, 2, 1; SW 2, 0(6); LBU 3, 3(6); ADDU 4, 4, 3; SLTU 5, 3, 2; BEQ 5, 0, the next but one;
# ADDIU 7, 7, 1; J to the first load; its delay slot
WALK = (
    0x3C06C000, 0x34C61000, 0x8CC20000, 0x24420001, 0xACC20000, 0x90C30003,
    0x00832021, 0x0062282B, 0x10A00001, 0x24E70001, 0x08000002, 0x00000000,
)


# LUI 6, C000; ORI 6, 6, 1000; four times LW 2, 0(6), and ADDU 4, 4, 2; J to the first load; its delay slot
READS = (
    0x3C06C000, 0x34C61000, 0x8CC20000, 0x00822021, 0x8CC20000, 0x00822021, 0x8CC20000, 0x00822021, 0x8CC20000, 0x00822021,
    0x08000002, 0x00000000,
)


def machine(pages):
    return f"[machine]\nnodes = 2\nframes = {max(pages, 16) + 16}\nprocessors = [0, 1]\n"


def guest(image, pages, node):
    return f'[[guest]]\nimage = "{image}"\nform = "raw"\npages = {pages}\nvcpus = 1\nnode = {node}\n'


def run(processor, number, steps):
    return f'[[work]]\nact = "run"\nprocessor = {processor}\nguest = {number}\nvcpu = 0\nsteps = {steps}\n'


def move(node):
    return f'[[work]]\nact = "move"\nprocessor = 1\nguest = 0\npage = 1\nkind = "migrate"\nnode = {node}\n'


def under_moves(image, moves):
    """The guest runs, and beside it the other one, with so many moves of the first one's page between its slices."""
    text = machine(16) + guest(image, 16, 0) + guest(image, 16, 1) + run(0, 0, STEPS)
    for number in range(MOVES):
        text += run(1, 1, BETWEEN)
        if number < moves:
            text += move(1 - number % 2)
    return text


def alone(image, pages):
    return machine(pages) + guest(image, pages, 0) + run(0, 0, ALONE)


def replica(page):
    return f'[[work]]\nact = "move"\nprocessor = 1\nguest = 0\npage = {page}\nkind = "replicate"\nnode = 1\n'


def reading(image, processor, replicas):
    """The guest lies on node 0; its two pages have replicas on node 1, if they are wanted."""
    moves = "".join(map(replica, replicas))
    return machine(16) + guest(image, 16, 0) + moves + run(processor, 0, ALONE)


def timed(disco, file):
    begin = time.monotonic()
    done = subprocess.run([disco, "--machine", file], check=True, capture_output=True)
    return time.monotonic() - begin, done.stdout


def shortest(disco, files, times):
    """The seconds of the shortest run of each file, run in turns, and what each printed last."""
    least = [float("inf")] * len(files)
    printed = [b""] * len(files)
    for _ in range(times):
        for place, file in enumerate(files):
            taken, printed[place] = timed(disco, file)
            least[place] = min(least[place], taken)
    return least, printed


def main():
    parser = argparse.ArgumentParser(description=__doc__.splitlines()[0])
    parser.add_argument("disco")
    parser.add_argument("times", nargs="?", type=int, default=5)
    given = parser.parse_args()
    disco = str(pathlib.Path(given.disco).resolve())
    with tempfile.TemporaryDirectory() as folder:
        top = pathlib.Path(folder)
        image = top / "walk.raw"
        image.write_bytes(struct.pack(f">{len(WALK)}I", *WALK))
        readers = top / "reads.raw"
        readers.write_bytes(struct.pack(f">{len(READS)}I", *READS))
        files = []
        for name, text in (
            ("still", under_moves(image, 0)),
            ("moving", under_moves(image, MOVES)),
            ("few", alone(image, 16)),
            ("many", alone(image, 2048)),
            ("near", reading(readers, 0, ())),
            ("replicas", reading(readers, 1, (0, 1))),
            ("remote", reading(readers, 1, ())),
        ):
            file = top / f"{name}.toml"
            file.write_text(text)
            files.append(str(file))
        least, printed = shortest(disco, files, given.times)
        sums = [line for line in printed[1].split(b"\n") if line.startswith(b"sums")][0].decode()
        print(f"with a move every {BETWEEN} steps of another processor: {least[0] / least[1]:.2f} times as fast as without")
        print(f"its guest: {sums}")
        print(f"2,048 pages: {least[3] / least[2]:.2f} times as long as 16")
        print(f"by replicas: {least[5] / least[4]:.2f} times as long as by masters, and {least[6] / least[4]:.2f} times by frames of another node")


if __name__ == "__main__":
    main()
