#!/usr/bin/env python3
"""Whether a turn costs the same on every machine: the host's instructions a step under the monitor, by what else there is.

    python3 bench/flat_turns.py DISCO [GUEST ..]

For each guest of guests/ (sha, syscall, refill) the same 100,000 steps are counted by valgrind on a small machine, and on one that is larger in one
respect: 2,048 pages, 32 processors, 8 nodes and cells, 8 guests, four virtual processors, a plan of 4,096 items, or a million steps (a journal) before.
The ratios to the small machine are printed, with the largest; and the seconds from the call to the end of the greatest description with a plan of ten
steps each, which are boot and end, and those of one guest of 2,048 pages and of 16. It is no test and has no limit.
"""

from __future__ import annotations

import argparse
import dataclasses
import os
import pathlib
import tempfile

from running import built_program
from steps import HERE, image_of, instructions, seconds

GUESTS = ("sha", "syscall", "refill")
MOST_ITEMS = 4096
DISK = 4_194_304  # bytes of the largest disk


@dataclasses.dataclass(frozen=True)
class Size:
    """A machine with its guests, of which the first one alone has steps to make."""

    pages: int = 160
    processors: int = 1
    nodes: int = 1
    guests: int = 1
    vcpus: int = 1
    items: int = 1
    before: int = 10_000
    cache: int = 0
    disk: bool = False

    def text(self, image: str, steps: int) -> str:
        """Its description, for so many steps of the first guest."""
        nodes = ", ".join(str(number % self.nodes) for number in range(self.processors))
        text = f"[machine]\nnodes = {self.nodes}\nframes = 4096\nprocessors = [{nodes}]\ncache = {self.cache}\n"
        text += "".join(f"[[cell]]\nnodes = [{node}]\nlend = 16\n" for node in range(self.nodes))
        for number in range(self.guests):
            text += f'[[guest]]\nimage = "{image}"\npages = {self.pages}\nvcpus = {self.vcpus}\nnode = {number % self.nodes}\n'
            text += f'disk = "disk{number}"\n' if self.disk else ""
        one = '[[work]]\nact = "run"\nprocessor = 0\nguest = 0\nvcpu = 0\nsteps = '
        return text + f"{one}1\n" * (self.items - 1) + f"{one}{steps}\n"


SIZES = {
    "2,048 pages": Size(pages=2048),
    "32 processors": Size(processors=32),
    "8 nodes and cells": Size(processors=8, nodes=8),
    "8 guests": Size(guests=8),
    "4 virtual processors": Size(vcpus=4),
    "a plan of 4,096 items": Size(items=MOST_ITEMS),
    "a million steps before": Size(before=1_000_000),
}
GREATEST = Size(pages=2048, processors=32, nodes=8, guests=8, vcpus=4, cache=1024, disk=True)
BOOTED = {"the greatest description": GREATEST, "one guest of 2,048 pages": Size(pages=2048), "one guest of 16 pages": Size(pages=16)}


def counted(program: pathlib.Path, image: str, size: Size, folder: pathlib.Path) -> float:
    """The host's instructions of a step, over 100,000 steps."""
    counts = []
    for steps in (size.before, size.before + 100_000):
        (folder / "count.toml").write_text(size.text(image, steps))
        counts.append(instructions([program, "--machine", "count.toml"], folder))
    return (counts[1] - counts[0]) / 100_000


def booted(program: pathlib.Path, size: Size, folder: pathlib.Path) -> float:
    """The seconds of a run that makes ten steps."""
    for number in range(size.guests if size.disk else 0):
        (folder / f"disk{number}").write_bytes(os.urandom(DISK))
    (folder / "boot.toml").write_text(size.text("sha.elf", 10))
    return seconds([[program, "--machine", "boot.toml"]], folder, 3)[0]


def main() -> None:
    parser = argparse.ArgumentParser(description=__doc__, formatter_class=argparse.RawDescriptionHelpFormatter)
    parser.add_argument("disco", type=built_program)
    parser.add_argument("guests", nargs="*", default=GUESTS)
    given = parser.parse_args()
    with tempfile.TemporaryDirectory() as at:
        folder = pathlib.Path(at)
        for name in {"sha", *given.guests}:
            (folder / f"{name}.elf").write_bytes(image_of(given.disco, (HERE / "guests" / f"{name}.s").read_text(), folder))
        for name in given.guests:
            small = counted(given.disco, f"{name}.elf", Size(), folder)
            print(f"{name}: {small:.1f} instructions a step on the small machine", flush=True)
            ratios = {what: counted(given.disco, f"{name}.elf", size, folder) / small for what, size in SIZES.items()}
            for what, ratio in ratios.items():
                print(f"{name}, {what}: {ratio:.3f} times")
            print(f"{name}: {max(ratios.values()):.3f} times at most", flush=True)
        for what, size in BOOTED.items():
            print(f"boot and end, {what}: {booted(given.disco, size, folder):.3f} seconds", flush=True)


if __name__ == "__main__":
    main()
