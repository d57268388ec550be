#!/usr/bin/env python3
"""What the register page saves a kernel: the same one by coprocessor 0 and by the page.

    registers.py DISCO [--rounds N]

The guests are guests/kernel_cp0.s and guests/kernel_page.s: a user program that calls its kernel, and whose pages the kernel refills from a table.
Prints for each, a round of 64 system calls: its steps, how many of them trap to the monitor for what they are (a register of
coprocessor 0, a write of the TLB, ERET, an exception), as the interpreter in reference/ counts them, and the host's instructions under
the monitor, counted by valgrind over N rounds (100) beyond as many first ones; and what the page saves."""

import argparse
import pathlib
import sys
import tempfile

from reference import Guest, Start, Watcher
from steps import HERE, flat_memory, image_of, instructions

PAGES = 80
NAMES = {"kernel_cp0": 1, "kernel_page": 2}  # with the profile
PRIVILEGED = ("MFC0", "MTC0", "TLBR", "TLBWI", "TLBWR", "TLBP", "ERET")
DESCRIPTION = """[machine]
nodes = 1
frames = {pages}
processors = [0]
[[guest]]
image = "{name}.elf"
pages = {pages}
vcpus = 1
node = 0
profile = {profile}
[[work]]
act = "run"
processor = 0
guest = 0
vcpu = 0
steps = 16000000
"""


def steps_of(elf, profile):
    """A guest's steps until it halts, and how many of them trap for what they are."""
    memory, entry = flat_memory(elf)
    guest = Guest(Start(memory, entry, PAGES, 1, profile=profile), Watcher())
    while not guest.has_halted():
        guest.step(0)
    coverage = guest.coverage
    trapped = sum(coverage.instructions[name] for name in PRIVILEGED) + coverage.exceptions.total()
    return guest.processors[0].steps, trapped


def measured(disco, name, profile, rounds, folder):
    """Steps, steps that trap, and the host's instructions, of so many rounds."""
    text = (HERE / "guests" / f"{name}.s").read_text().replace("ROUNDS", str(rounds))
    elf = image_of(disco, text, folder)
    (folder / f"{name}.elf").write_bytes(elf)
    (folder / f"{name}.toml").write_text(DESCRIPTION.format(name=name, pages=PAGES, profile=profile))
    return [*steps_of(elf, profile), instructions([disco, "--machine", f"{name}.toml"], folder)]


def main():
    parser = argparse.ArgumentParser(description=__doc__, formatter_class=argparse.RawDescriptionHelpFormatter)
    parser.add_argument("disco", type=pathlib.Path)
    parser.add_argument("--rounds", type=int, default=100)
    given = parser.parse_args()
    disco, rounds = given.disco.resolve(), given.rounds
    rows = {}
    with tempfile.TemporaryDirectory() as at:
        folder = pathlib.Path(at)
        for name, profile in NAMES.items():
            first, both = (measured(disco, name, profile, count, folder) for count in (rounds, 2 * rounds))
            rows[name] = [(after - before) / rounds for before, after in zip(first, both)]
            steps, trapped, host = rows[name]
            print(f"{name}: a round has {steps:.1f} steps, of which {trapped:.1f} trap, and takes {host:.0f} instructions of the host")
    by_cp0, by_page = rows.values()
    print(f"by the page {by_page[1] / by_cp0[1]:.2f} times as many steps trap, and the round takes {by_page[2] / by_cp0[2]:.2f} times as many instructions")
    return 0


if __name__ == "__main__":
    sys.exit(main())
