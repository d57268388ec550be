#!/usr/bin/env python3
"""Runs a description by the interpreter of bench/reference, which was written apart from disco, and prints its report as disco --machine has it.

    interpret.py DESCRIPTION.toml

File names count from the top of the repository. It makes some tens of thousands of steps a second."""

import pathlib
import struct
import sys
import tomllib

TOP = pathlib.Path(__file__).resolve().parent.parent.parent.parent
sys.path.append(str(TOP / "bench"))

from reference import DiskFile, Input, Monitor, Policy, Start  # noqa: E402
from rows.reading import item_of, machine_of  # noqa: E402

MEMORY = 0xC0000000


def flat(file):
    """The memory of an ELF image up to the end of its last segment, and its entry."""
    entry, table = struct.unpack_from(">II", file, 24)
    count, = struct.unpack_from(">H", file, 44)
    memory = bytearray()
    for n in range(count):
        kind, at, address, _, size, room = struct.unpack_from(">6I", file, table + 32 * n)
        if kind == 1:
            place = address - MEMORY
            memory.extend(bytes(max(0, place + room - len(memory))))
            memory[place:place + size] = file[at:at + size]
    return bytes(memory), entry


def start_of(guest, number, inputs):
    file = (TOP / guest["image"]).read_bytes()
    memory, entry = (file, MEMORY) if guest.get("form") == "raw" else flat(file)
    disk = DiskFile(guest["disk"], (TOP / guest["disk"]).read_bytes()) if "disk" in guest else None
    typed = tuple(Input(entry["at"], entry["text"].encode()) for entry in inputs if entry["guest"] == number)
    return Start(memory, entry, guest["pages"], guest["vcpus"], disk, typed)


def main():
    described = tomllib.loads(pathlib.Path(sys.argv[1]).read_text())
    inputs = sorted(described.get("input", []), key=lambda entry: entry["at"])
    starts = [start_of(guest, number, inputs) for number, guest in enumerate(described["guest"])]
    monitor = Monitor(starts, [0] * len(starts), machine_of(described), Policy(**described.get("policy", {})), True)
    monitor.carry_out([item_of(work) for work in described.get("work", [])])
    sys.stdout.buffer.write(monitor.report())


if __name__ == "__main__":
    main()
