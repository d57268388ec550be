#!/usr/bin/env python3
"""Eight guests that send numbered packets to each other, each checked by its receiver.

    python3 bench/packets.py DISCO [STEPS]

DISCO is the built program, STEPS how many steps each guest makes (2,000,000, which is the most that eight can have).
Each guest sends packet n to each of the other seven and waits for theirs, so that no wire has room for more than it is given, and
then goes on with n + 1. A guest that gets a packet out of order, twice, from another sender than it says or of another length prints
E and halts; after each 256 rounds it prints a point. Prints the rounds of each guest, and ends with 1 if anything was lost,
doubled or out of order.
"""

import argparse
import os
import pathlib
import re
import subprocess
import sys
import tempfile
import time

GUESTS = 8
STEPS = 2_000_000
DEVICE, MEMORY, OWN, ROUND, HERE, AHEAD = 16, 10, 17, 18, 22, 23


def immediate(op, rs, rt, value):
    """The word of an instruction with two registers and sixteen bits."""
    return op << 26 | rs << 21 | rt << 16 | value & 0xFFFF


def addiu(rt, rs, value):
    return immediate(0x09, rs, rt, value)


def lw(rt, offset, base):
    return immediate(0x23, base, rt, offset)


def sw(rt, offset, base):
    return immediate(0x2B, base, rt, offset)


def program(own):
    """The words of the guest of this number. A branch names its label."""
    rows = [
        immediate(0x0F, 0, DEVICE, 0xCFFF),
        immediate(0x0D, DEVICE, DEVICE, 0xF000),
        immediate(0x0F, 0, MEMORY, 0xC000),
        addiu(OWN, 0, own),
        addiu(12, 0, 1),
        sw(12, 0x3C, DEVICE),  # page 1 is armed
        addiu(8, 0, 2),
        sw(8, 0x30, DEVICE),  # page 2 is sent,
        addiu(8, 0, 8),
        sw(8, 0x34, DEVICE),  # eight bytes of it
        "round:",
        sw(ROUND, 0x2000, MEMORY),
        sw(OWN, 0x2004, MEMORY),
        addiu(9, 0, 0),
        "send:",
        ("beq", 9, OWN, "past"),
        0,
        sw(9, 0x38, DEVICE),
        "past:",
        addiu(9, 9, 1),
        immediate(0x0B, 9, 11, GUESTS),  # sltiu $11, $9, 8
        ("bne", 11, 0, "send"),
        0,
        "wait:",
        lw(11, 0x3C, DEVICE),
        ("beq", 11, 12, "wait"),  # while page 1 is armed
        0,
        lw(13, 0x1000, MEMORY),
        lw(14, 0x1004, MEMORY),
        lw(15, 0x44, DEVICE),
        ("bne", 14, 15, "wrong"),
        lw(15, 0x40, DEVICE),
        addiu(8, 0, 8),
        ("bne", 15, 8, "wrong"),
        14 << 16 | 19 << 11 | 2 << 6,  # sll $19, $14, 2
        19 << 21 | MEMORY << 16 | 19 << 11 | 0x21,  # addu $19, $19, $10
        lw(20, 0x3000, 19),  # the number that has to come from there
        ("bne", 20, 13, "wrong"),
        addiu(20, 20, 1),
        sw(20, 0x3000, 19),
        ("beq", 13, ROUND, "here"),
        sw(12, 0x3C, DEVICE),
        ("beq", 0, 0, "wait"),
        addiu(AHEAD, AHEAD, 1),
        "here:",
        addiu(HERE, HERE, 1),
        addiu(8, 0, GUESTS - 1),
        ("bne", HERE, 8, "wait"),
        0,
        addiu(HERE, AHEAD, 0),
        addiu(AHEAD, 0, 0),
        addiu(ROUND, ROUND, 1),
        immediate(0x0C, ROUND, 8, 0xFF),  # andi $8, $18, 255
        ("bne", 8, 0, "round"),
        addiu(8, 0, ord(".")),
        ("beq", 0, 0, "round"),
        sw(8, 0, DEVICE),
        "wrong:",
        addiu(8, 0, ord("E")),
        sw(8, 0, DEVICE),
        sw(0, 4, DEVICE),
    ]
    return assembled(rows)


def assembled(rows):
    """The words of rows of words, labels and branches."""
    places, words = {}, []
    for row in rows:
        if isinstance(row, str):
            places[row.rstrip(":")] = len(words)
        else:
            words.append(row)
    ops = {"beq": 0x04, "bne": 0x05}
    for place, row in enumerate(words):
        if isinstance(row, tuple):
            name, rs, rt, label = row
            words[place] = immediate(ops[name], rs, rt, places[label] - place - 1)
    return words


def description(steps):
    """The guests, each on a processor of its own."""
    lines = ["[machine]", "nodes = 1", f"frames = {4 * GUESTS}", f"processors = {[0] * GUESTS}"]
    for guest in range(GUESTS):
        lines += ["[[guest]]", f'image = "{guest}.raw"', 'form = "raw"', "pages = 4", "vcpus = 1", "node = 0"]
    for guest in range(GUESTS):
        lines += ["[[work]]", 'act = "run"', f"processor = {guest}", f"guest = {guest}", "vcpu = 0", f"steps = {steps}"]
    return "\n".join(lines) + "\n"


def run(disco, steps):
    """What disco prints, and how long it took."""
    with tempfile.TemporaryDirectory() as folder:
        where = pathlib.Path(folder)
        (where / "machine.toml").write_text(description(steps))
        for guest in range(GUESTS):
            words = program(guest)
            (where / f"{guest}.raw").write_bytes(b"".join(word.to_bytes(4, "big") for word in words))
        began = time.monotonic()
        done = subprocess.run([disco, "--machine", "machine.toml"], cwd=where, capture_output=True, text=True)
        return done, time.monotonic() - began


def built_program(path):
    """The built program."""
    found = pathlib.Path(path).resolve()
    if not (found.is_file() and os.access(found, os.X_OK)):
        raise argparse.ArgumentTypeError(f"{path} is no program")
    return found


def main():
    parser = argparse.ArgumentParser(description=__doc__.split("\n", 1)[0])
    parser.add_argument("disco", type=built_program, help="the built program")
    parser.add_argument("steps", type=int, nargs="?", default=STEPS, help="how many steps each guest makes (%(default)s)")
    given = parser.parse_args()
    done, seconds = run(given.disco, given.steps)
    if done.returncode != 0:
        sys.exit(f"status {done.returncode}: {done.stdout}{done.stderr}")
    reports = re.findall(r"guest (\d) console \d+\n(.*)\nend (\w+)\nsums steps (\d+) .* received (\d+) discarded 0", done.stdout)
    wrong = len(reports) != GUESTS
    for guest, console, end, made, received in reports:
        print(f"guest {guest}: {int(received) // (GUESTS - 1)} rounds, {received} packets, {made} steps, end {end}")
        wrong = wrong or "E" in console or end != "budget" or int(made) != given.steps or int(received) == 0
    print(f"{'WRONG' if wrong else 'in order'}, {seconds:.1f} s")
    return 1 if wrong else 0


if __name__ == "__main__":
    sys.exit(main())
