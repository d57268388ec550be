#!/usr/bin/env python3
"""What is made from a number, against the tables; and its run, against the guests alone.

    python3 bench/made.py DISCO [SEEDS]

DISCO is the built program; SEEDS is how many numbers are tried (100): 7, the least, the greatest, and others at random. For each number the
listing of --make has to be, byte by byte, the one that this script builds from the tables. Its files are written out, and --load has to end
with status 0 and to print the consoles that --private prints of them, which have to be the letters that the guests' arithmetic gives. At the
end the times of number 7 are printed: --load on 1, 2 and all processors of this machine, as a ratio to --private on one. Any difference is
printed with its number, and the end is 1.
"""

from __future__ import annotations

import argparse
import os
import pathlib
import re
import resource
import subprocess
import sys
import tempfile
import time
from random import Random

WORDS = 2**32
GUESTS = 4
STEPS = 50_000
ROUNDS = 10
DISK_WORDS = 8192

IDENTIFICATION = "7F454C46 01020100 00000000 00000000"
HEADER = "00020008 00000001 C0000200 00000034 00000000 00000000 00340020 00030000 00000000"
PROGRAM_HEADERS = """
00000004 00000094 00000000 00000000 00000000 00000000 00000004 00000004
70000000 00000094 00000000 00000000 00000000 00000000 00000004 00000004
00000001 00000094 C0000000 00000000 000002B0 000002B0 00000007 00001000
"""
CODE = {
    0x000: "401A4000 001AD342 335A0007 001AD1C0 375B0407 409B1000 375B0447 409B1800 42000006 42000018",
    0x180: "401A4800 275A1000 409A5800 26F70001 42000018",
    0x200: "3C10CFFF 3610F000 3C11{high} 3631{low} 3C12D000 3C1341C6 36734E6D 24081000",
    0x220: "40885800 34088001 40886000 24140000 3C15C000 36B58000 02330019 00008812",
    0x240: "26313039 00114A02 3129FFFC 01324821 8D2A0000 01515021 AD2A0000 26940001",
    0x260: "328B03FF 1560FFF4 00000000 00146282 318C0007 AE0C0020 240D0008 AE0D0024",
    0x280: "240E0001 AE0E0028 8EAF0000 01EA7821 AEAF0000 240E0002 AE0E0028 31EF000F",
    0x2A0: "25EF0041 AE0F0000 0800008E 00000000",
}
CODE_BYTES = 688


def image(start: int) -> bytes:
    """The file of a guest whose program begins with this number."""
    code = bytearray(CODE_BYTES)
    for place, words in CODE.items():
        text = words.format(high=f"{start >> 16:04X}", low=f"{start & 0xFFFF:04X}")
        found = bytes.fromhex(text)
        code[place : place + len(found)] = found
    return bytes.fromhex(IDENTIFICATION + HEADER + PROGRAM_HEADERS) + bytes(code)


def disk_word(seed: int, place: int) -> int:
    return (seed + place) * 1103515245 % WORDS


def disk(seed: int) -> bytes:
    return b"".join(disk_word(seed, place).to_bytes(4, "big") for place in range(DISK_WORDS))


def description() -> str:
    lines = ["[machine]", "nodes = 4", "frames = 128", "processors = [0, 0, 1, 1, 2, 2, 3, 3]", "cache = 8"]
    lines += ["[policy]", "migrate = 64", "replicate = 32"]
    lines += ["[[cell]]", "nodes = [0, 1]", "lend = 64", "[[cell]]", "nodes = [2, 3]", "lend = 64"]
    for guest in range(GUESTS):
        lines += ["[[guest]]", f'image = "g{guest}.elf"', "pages = 64", "vcpus = 1", f"node = {guest}"]
        lines += ['disk = "d0.img"'] if guest < 2 else []
    for number in range(ROUNDS):
        for guest in range(GUESTS):
            lines += ["[[work]]", 'act = "run"', f"processor = {(2 * guest + number) % 8}", f"guest = {guest}"]
            lines += ["vcpu = 0", f"steps = {STEPS}"]
        if number == 4:
            for guest in range(GUESTS):
                lines += ["[[work]]", 'act = "move"', f"processor = {(2 * guest + 1) % 8}", f"guest = {guest}"]
                lines += ["page = 20", 'kind = "migrate"', f"node = {(guest + 1) % 4}"]
    return "".join(line + "\n" for line in lines)


def files(seed: int) -> dict[str, bytes]:
    made = {f"g{guest}.elf": image((seed + guest) % WORDS) for guest in range(GUESTS)}
    made["d0.img"] = disk(seed)
    return made


def listing(seed: int) -> str:
    """What --make prints: the description, and each file in rows of 32 bytes."""
    text = description()
    for name, held in files(seed).items():
        text += f"file {name} {len(held)}\n"
        text += "".join(held[place : place + 32].hex() + "\n" for place in range(0, len(held), 32))
    return text


def letters(seed: int, guest: int, count: int) -> str:
    """The first letters that a guest prints: after each 1024 rounds of its arithmetic one, of a word of the block that is next."""
    number, memory, word, printed = (seed + guest) % WORDS, {}, 0, ""
    blocks = [disk_word(seed, 1024 * block) for block in range(8)] if guest < 2 else None
    rounds = 0
    while len(printed) < count:
        number = (number * 0x41C64E6D + 0x3039) % WORDS
        place = number >> 8 & 0xFFFC
        memory[place] = (memory.get(place, 0) + number) % WORDS
        rounds += 1
        if rounds % 1024:
            continue
        block = rounds // 1024 % 8
        word = ((blocks[block] if blocks else word) + memory[place]) % WORDS
        if blocks:
            blocks[block] = word
        printed += chr(0x41 + word % 16)
    return printed


GUEST = re.compile(r"guest (\d+) console (\d+)\n(\w*)\nend (.*)\n")


def ran(program: str, folder: pathlib.Path, *words: str, processors: set[int] | None = None) -> tuple[str, float, float]:
    """What a call printed, and the seconds of the clock and of all processors that it took."""
    before, began = resource.getrusage(resource.RUSAGE_CHILDREN), time.monotonic()
    bind = (lambda: os.sched_setaffinity(0, processors)) if processors else None
    done = subprocess.run([program, *words], cwd=folder, capture_output=True, timeout=600, preexec_fn=bind)
    took, after = time.monotonic() - began, resource.getrusage(resource.RUSAGE_CHILDREN)
    if done.returncode != 0:
        raise SystemExit(f"{' '.join(words)}: status {done.returncode}\n{done.stdout.decode()}{done.stderr.decode()}")
    spent = after.ru_utime + after.ru_stime - before.ru_utime - before.ru_stime
    return done.stdout.decode(), took, spent


def differs(program: str, folder: pathlib.Path, seed: int) -> str | None:
    """What is wrong with a number, or None."""
    if ran(program, folder, "--make", str(seed))[0] != listing(seed):
        return "the listing isn't that of the tables"
    for name, held in files(seed).items():
        (folder / name).write_bytes(held)
    alone = GUEST.findall(ran(program, folder, "--private", "m.toml")[0])
    loaded = GUEST.findall(ran(program, folder, "--load", str(seed))[0])
    if len(alone) != GUESTS or alone != loaded:
        return f"alone {alone}\nloaded {loaded}"
    for number, count, console, _end in alone:
        if console != letters(seed, int(number), int(count)):
            return f"guest {number} prints {console} alone"
    return None


def main() -> int:
    parser = argparse.ArgumentParser(description=__doc__.split("\n\n")[0])
    parser.add_argument("disco", type=pathlib.Path, help="the built program")
    parser.add_argument("seeds", type=int, nargs="?", default=100, help="how many numbers (100)")
    given = parser.parse_args()
    program, random = os.path.abspath(given.disco), Random(0)
    seeds = ([7, 0, WORDS - 1] + [random.randrange(WORDS) for _ in range(given.seeds)])[: given.seeds]
    folder = pathlib.Path(tempfile.mkdtemp(prefix="made_"))
    (folder / "m.toml").write_text(description())
    for seed in seeds:
        if wrong := differs(program, folder, seed):
            print(f"number {seed}, see {folder}: {wrong}")
            return 1
    print(f"{len(seeds)} numbers: each listing is that of the tables, each console is that of the guest alone")
    for name, held in files(7).items():
        (folder / name).write_bytes(held)
    alone = min(ran(program, folder, "--private", "m.toml", processors={0})[2] for _ in range(3))
    print(f"--private: {alone:.2f} s on one processor")
    every = sorted(os.sched_getaffinity(0))
    for count in sorted({1, 2, len(every)}):
        text, took, spent = min((ran(program, folder, "--load", "7", processors=set(every[:count])) for _ in range(3)), key=lambda it: it[1])
        print(f"--load 7 on {count}: {took:.2f} s of the clock, {spent:.2f} s of processors, {spent / alone:.2f} times --private")
    return 0


if __name__ == "__main__":
    sys.exit(main())
