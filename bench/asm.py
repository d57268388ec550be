#!/usr/bin/env python3
"""What the assembler costs by the length of its text, as ratios. It is no test and has no limit.

    asm.py DISCO [TIMES]

Assembles texts of 1,048,576 bytes, the most that is read, and of a quarter of that: instructions up to the last place, labels, and empty
comments. Each is run TIMES times (20), and the shortest time and the least peak memory count; what an empty text costs is taken off. Prints for
each kind how many times as long the whole text takes as the quarter, and how many times as much memory; 4 is what follows from its length. Last
comes the memory of the whole text as a multiple of its bytes. GNU time measures the memory."""

import argparse
import pathlib
import subprocess
import tempfile
import time

LONGEST = 1_048_576


def instructions(length):
    """A line of 64 bytes for each instruction: the longest text has as many as there are places."""
    kinds = ("addiu $1, $2, -123", "beq $0, $0, 0xC0000000", "lw $8, 0x300($27)", "sll $0, $0, 0", ".word 0x12345678")
    lines = []
    for number in range(length // 64):
        lines.append(f"{kinds[number % len(kinds)]} ".ljust(63, "#") + "\n")
    return "".join(lines)


def labels(length):
    """A line of 10 bytes for each label, and a comment up to the length."""
    text = "".join(f"L{number:07}:\n" for number in range(length // 10))
    return text + "#" * (length - len(text))


def comments(length):
    """A line of 2 bytes for each comment."""
    return "#\n" * (length // 2)


def cost(disco, file, times):
    """The seconds of the shortest run, and the least peak memory in bytes."""
    seconds, memory = [], []
    for _ in range(times):
        begin = time.monotonic()
        run = subprocess.run([disco, "--asm", file], stdout=subprocess.DEVNULL)
        seconds.append(time.monotonic() - begin)
        if run.returncode != 0:
            raise SystemExit(f"{file}: status {run.returncode}")
        run = subprocess.run(["time", "-f", "%M", disco, "--asm", file], stdout=subprocess.DEVNULL, stderr=subprocess.PIPE, check=True)
        memory.append(1024 * int(run.stderr))
    return min(seconds), min(memory)


def main():
    parser = argparse.ArgumentParser(description=__doc__, formatter_class=argparse.RawDescriptionHelpFormatter)
    parser.add_argument("disco", type=pathlib.Path)
    parser.add_argument("times", type=int, nargs="?", default=20)
    given = parser.parse_args()
    disco = given.disco.resolve()
    with tempfile.TemporaryDirectory() as folder:
        file = pathlib.Path(folder) / "text.s"

        def of(text):
            file.write_text(text)
            return cost(disco, file, given.times)

        nothing = of("")
        print("| text | time, whole to a quarter | memory, whole to a quarter | memory, to the text |")
        print("|---|---|---|---|")
        for name, make in (("instructions", instructions), ("labels", labels), ("comments", comments)):
            whole, quarter = of(make(LONGEST)), of(make(LONGEST // 4))
            ratios = [(w - n) / max(q - n, 1e-9) for w, q, n in zip(whole, quarter, nothing)]
            print(f"| {name} | {ratios[0]:.2f} | {ratios[1]:.2f} | {(whole[1] - nothing[1]) / LONGEST:.1f} |")


if __name__ == "__main__":
    main()
