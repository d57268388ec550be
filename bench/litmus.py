#!/usr/bin/env python3
"""What accesses to pages behind locks cost, as ratios of one run. It is no test and has no limit.

    litmus.py DISCO [TIMES]

Runs litmus files of 1,000 accesses a caller, half of them stores: 16 callers on one page, 16 callers over 16 pages, and one caller. Each
is run TIMES times (9), and the shortest counts; what a run costs with one access is taken off. Prints how many times as long an access
takes on one page as over 16, and both as ratios to one caller's."""

import argparse
import pathlib
import subprocess
import tempfile
import time

ACCESSES = 1000
CALLERS = 16


def operations(caller, pages, count):
    """Stores and loads in turn, each on the next page, beginning with the caller's own."""
    for place in range(count):
        page = (caller + place) % pages
        yield [page, 0, place] if place % 2 == 0 else [page, 0]


def text(callers, pages, count):
    lines = [f"pages = {pages}"]
    for caller in range(callers):
        lines += ["[[caller]]", f"ops = {list(operations(caller, pages, count))}"]
    return "\n".join(lines) + "\n"


def shortest(disco, file, times):
    """The seconds of the shortest run."""
    least = None
    for _ in range(times):
        begin = time.monotonic()
        subprocess.run([disco, "--litmus", file], check=True, stdout=subprocess.DEVNULL)
        taken = time.monotonic() - begin
        least = taken if least is None else min(least, taken)
    return least


def main():
    parser = argparse.ArgumentParser(description=__doc__, formatter_class=argparse.RawDescriptionHelpFormatter)
    parser.add_argument("disco", type=pathlib.Path)
    parser.add_argument("times", type=int, nargs="?", default=9)
    given = parser.parse_args()
    disco = given.disco.resolve()
    with tempfile.TemporaryDirectory() as folder:
        file = pathlib.Path(folder) / "run.toml"

        def access(callers, pages):
            """The seconds of one access."""
            seconds = []
            for count in (1, ACCESSES):
                file.write_text(text(callers, pages, count))
                seconds.append(shortest(disco, file, given.times))
            return (seconds[1] - seconds[0]) / (callers * (ACCESSES - 1))

        crowded = access(CALLERS, 1)
        spread = access(CALLERS, CALLERS)
        alone = access(1, 1)
    print(f"an access of 16 callers on one page takes {crowded / spread:.2f} times as long as over 16 pages")
    print(f"to one caller's: {crowded / alone:.2f} on one page, {spread / alone:.2f} over 16")


if __name__ == "__main__":
    main()
