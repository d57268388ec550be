#!/usr/bin/env python3
"""Runs all tests with no proof: a quick look after a change, and no verdict.

    quick_look.py [CRATE ..] [--jobs N]

Calls `rt try --test` in each crate of tests, N at a time (half as many as there are processors), and prints for each what it came to and its
seconds. A test has five minutes: the slowest of `program_tests` needs more than `rt try` gives it by itself. Contracts aren't tested, but indices, overflow and `unwrap` are."""

import argparse
import concurrent.futures
import os
import pathlib
import subprocess
import sys
import time

TOP = pathlib.Path(__file__).resolve().parent.parent


def crates_of_tests():
    """The crates that have tests alone, in the order of crates.txt, which goes from the bottom up."""
    names = [line.split(":")[0].split()[0] for line in (TOP / "crates.txt").read_text().splitlines() if ":" in line and not line.startswith("#")]
    return [name for name in names if name.endswith("_tests")]


def tried(crate):
    begin = time.monotonic()
    run = subprocess.run(["rt", "try", "--test", "--seconds", "300"], cwd=TOP / "crates" / crate, stdout=subprocess.PIPE, stderr=subprocess.STDOUT, text=True, errors="replace")
    return crate, run.returncode, run.stdout, time.monotonic() - begin


def main():
    parser = argparse.ArgumentParser(description=__doc__, formatter_class=argparse.RawDescriptionHelpFormatter)
    parser.add_argument("crates", nargs="*", metavar="CRATE", choices=[[], *crates_of_tests()])
    parser.add_argument("--jobs", type=int, default=max(1, (os.cpu_count() or 1) // 2))
    words = parser.parse_args()
    failed = []
    with concurrent.futures.ThreadPoolExecutor(words.jobs) as pool:
        # the uppermost first: they take longest
        for run in concurrent.futures.as_completed([pool.submit(tried, crate) for crate in reversed(words.crates or crates_of_tests())]):
            crate, status, told, seconds = run.result()
            lines = told.rstrip("\n").splitlines() or [""]
            print(f"{crate}: {'passed' if status == 0 else 'FAILED'}, {seconds:.0f} s: {lines[-1]}", flush=True)
            if status != 0:
                failed.append(crate)
                print("\n".join(f"    {line}" for line in lines[-20:]), flush=True)
    print(f"{len(words.crates or crates_of_tests()) - len(failed)} crates of tests passed, {len(failed)} failed")
    return 1 if failed else 0


if __name__ == "__main__":
    sys.exit(main())
