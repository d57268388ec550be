#!/usr/bin/env python3
"""Each allocation of a run refused in turn, and what comes of it.

    python3 bench/refused_memory.py DISCO [--seconds SECONDS] [--all]

DISCO is the built program. It is run under `--machine` with a library before it that is compiled from refuse.c by
`cc` or `clang`, and that refuses the first allocation, the second, and so on, until a run has no such one; each
time once that one alone, and once all after it too. The descriptions are rows of bench/rows with moves, shared
blocks, packets, pages that are handed on and cells that fail, and two guests on two processors; with --all, each
row that is run at all.
Each run has to end within the SECONDS (30): with status 1 and a beginning of what the run prints without a refusal,
maybe nothing; or with status 0 and all of that. Prints for each description how many allocations were refused and
what came, and ends with 1 if anything else did.
"""

from __future__ import annotations

import argparse
import os
import pathlib
import shutil
import subprocess
import sys
import tempfile
from collections import Counter
from dataclasses import dataclass

from reference_rows import TABLES
from rows.moving import A
from rows.reading import Row
from rows.writing import guest, machine, runs, told
from running import DESCRIPTION, built_program, write_files

SECONDS = 30
SOURCE = pathlib.Path(__file__).resolve().with_name("refuse.c")
COMPILERS = ("cc", "clang")
CHOSEN = {
    "one guest",
    "a replica comes and goes",
    "the third miss asks",
    "65 packets",
    "three guests read one block",
    "a block comes into its page twice, and then is the guest's own",
    "a page that is taken before it is written",
    "a page that is taken once the plan is done",
    "a guest with a page there ends, and another one goes on",
    "a spare there ends the guest, and its page is copied as nobody holds the frame any more",
    "once the plan is done a packet from there is thrown away, and the next one comes in",
    "two cells fail one after the other",
    "no page moves there any more",
}
TWO_PROCESSORS = Row(
    "two guests on two processors",
    machine().replace("[0]", "[0, 0]")
    + guest("a") * 2
    + runs((0, 5))
    + runs((1, 5)).replace("processor = 0", "processor = 1"),
    A,
    told(0, "A", "halted", steps=5, refills=1) + told(1, "A", "halted", steps=5, refills=1),
)


@dataclass(frozen=True)
class Outcome:
    """How a run ended. Without a status it didn't."""

    status: int | None
    printed: bytes
    was_refused: bool

    def name(self, own: bytes) -> str:
        """What came, beside what the run prints without a refusal."""
        if self.status == 0 and self.printed == own:
            return "its own output"
        if self.status == 1 and own.startswith(self.printed):
            return "want of memory" if self.printed else "want of memory, nothing printed"
        return f"WRONG: {'no end' if self.status is None else f'status {self.status}'}"


@dataclass(frozen=True)
class Program:
    """The built program, behind the library that refuses."""

    disco: pathlib.Path
    library: pathlib.Path
    seconds: float

    def run(self, folder: pathlib.Path, at: int, all_after: bool) -> Outcome:
        """The folder's description, with this allocation refused; none where it is 0."""
        mark = folder / "refused"
        mark.unlink(missing_ok=True)
        refusal = {"REFUSE_AT": str(at), "REFUSE_AFTER": str(int(all_after)), "REFUSE_TOLD": str(mark)}
        try:
            done = subprocess.run(
                [self.disco, "--machine", DESCRIPTION],
                cwd=folder,
                env=os.environ | refusal | {"LD_PRELOAD": str(self.library)},
                stdin=subprocess.DEVNULL,
                capture_output=True,
                timeout=self.seconds,
            )
        except subprocess.TimeoutExpired as late:
            return Outcome(None, late.stdout or b"", mark.exists())
        return Outcome(done.returncode, done.stdout, mark.exists())


def compiled(folder: pathlib.Path) -> pathlib.Path:
    """The library that refuses."""
    compiler = next(filter(None, map(shutil.which, COMPILERS)), None)
    if compiler is None:
        sys.exit("there is no C compiler")
    library = folder / "refuse.so"
    subprocess.run([compiler, "-O1", "-shared", "-fPIC", "-o", library, SOURCE], check=True)
    return library


def refuse_in_turn(program: Program, folder: pathlib.Path, row: Row) -> bool:
    """Whether each run of a row is as it has to be. What came of them is printed."""
    write_files(folder, row.text.encode(), row.files)
    own = program.run(folder, 0, False)
    if own.status != 0 or own.printed != row.report.encode():
        print(f"{row.about}: WRONG without a refusal: status {own.status}, {own.printed!r}", flush=True)
        return False
    came, wrong = Counter[str](), list[str]()
    for all_after in (False, True):
        at = 1
        while (outcome := program.run(folder, at, all_after)).was_refused:
            name = outcome.name(own.printed)
            came[name] += 1
            if name.startswith("WRONG"):
                wrong.append(f"  {name} at {at}{' and all after it' if all_after else ''}: {outcome.printed!r}")
            at += 1
    counts = ", ".join(f"{name} {times}" for name, times in sorted(came.items()))
    print(f"{row.about}: {came.total()} refused: {counts}", flush=True)
    print("".join(f"{line}\n" for line in wrong), end="", flush=True)
    return not wrong


def chosen_rows(each: bool) -> list[Row]:
    rows = [row for table in TABLES for row in table if row.hands_on and not row.report.startswith("fault")]
    return [TWO_PROCESSORS, *(row for row in rows if each or row.about in CHOSEN)]


def main() -> int:
    parser = argparse.ArgumentParser(description=__doc__.split("\n", 1)[0])
    parser.add_argument("disco", type=built_program, help="the built program")
    parser.add_argument("--seconds", type=float, default=SECONDS, help="after which a run is given up (%(default)s)")
    parser.add_argument("--all", action="store_true", help="each row of bench/rows")
    given = parser.parse_args()
    with tempfile.TemporaryDirectory(prefix="refused_memory_") as top:
        folder = pathlib.Path(top)
        program = Program(given.disco, compiled(folder), given.seconds)
        right = [refuse_in_turn(program, folder, row) for row in chosen_rows(given.all)]
    print(f"{right.count(False)} of {len(right)} descriptions have runs that aren't as they have to be")
    return 0 if all(right) else 1


if __name__ == "__main__":
    sys.exit(main())
