#!/usr/bin/env python3
"""Random descriptions that several processors carry out at once, run by disco for as long as it takes.

    python3 bench/soak.py DISCO [RUNS] [SEED] [--seconds SECONDS] [--failing PROBABILITY] [--wide]

DISCO is the built program. Run number n of RUNS (100 if none is given) is that of the seed SEED + n (SEED is 0 if
none is given): two to eight guests of one to four virtual processors on two to eight processors, each guest's runs
on any of them or all on one, with moves by the plan and by a policy, shared disks, packets and whole pages between
guests, and in so many of the runs as the PROBABILITY says (half of them) one or two cells that fail. With --wide each run is of
eight guests on 32 processors and eight cells, of which seven fail.
Each run of `disco --machine` has to end within the SECONDS (60), with status 0 and a report of all guests. Of each
report are checked:
    - that there is a line for each failure, in the order of the plan, with exactly the guests that end by that cell;
    - that no guest made more steps than the plan has, and none threw a packet away where no cell fails;
    - the console of each guest that received no packet and has one virtual processor, or all its runs on one processor:
      what it has done then is a beginning of what it does alone, so its console is the beginning of the one that
      `disco --private` prints, and all of it where the guest halted, or made all its steps; and then it ends as it does
      alone, unless a cell ended it.
All else depends on how the processors take turns, and isn't compared. A run that isn't as it has to be, or doesn't
end, is named with its seed, its folder is kept, and the end is 1.
"""

from __future__ import annotations

import argparse
import pathlib
import shutil
import subprocess
import sys
import tempfile
from collections import Counter
from collections.abc import Iterator

from generator.scenario import Scenario
from generator.soaking import soaking_run, wide_run
from random_guests import probability
from reference import Fail, Run
from reference.plan import processor_of
from reports import GuestReport, NoReport, Report, read_report
from running import DESCRIPTION, built_program, write_files

RUNS = 100
SECONDS = 60


class Wrong(Exception):
    """A run isn't as it has to be."""


def report_of_disco(disco: pathlib.Path, option: str, folder: pathlib.Path, seconds: float) -> Report:
    """What disco prints, which is kept in the folder too."""
    try:
        done = subprocess.run([disco, option, DESCRIPTION], cwd=folder, capture_output=True, timeout=seconds)
    except subprocess.TimeoutExpired:
        raise Wrong(f"{option} doesn't end within {seconds} seconds") from None
    (folder / f"found{option}").write_bytes(done.stdout + done.stderr)
    if done.returncode != 0:
        raise Wrong(f"{option} ends with status {done.returncode}")
    try:
        return read_report(done.stdout + done.stderr)
    except NoReport as told:
        raise Wrong(f"{option}: {told}") from None


def planned_steps(made: Scenario, number: int) -> int:
    return sum(item.steps for item in made.plan if isinstance(item, Run) and item.guest == number)


def has_one_order(made: Scenario, number: int) -> bool:
    """Whether the order of a guest's own steps is the same in each run."""
    runs = [item for item in made.plan if isinstance(item, Run) and item.guest == number]
    return made.starts[number].processors == 1 or len({processor_of(item, made.hosts) for item in runs}) == 1


def is_determined(made: Scenario, number: int, guest: GuestReport) -> bool:
    """Whether the guest has done a beginning of what it does alone."""
    return guest.sums["received"] == 0 and has_one_order(made, number)


def faults(made: Scenario, report: Report, alone: Report) -> Iterator[str]:
    """What isn't as it has to be in a run's report, beside that of the guests alone."""
    if not len(report.guests) == len(alone.guests) == len(made.starts):
        yield "not all guests are told of"
        return
    yield from faults_of_failures(made, report)
    for number, guest in enumerate(report.guests):
        yield from (f"guest {number} {fault}" for fault in faults_of_guest(made, number, guest, alone.guests[number]))


def faults_of_failures(made: Scenario, report: Report) -> Iterator[str]:
    failing = [item.cell for item in made.plan if isinstance(item, Fail)]
    if [failure.cell for failure in report.failures] != failing:
        yield "the failures aren't those of the plan"
    for failure in report.failures:
        ended = [number for number, guest in enumerate(report.guests) if guest.end == f"cell {failure.cell}"]
        if failure.ended != ended:
            yield f"cell {failure.cell} ended {ended}, and the report has {failure.ended}"
    ends = {"halted", "budget", *(f"cell {cell}" for cell in failing)}
    if any(guest.end not in ends for guest in report.guests):
        yield "a guest ended by a cell that doesn't fail"


def faults_of_guest(made: Scenario, number: int, guest: GuestReport, alone: GuestReport) -> Iterator[str]:
    planned = planned_steps(made, number)
    if not guest.sums:
        yield "has no sums"
        return
    if guest.sums["steps"] > planned:
        yield "made more steps than the plan has"
    if guest.sums["discarded"] and not any(isinstance(item, Fail) for item in made.plan):
        yield "threw a packet away, and no cell fails"
    if not is_determined(made, number, guest):
        return
    if not alone.console.startswith(guest.console):
        yield "printed something else than alone"
    is_done = guest.end == "halted" or guest.sums["steps"] == planned
    if is_done and guest.console != alone.console:
        yield "printed less than alone"
    if is_done and not guest.end.startswith("cell") and guest.end != alone.end:
        yield "ended otherwise than alone"


def count(made: Scenario, report: Report, total: Counter[str]) -> None:
    total.update(runs=1, guests=len(report.guests), failures=len(report.failures))
    total["compared with the guest alone"] += sum(is_determined(made, *each) for each in enumerate(report.guests))
    for guest in report.guests:
        total[f"end {guest.end.split()[0]}"] += 1
        total.update(guest.sums)


def soak(disco: pathlib.Path, seed: int, made: Scenario, seconds: float, total: Counter[str]) -> bool:
    """Whether the run of a seed is as it has to be. The folder of one that isn't is kept."""
    folder = pathlib.Path(tempfile.mkdtemp(prefix=f"soak_{seed}_"))
    write_files(folder, made.description(), made.files)
    try:
        alone = report_of_disco(disco, "--private", folder, seconds)
        report = report_of_disco(disco, "--machine", folder, seconds)
        told = list(faults(made, report, alone))
        count(made, report, total)
    except Wrong as wrong:
        told = [str(wrong)]
    if not told:
        shutil.rmtree(folder)
        return True
    print(f"seed {seed}: see {folder}")
    for fault in told:
        print(f"  {fault}", flush=True)
    return False


def main() -> int:
    parser = argparse.ArgumentParser(description=__doc__.split("\n", 1)[0])
    parser.add_argument("disco", type=built_program, help="the built program")
    parser.add_argument("runs", type=int, nargs="?", default=RUNS, help="how many runs (%(default)s)")
    parser.add_argument("seed", type=int, nargs="?", default=0, help="the seed of the first (%(default)s)")
    parser.add_argument("--seconds", type=float, default=SECONDS, help="after which a run is given up (%(default)s)")
    parser.add_argument(
        "--failing",
        type=probability,
        default=0.5,
        metavar="PROBABILITY",
        help="in how many of the runs cells fail (0.5)",
    )
    parser.add_argument("--wide", action="store_true", help="32 processors, 8 guests, and 8 cells of which seven fail")
    given = parser.parse_args()
    total = Counter[str]()
    wrong = 0
    for seed in range(given.seed, given.seed + given.runs):
        made = wide_run(seed) if given.wide else soaking_run(seed, given.failing)
        wrong += not soak(given.disco, seed, made, given.seconds, total)
    for name, times in total.items():
        print(f"{name:30} {times}")
    print(f"{wrong} of the runs aren't as they have to be" if wrong else "all as they have to be")
    return 1 if wrong else 0


if __name__ == "__main__":
    sys.exit(main())
