#!/usr/bin/env python3
"""Random guests, run by disco and by an interpreter that knows nothing of it, and their reports compared.

    python3 bench/random_guests.py DISCO [RUNS] [SEED] [--sharing PROBABILITY] [--failing PROBABILITY]

DISCO is the built program. Run number n of RUNS (100 if none is given) is that of the seed SEED + n (SEED is 0 if none is given), so each
can be repeated alone. A run is a machine with one to eight guests, their disks, their input and a plan. The guests do all that a guest can
do: instructions on values near an edge, accesses to everywhere, exceptions, their own TLB, user code, interrupts, disk commands, packets;
and the plan and mostly a policy move their pages from node to node and replicate them.
In each run whole pages are handed on. So many of the runs as the PROBABILITY says, from none (0) to each (1), half of them if none is
given, are of guests that read the same few blocks and send each other whole pages on a machine whose cells keep a few blocks and have few
frames left. In the others no cell keeps a block.
In so many of the runs as the second PROBABILITY says, a quarter of them if none is given, one or two cells fail at
random places of the plan.
Each run is made by `disco --private` and by `disco --machine`, and each report is compared byte by byte: consoles, ends, and under
`--machine` the steps, the refills, the moves, the skips, the breaks, what was shared and the packets received. Where a plan leaves it open
when a packet arrives the latter isn't compared. Where it leaves open which of a guest's moves begin, only how many were asked for; where that
depends on moves before, not even that; where it leaves open when its pages move or have replicas, no refills; and where guests of two
processors read blocks that one cell keeps, none of these but the steps and the packets.
Where cells fail and one processor carries out the plan, all is compared. Where several do, a guest is compared as
before, with its console and its end,
    - that certainly never uses a cell that fails, or
    - to which no other processor does anything than that of the failure, and of which it is told whether it uses the
      cell then: its frames are those of its boot, or all that it may ever have lie in the cell, or no other guest can
      be in the way of its moves.
Of each other guest nothing is compared, neither its console nor its end nor its sums, nor whether the lines of the
failures name it; and where guests of several processors send to each other and a cell fails, nothing at all. Under
`--private` all consoles and ends are compared.

On a difference its seed is named, its folder is kept, the place where the reports part is shown, and the end is 1.
"""

from __future__ import annotations

import argparse
import pathlib
import shutil
import subprocess
import sys
import tempfile
from collections.abc import Sequence
from dataclasses import dataclass, field

from generator.scenario import Scenario, scenario
from reference import Coverage, Monitor, NeverGoesOn, Openness, private_report
from reference.exceptions import Code
from reference.moves import BlockRead, Delivery
from reference.opcode_maps import ENCODINGS
from reports import Failure, GuestReport, NoReport, read_report
from running import DESCRIPTION, built_program, write_files

RUNS = 100
SHOWN = 60  # bytes on each side of where two reports part
SECONDS = 120  # after which a run of disco is given up


@dataclass
class Totals:
    """What was compared."""

    runs: int = 0
    open_runs: int = 0
    guests: int = 0
    halted: int = 0
    steps: int = 0
    refills: int = 0
    received: int = 0
    discarded: int = 0
    failures: int = 0
    killed: int = 0
    open_fates: int = 0
    moves: int = 0
    skips: int = 0
    breaks: int = 0
    shared_blocks: int = 0
    shared_packets: int = 0
    endless: int = 0
    open_guests: int = 0
    accesses: int = 0
    misses: int = 0
    coverage: Coverage = field(default_factory=Coverage.none)

    def add(self, monitor: Monitor) -> None:
        self.runs += 1
        self.open_runs += monitor.is_open
        self.guests += len(monitor.guests)
        self.halted += sum(monitored.guest.has_halted() for monitored in monitor.guests)
        self.steps += sum(monitored.steps for monitored in monitor.guests)
        self.received += sum(len(monitored.received) for monitored in monitor.guests)
        self.discarded += sum(len(monitored.discarded) for monitored in monitor.guests)
        self.failures += len(monitor.failing)
        self.killed += sum(monitored.killer is not None for monitored in monitor.guests)
        self.open_fates += sum(each.fate for each in monitor.openness)
        self.open_guests += sum(each != Openness() for each in monitor.openness)
        for host in (monitored.host for monitored in monitor.guests):
            self.refills += host.refills
            self.accesses += host.accesses
            self.misses += host.misses
            self.moves += host.pages.moves
            self.skips += host.pages.skips
            self.breaks += host.pages.breaks
            self.shared_blocks += host.pages.taken[BlockRead]
            self.shared_packets += host.pages.taken[Delivery]
        self.coverage.add(monitor.coverage())

    def line(self) -> str:
        kinds = sum(name in self.coverage.instructions for name in ENCODINGS)
        return (
            f"{self.runs} runs ({self.open_runs} of them alone only, {self.endless} more never go on), "
            f"{self.guests} guests ({self.halted} halted, {self.open_guests} with open sums), {self.steps} steps, "
            f"{self.refills} refills, {self.misses} of {self.accesses} data accesses remote, {self.moves} moves, {self.skips} skips, "
            f"{self.breaks} breaks, {self.shared_blocks} blocks shared, {self.shared_packets} of {self.received} packets shared, "
            f"{self.failures} cells failed and ended {self.killed} guests ({self.open_fates} left open by them), "
            f"{self.discarded} packets thrown away, "
            f"{kinds} of {len(ENCODINGS)} kinds of instructions, "
            f"{len(self.coverage.exceptions)} of {len(Code)} kinds of exceptions"
        )


def report_of_disco(disco: pathlib.Path, option: str, folder: pathlib.Path) -> bytes:
    """What disco prints; where its status isn't 0, that comes first."""
    try:
        done = subprocess.run([disco, option, DESCRIPTION], cwd=folder, capture_output=True, timeout=SECONDS)
    except subprocess.TimeoutExpired:
        return f"no end within {SECONDS} seconds\n".encode()
    status = b"" if done.returncode == 0 else f"status {done.returncode}\n".encode()
    return status + done.stdout + done.stderr


def without_open_parts(text: bytes, openness: Sequence[Openness]) -> bytes:
    """A report of guests with their sums without what is open of them. Where nothing is, each byte stays.

    So does a text that is no such report.
    """
    if all(each == Openness() for each in openness):
        return text
    try:
        report = read_report(text)
    except NoReport:
        return text
    if len(report.guests) != len(openness):
        return text
    guests = [open_guest(*row) for row in zip(range(len(openness)), report.guests, openness, strict=True)]
    return b"".join((*guests, *(open_failure(failure, openness) for failure in report.failures)))


def open_guest(number: int, guest: GuestReport, openness: Openness) -> bytes:
    """A guest's part of a report without what is open of it."""
    if openness.fate:
        return b"guest %d open\n" % number
    console = b"guest %d console %d\n%s\nend %s\n" % (number, len(guest.console), guest.console, guest.end.encode())
    return console + (open_sums(guest.sums, openness) if guest.sums else b"")


def open_sums(sums: dict[str, int], openness: Openness) -> bytes:
    """The line of sums. Of moves that may begin or not, only how many were asked for counts."""
    shown: dict[str, object] = dict(sums)
    if openness.refills:
        shown["refills"] = "open"
    if openness.moves:
        asked = "open" if openness.asked else shown["moves"] + shown["skips"]
        shown |= {"moves": f"asked {asked}", "skips": "open"}
    if openness.shared:
        shown |= {"breaks": "open", "shared": "open"}
    return " ".join(("sums", *(f"{name} {told}" for name, told in shown.items()), "\n")).encode()


def open_failure(failure: Failure, openness: Sequence[Openness]) -> bytes:
    """The line of a failure without those of its guests that are open."""
    ended = [str(number) for number in failure.ended if not openness[number].fate]
    return f"failure cell {failure.cell} ended {' '.join(ended) or 'none'}\n".encode()


def parting(expected: bytes, found: bytes) -> str:
    """The place where two reports part, and what each has there."""
    shorter = min(len(expected), len(found))
    place = next((place for place in range(shorter) if expected[place] != found[place]), shorter)
    begin = max(place - SHOWN, 0)
    guest = expected[:place].count(b"\nguest ") + expected.startswith(b"guest ") - 1
    return (
        f"  from byte {place} on (guest {guest}), shown from byte {begin} on\n"
        f"  interpreter: {expected[begin : place + SHOWN]!r}\n"
        f"  disco:       {found[begin : place + SHOWN]!r}"
    )


def differences(disco: pathlib.Path, folder: pathlib.Path, made: Scenario, monitor: Monitor) -> list[str]:
    """Runs disco both ways; says where its reports aren't what the interpreter has."""
    is_as_alone = not monitor.failing and not monitor.packets_arrived()
    expected = {"--private": monitor.report_without_sums() if is_as_alone else private_report(made.starts, made.plan)}
    if not monitor.is_open:
        expected["--machine"] = without_open_parts(monitor.report(), monitor.openness)
    told = []
    for option, report in expected.items():
        found = report_of_disco(disco, option, folder)
        if option == "--machine":
            found = without_open_parts(found, monitor.openness)
        if found != report:
            (folder / f"expected{option}").write_bytes(report)
            (folder / f"found{option}").write_bytes(found)
            told.append(f"{option}\n{parting(report, found)}")
    return told


def compare(disco: pathlib.Path, seed: int, sharing: float, failing: float, totals: Totals) -> bool:
    """Whether the reports of a seed's run are equal. The folder of one that isn't is kept."""
    made = scenario(seed, sharing, failing)
    monitor = Monitor(made.starts, made.hosts, made.machine(), made.policy)
    try:
        monitor.carry_out(made.plan)
    except NeverGoesOn as told:
        print(f"seed {seed}: not run, as {told} never goes on")
        totals.endless += 1
        return True
    totals.add(monitor)
    folder = pathlib.Path(tempfile.mkdtemp(prefix=f"random_guests_{seed}_"))
    write_files(folder, made.description(), made.files)
    told = differences(disco, folder, made, monitor)
    if not told:
        shutil.rmtree(folder)
        return True
    print(f"seed {seed}: the reports differ, see {folder}")
    for text in told:
        print(f"  {text}", flush=True)
    return False


def probability(text: str) -> float:
    """A number from 0 to 1."""
    number = float(text)
    if not 0 <= number <= 1:
        raise argparse.ArgumentTypeError(f"{text} is no probability")
    return number


def main() -> int:
    parser = argparse.ArgumentParser(description=__doc__.split("\n", 1)[0])
    parser.add_argument("disco", type=built_program, help="the built program")
    parser.add_argument("runs", type=int, nargs="?", default=RUNS, help="how many runs (%(default)s)")
    parser.add_argument("seed", type=int, nargs="?", default=0, help="the seed of the first (%(default)s)")
    parser.add_argument("--sharing", type=probability, default=0.5, metavar="PROBABILITY", help="how many of the runs share (0.5)")
    parser.add_argument(
        "--failing",
        type=probability,
        default=0.25,
        metavar="PROBABILITY",
        help="in how many of the runs cells fail (0.25)",
    )
    given = parser.parse_args()
    totals = Totals()
    seeds = range(given.seed, given.seed + given.runs)
    differ = sum(not compare(given.disco, seed, given.sharing, given.failing, totals) for seed in seeds)
    verdict = f"{differ} of the runs differ" if differ else "all equal"
    print(f"{totals.line()}: {verdict}")
    return 1 if differ else 0


if __name__ == "__main__":
    sys.exit(main())
