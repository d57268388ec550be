"""What disco prints of a run, taken apart."""

from __future__ import annotations

import re
from dataclasses import dataclass, field

SUMS = ("steps", "refills", "moves", "skips", "breaks", "shared", "received", "discarded")
HEAD = re.compile(rb"guest (\d+) console (\d+)\n")
END = re.compile(rb"\nend (halted|budget|cell \d+)\n")
SUMS_LINE = re.compile(b"sums " + b" ".join(rb"%s (\d+)" % name.encode() for name in SUMS) + b"\n")
FAILURE = re.compile(rb"failure cell (\d+) ended (\d+(?: \d+)*|none)\n")


class NoReport(ValueError):
    """A text is no report."""


@dataclass(frozen=True)
class GuestReport:
    """What a report says of a guest. The sums are none where it ran alone."""

    console: bytes
    end: str
    sums: dict[str, int] = field(default_factory=dict)


@dataclass(frozen=True)
class Failure:
    """A cell that failed, and the guests that ended by it."""

    cell: int
    ended: list[int]


@dataclass(frozen=True)
class Report:
    """All guests, and the failures in the order of the plan."""

    guests: list[GuestReport]
    failures: list[Failure]


def read_report(text: bytes) -> Report:
    """A report's parts. Consoles are as long as it says, whatever their bytes are."""
    guests, place = [], 0
    while head := HEAD.match(text, place):
        place = head.end() + int(head[2])
        end = END.match(text, place)
        if int(head[1]) != len(guests) or end is None:
            raise NoReport(f"guest {len(guests)} isn't told of as expected")
        sums = SUMS_LINE.match(text, end.end())
        counts = dict(zip(SUMS, map(int, sums.groups()), strict=True)) if sums else {}
        guests.append(GuestReport(text[head.end() : place], end[1].decode(), counts))
        place = (sums or end).end()
    failures = read_failures(text, place)
    if any(number >= len(guests) for failure in failures for number in failure.ended):
        raise NoReport("a guest ended that isn't there")
    return Report(guests, failures)


def read_failures(text: bytes, place: int) -> list[Failure]:
    """The lines behind the guests, up to the end of the text."""
    failures = []
    while line := FAILURE.match(text, place):
        failures.append(Failure(int(line[1]), [int(number) for number in line[2].split() if number != b"none"]))
        place = line.end()
    if place != len(text):
        raise NoReport(f"something else stands at byte {place}")
    return failures
