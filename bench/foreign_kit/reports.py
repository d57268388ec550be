"""A report's consoles, each compared with what was expected."""

from __future__ import annotations

from dataclasses import dataclass


@dataclass(frozen=True)
class Console:
    """What a guest printed, how it ended, and its sums, which a run of guests alone doesn't have."""

    text: bytes
    end: str
    sums: dict[str, int]


def sums_of(line: bytes) -> dict[str, int]:
    parts = line.decode().split()[1:]
    return {name: int(number) for name, number in zip(parts[::2], parts[1::2], strict=True)}


def consoles(report: bytes) -> list[Console]:
    """Of each guest. What it printed may have any bytes, so its length is gone by."""
    found, at = [], 0
    while report.startswith(b"guest ", at):
        line = report.index(b"\n", at)
        length = int(report[at:line].split()[3])
        text = report[line + 1:line + 1 + length]
        at = line + 1 + length + 1
        line = report.index(b"\n", at)
        end, at, sums = report[at:line].decode(), line + 1, {}
        if report.startswith(b"sums ", at):
            line = report.index(b"\n", at)
            sums, at = sums_of(report[at:line]), line + 1
        found.append(Console(text, end, sums))
    return found


def verdict(console: Console, wanted: bytes) -> tuple[bool, str]:
    """Whether it is right, and a line that tells. A guest that didn't halt has printed the beginning of what it would have."""
    halted = console.end == "end halted"
    right = console.text == wanted if halted else wanted.startswith(console.text)
    told = f"{len(console.text)} bytes as expected" if console.text == wanted else f"the first {len(console.text)} of {len(wanted)} bytes"
    if not right:
        at = next((n for n, (one, other) in enumerate(zip(console.text, wanted)) if one != other), min(len(console.text), len(wanted)))
        told = f"WRONG from byte {at}: {console.text[at:at + 40]!r}, and not {wanted[at:at + 40]!r}"
    steps = f", {console.sums['steps']} steps, {console.sums['refills']} refills, {console.sums['moves']} moves" if console.sums else ""
    return right, f"{console.end}, {told}{steps}"
