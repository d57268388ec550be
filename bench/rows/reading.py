"""A description's run by the interpreter alone."""

from __future__ import annotations

import tomllib
from dataclasses import dataclass

from generator.assembler import KERNEL
from reference import (
    AdmissionFault,
    Ask,
    Collapse,
    DiskFile,
    Fail,
    Item,
    Machine,
    Migrate,
    Monitor,
    PageMove,
    Policy,
    Replicate,
    Run,
    Start,
)

Files = dict[str, bytes]


@dataclass(frozen=True)
class Row:
    """What is run, and what it prints. Whole pages are handed on, or copied as each packet was before."""

    about: str
    text: str
    files: Files
    report: str
    hands_on: bool = True


def start_of(guest: dict, files: Files) -> Start:
    """A guest whose image is raw."""
    disk = DiskFile(guest["disk"], files[guest["disk"]]) if "disk" in guest else None
    return Start(files[guest["image"]], KERNEL, guest["pages"], guest["vcpus"], disk, profile=guest.get("profile", 1))


def move_of(work: dict) -> PageMove:
    if work["kind"] == "collapse":
        return Collapse(work["page"])
    return (Migrate if work["kind"] == "migrate" else Replicate)(work["page"], work["node"])


def item_of(work: dict) -> Item:
    match work["act"]:
        case "run":
            return Run(work["guest"], work["vcpu"], work["steps"], work["processor"])
        case "move":
            return Ask(work["processor"], work["guest"], move_of(work))
        case "fail":
            return Fail(work["processor"], work["cell"])
    raise ValueError(work["act"])


def machine_of(described: dict) -> Machine:
    machine = described["machine"]
    cells = described.get("cell", [{"nodes": list(range(machine["nodes"]))}])
    return Machine(
        cells=[cell["nodes"] for cell in cells],
        frames=machine["frames"],
        homes=[guest["node"] for guest in described["guest"]],
        processors=machine["processors"],
        lends=[cell.get("lend", 0) for cell in cells],
        cache=machine.get("cache", 0),
    )


def printed(row: Row) -> str:
    """What the interpreter prints for a row."""
    described = tomllib.loads(row.text)
    starts = [start_of(guest, row.files) for guest in described["guest"]]
    try:
        monitor = Monitor(starts, [0] * len(starts), machine_of(described), Policy(**described.get("policy", {})), row.hands_on)
    except AdmissionFault as fault:
        return f"{fault}\n"
    monitor.carry_out([item_of(work) for work in described.get("work", [])])
    return monitor.report().decode()
