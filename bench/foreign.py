#!/usr/bin/env python3
"""Programs that nobody of this project wrote, as guests: what they print under disco has to be what qemu-mips prints of the same objects, or where that
can't tell (packets, floating point) what this computer's own libraries say.

    foreign.py DISCO [--sources FOLDER] [--work FOLDER] [--crowds N]

Gets the sources of zlib, bzip2, cmark, Mbed TLS and SQLite from Debian (apt-get source, into a temporary folder, or takes them from FOLDER where they
are unpacked already), builds them by the kit of examples/c with the C library of foreign_kit, and runs them: each alone (--private), each monitored
(--machine), and N times several at once with moves, a shared disk and a policy, without and with a cell that fails. A line for each console that is
compared; a program whose tools aren't installed is left out, and the line says what is missing. Ends with 1 where a console is wrong."""

from __future__ import annotations

import argparse
import pathlib
import shutil
import subprocess
import sys
import tempfile

from foreign_kit.building import build
from foreign_kit.crowds import Seat, alone, crowd, pair
from foreign_kit.programs import PACKAGES, Program, programs, zlib_pair
from foreign_kit.reports import Console, consoles, verdict
from running import built_program

TOOLS = {"mips-linux-gnu-gcc": "gcc-mips-linux-gnu", "qemu-mips": "qemu-user"}
GETTING = {"apt-get": "apt", "dpkg-source": "dpkg-dev"}


def fetch(folder: pathlib.Path) -> None:
    """The packages' sources, unpacked. A list of sources of its own, so that nothing of the system is changed."""
    lists = folder / "lists"
    (lists / "partial").mkdir(parents=True)
    (folder / "sources.list").write_text("deb-src http://deb.debian.org/debian bookworm main\n")
    settings = ("APT::Sandbox::User=root", f"Dir::Etc::sourcelist={folder}/sources.list", "Dir::Etc::sourceparts=/dev/null", f"Dir::State::lists={lists}")
    options = ["-qq", *(word for setting in settings for word in ("-o", setting))]
    subprocess.run(["apt-get", *options, "update"], cwd=folder, check=True)
    for package in PACKAGES:
        subprocess.run(["apt-get", *options, "source", package], cwd=folder, check=True, stdout=subprocess.DEVNULL)


def expected(program: Program, work: pathlib.Path) -> bytes:
    """The console under qemu-mips, where it can tell."""
    if program.console is not None:
        return program.console
    return subprocess.run(["qemu-mips", f"{program.name}.user"], cwd=work, stdin=subprocess.DEVNULL, stdout=subprocess.PIPE).stdout


def told(disco: pathlib.Path, mode: str, description: str, work: pathlib.Path) -> list[Console]:
    (work / "machine.toml").write_text(description)
    run = subprocess.run([disco, mode, "machine.toml"], cwd=work, stdout=subprocess.PIPE, stderr=subprocess.STDOUT)
    if run.returncode != 0:
        sys.exit(f"status {run.returncode}: {run.stdout[:200].decode(errors='replace')}")
    return consoles(run.stdout)


class Bench:
    """The programs that are built, and what qemu-mips prints of each."""

    def __init__(self, disco: pathlib.Path, work: pathlib.Path) -> None:
        self.disco = disco
        self.work = work
        self.pages: dict[str, int] = {}
        self.wanted: dict[str, bytes] = {}
        self.disks: dict[str, str] = {}
        self.right = True

    def add(self, program: Program) -> None:
        self.pages[program.name] = build(program, self.work)
        self.wanted[program.name] = expected(program, self.work)
        if program.disk is not None:
            self.disks[program.name] = f"{program.name}.img"

    def seat(self, name: str, node: int, steps: int, disk: str | None = None) -> Seat:
        return Seat(name, self.pages[name], node, steps, disk if disk is not None else self.disks.get(name))

    def compare(self, mode: str, about: str, description: str, names: list[str]) -> None:
        for name, console in zip(names, told(self.disco, mode, description, self.work), strict=True):
            right, line = verdict(console, self.wanted[name])
            self.right = self.right and right
            print(f"{about} {name}: {line}", flush=True)

    def run_alone(self, program: Program) -> None:
        for mode in ("--private", "--machine"):
            self.compare(mode, mode, alone(self.seat(program.name, 0, program.steps)), [program.name])

    def run_pair(self, programs: list[Program]) -> None:
        """A guest that sends to another: whole pages there, checksums back."""
        names = [program.name for program in programs]
        self.compare("--machine", "a pair:", pair([self.seat(name, 0, 0) for name in names], 200, 40_000), names)

    def run_crowds(self, count: int) -> None:
        names = ["cmark_disk", "cmark_disk", "sqlite_short", "bzip2_short", "mbedtls_short"]
        if any(name not in self.wanted for name in names):
            print("several at once: left out, as a program of them is missing")
            return
        nodes, steps = (0, 1, 3, 0, 3), (2_200_000, 2_200_000, 2_500_000, 4_000_000, 1_600_000)
        seats = [self.seat(*one) for one in zip(names, nodes, steps, strict=True)]
        for seed in range(1, count + 1):
            for failing in (False, True):
                about = f"several at once, {'a cell fails, ' if failing else ''}{seed}:"
                self.compare("--machine", about, crowd(seats, seed, failing), names)


def run(words: argparse.Namespace, sources: pathlib.Path, work: pathlib.Path) -> int:
    bench = Bench(words.disco, work)
    for program in programs(sources):
        bench.add(program)
        bench.run_alone(program)
    both = zlib_pair(sources)
    for program in both:
        bench.add(program)
    bench.run_pair(both)
    bench.run_crowds(words.crowds)
    return 0 if bench.right else 1


def main() -> int:
    parser = argparse.ArgumentParser(description=__doc__, formatter_class=argparse.RawDescriptionHelpFormatter)
    parser.add_argument("disco", type=built_program)
    parser.add_argument("--sources", type=pathlib.Path)
    parser.add_argument("--work", type=pathlib.Path)
    parser.add_argument("--crowds", type=int, default=2)
    words = parser.parse_args()
    wanted = TOOLS if words.sources else {**TOOLS, **GETTING}
    lacking = [f"{tool} (Debian's package {package})" for tool, package in wanted.items() if shutil.which(tool) is None]
    if lacking:
        print(f"missing: {', '.join(lacking)}")
        return 1
    with tempfile.TemporaryDirectory() as folder:
        sources, work = words.sources or pathlib.Path(folder) / "sources", words.work or pathlib.Path(folder) / "work"
        work.mkdir(parents=True, exist_ok=True)
        if not words.sources:
            sources.mkdir()
            fetch(sources)
        return run(words, sources.resolve(), work.resolve())


if __name__ == "__main__":
    sys.exit(main())
