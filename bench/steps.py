#!/usr/bin/env python3
"""What a step costs, alone and under the monitor, as ratios of one run. It is no test and has no limit.

    steps.py DISCO [--other PROGRAM] [--times N] [--count]

The guests are those of guests/: sha (sums and shifts, few loads), memcpy (words from one page to another), sort (an insertion sort of 64
numbers), walk (a load and a store of each of 40 pages in turn, through the TLB), stores (eight steps of eleven are stores), spaces (four address
spaces take turns), syscall (a user loop of seven instructions, one of which calls a kernel of six), refill (128 pages through the 48 entries
of the guest's TLB) and device (a store to the console each six steps); and loop, a jump to itself. Prints for each how many million
steps a second it makes alone and monitored, and how many times as long a step takes under the monitor; as multiples of the speed of plain.c, where
there is a C compiler; how many times as long 2 and 4 guests on as many processors take as one does, the whole run and a step beyond the first
million of each, and the same of as many runs of one guest that begin at once and of as many plain.c in threads, which is what the machine gives
(it takes some milliseconds until threads that begin at once have a processor each); and the peak memory of 16,000,000 steps of loop. With --other, a program with the same command line, that one runs in turns
with the first, and its time counts as a multiple. Each is run N times (3), and the shortest counts. With --count, the host's instructions a
step, counted by valgrind over 100,000 steps beyond the first 10,000, which other work on the machine doesn't disturb, also on machines of
16 and 32 processors."""

import argparse
import math
import pathlib
import re
import shutil
import struct
import subprocess
import tempfile
import time

HERE = pathlib.Path(__file__).parent
GUESTS = ("sha", "memcpy", "sort", "walk", "stores", "spaces", "syscall", "refill", "device")
STEPS = 16_000_000  # the most that a plan may have
PAGES = 160
MACHINES = (16, 32)  # with so many processors
LOOP = "start: j start\naddiu $0, $0, 0\n"


def image_of(disco, text, folder):
    """The image that the assembler makes of a text, out of its listing."""
    source = folder / "guest.s"
    source.write_text(text)
    listing = subprocess.run([disco, "--asm", source], stdout=subprocess.PIPE, text=True, check=True).stdout
    return bytes.fromhex("".join(listing.split("file image.elf")[1].split("\n")[1:]))


def description(image, guests, steps, processors=0):
    """So many guests of one image, each on a processor of its own, for so many steps. The machine has no processor more, or so many."""
    nodes = ", ".join(["0"] * max(guests, processors))
    text = f"[machine]\nnodes = 1\nframes = {PAGES * guests}\nprocessors = [{nodes}]\n"
    text += guests * f'[[guest]]\nimage = "{image}"\npages = {PAGES}\nvcpus = 1\nnode = 0\n'
    for number in range(guests):
        text += f'[[work]]\nact = "run"\nprocessor = {number}\nguest = {number}\nvcpu = 0\nsteps = {steps}\n'
    return text


def run(words, folder):
    begin = time.monotonic()
    subprocess.run(words, cwd=folder, stdout=subprocess.DEVNULL, check=True)
    return time.monotonic() - begin


def seconds(calls, folder, times):
    """The shortest time of each call, made in turns."""
    found = [[] for _ in calls]
    for _ in range(times):
        for words, its in zip(calls, found):
            its.append(run(words, folder))
    return [min(its) for its in found]


def plain_in(folder):
    """The plain interpreter, of one guest and of guests in threads, where there is a C compiler."""
    compiler = shutil.which("gcc") or shutil.which("cc")
    if compiler is None:
        return None, None
    subprocess.run([compiler, "-O2", "-o", folder / "plain", HERE / "plain.c"], check=True)
    subprocess.run([compiler, "-O2", "-DTHREADS", "-pthread", "-o", folder / "threads", HERE / "plain.c"], check=True)
    return folder / "plain", folder / "threads"


def flat_memory(elf):
    """The memory and the entry of an image with one segment."""
    entry, headers = struct.unpack_from(">II", elf, 24)
    offset, address, _, length = struct.unpack_from(">IIII", elf, headers + 4)
    return bytes(address - 0xC000_0000) + elf[offset : offset + length], entry


def plain_words(plain, name, steps, folder):
    """The call of the plain interpreter for so many steps of a guest."""
    memory, entry = flat_memory((folder / f"{name}.elf").read_bytes())
    (folder / "memory").write_bytes(memory)
    return [plain, folder / "memory", f"{entry:x}", str(steps)]


def at_once(words, count, folder):
    """The time until so many of a call that begin at once have ended."""
    begin = time.monotonic()
    running = [subprocess.Popen(words, cwd=folder, stdout=subprocess.DEVNULL) for _ in range(count)]
    for it in running:
        if it.wait() != 0:
            raise subprocess.CalledProcessError(it.returncode, words)
    return time.monotonic() - begin


def disco_words(disco, guests, steps, folder):
    """The call of disco for so many guests, each on a processor of its own."""
    name = f"many{guests}_{steps}.toml"
    (folder / name).write_text(description("sha.elf", guests, steps))
    return [disco, "--machine", name]


def report_many(kinds, folder, times):
    """How many times as long 2 and 4 of each kind take as one: all their steps, and a step beyond the first million of each. A kind tells for how many
    of it and how many steps of each what is called, and how often at once."""
    first, every = 1_000_000, STEPS // 4
    calls = {(name, many, steps): call_of(many, steps) for name, call_of in kinds.items() for many in (1, 2, 4) for steps in (first, every)}
    taken = dict.fromkeys(calls, math.inf)
    for _ in range(times):
        for key, (words, count) in calls.items():
            taken[key] = min(taken[key], at_once(words, count, folder))
    for many in (2, 4):
        for name in kinds:
            whole = taken[name, many, every] / taken[name, 1, every]
            step = (taken[name, many, every] - taken[name, many, first]) / (taken[name, 1, every] - taken[name, 1, first])
            print(f"{many} {name}: {whole:.2f} times as long as one, a step in the long run {step:.2f} times")


def instructions(words, folder):
    """The host's instructions of a run."""
    words = ["valgrind", "--tool=callgrind", "--callgrind-out-file=/dev/null", *words]
    said = subprocess.run(words, cwd=folder, stdout=subprocess.DEVNULL, stderr=subprocess.PIPE, text=True, check=True).stderr
    return int(re.search(r"Collected : (\d+)", said)[1])


def counted(program, how, image, folder, processors=0):
    """The host's instructions a step, in the long run, on a machine of so many processors."""
    first, all_of_them = 10_000, 110_000
    counts = []
    for steps in (first, all_of_them):
        (folder / "count.toml").write_text(description(image, 1, steps, processors))
        counts.append(instructions([program, how, "count.toml"], folder))
    return (counts[1] - counts[0]) / (all_of_them - first)


def plain_counted(plain, name, folder):
    """The same of the plain interpreter."""
    first, all_of_them = 10_000, 110_000
    counts = [instructions(plain_words(plain, name, steps, folder), folder) for steps in (first, all_of_them)]
    return (counts[1] - counts[0]) / (all_of_them - first)


def report(name, programs, plain, folder, times, counts):
    calls = [[program, how, f"{name}.toml"] for program in programs for how in ("--private", "--machine")]
    if plain:
        calls.append(plain_words(plain, name, STEPS, folder))
    taken = seconds(calls, folder, times)
    alone, monitored = taken[0], taken[1]
    million = STEPS / 1_000_000
    print(f"{name}: {million / alone:.1f} million steps a second alone, {million / monitored:.1f} monitored, {monitored / alone:.2f} times as long a step")
    if plain:
        print(f"{name}: {taken[-1] / alone:.2f} times as fast as plain.c alone, {taken[-1] / monitored:.2f} times monitored")
    if len(programs) > 1:
        print(f"{name}: the other takes {taken[2] / alone:.2f} times as long alone, {taken[3] / monitored:.2f} times monitored")
    if counts:
        for program in programs:
            both = [counted(program, how, f"{name}.elf", folder) for how in ("--private", "--machine")]
            print(f"{name}: {both[0]:.1f} instructions a step alone, {both[1]:.1f} monitored ({program})")
        many = [f"{counted(programs[0], '--machine', f'{name}.elf', folder, more):.1f} of {more}" for more in MACHINES]
        print(f"{name}: monitored on machines of more processors {', '.join(many)}")
        if plain:
            print(f"{name}: {plain_counted(plain, name, folder):.1f} instructions a step in plain.c")


def main():
    parser = argparse.ArgumentParser(description=__doc__, formatter_class=argparse.RawDescriptionHelpFormatter)
    parser.add_argument("disco", type=pathlib.Path)
    parser.add_argument("--other", type=pathlib.Path)
    parser.add_argument("--times", type=int, default=3)
    parser.add_argument("--count", action="store_true")
    given = parser.parse_args()
    programs = [it.resolve() for it in (given.disco, given.other) if it]
    with tempfile.TemporaryDirectory() as at:
        folder = pathlib.Path(at)
        plain, threads = plain_in(folder)
        for name in ("loop", *GUESTS):
            text = LOOP if name == "loop" else (HERE / "guests" / f"{name}.s").read_text()
            (folder / f"{name}.elf").write_bytes(image_of(programs[0], text, folder))
            (folder / f"{name}.toml").write_text(description(f"{name}.elf", 1, STEPS))
            report(name, programs, plain, folder, given.times, given.count)
        kinds = {
            "guests on as many processors": lambda many, steps: (disco_words(programs[0], many, steps, folder), 1),
            "runs of one guest at once": lambda many, steps: (disco_words(programs[0], 1, steps, folder), many),
        }
        if threads:
            kinds["of plain.c in threads"] = lambda many, steps: ([*plain_words(threads, "sha", steps, folder), str(many)], 1)
        report_many(kinds, folder, given.times)
        words = ["time", "-f", "%M", programs[0], "--machine", "loop.toml"]
        said = subprocess.run(words, cwd=folder, stdout=subprocess.DEVNULL, stderr=subprocess.PIPE, text=True)
        print(f"{STEPS:,} steps of loop: {int(said.stderr) / 1024:.1f} MB at most")


if __name__ == "__main__":
    main()
