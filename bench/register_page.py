#!/usr/bin/env python3
"""Each access to the register page, in kernel mode and in user mode, in profile 2 and in profile 1.

    python3 bench/register_page.py DISCO

For each load and store a guest makes that access at every address from CFFFE000 to CFFFE043, aligned or not, with values of many bits, and after
each adds up what it left: the register that was loaded, the words of coprocessor 0, and for an exception its cause, the address and where it
came. It runs in the kernel, and then the same in user mode. DISCO is the built program: its consoles alone and monitored are compared with
each other and with that of the interpreter in reference/. Prints how many accesses were compared, and ends with 1 where some console differs.
"""

from __future__ import annotations

import argparse
import pathlib
import subprocess
import sys
import tempfile

from generator.assembler import COPROCESSOR_REGISTERS, KERNEL, Assembler
from generator.kernel import add_to_sum, fill_up_to, print_word
from generator.program import as_bytes
from reference import Run, Start, private_report
from running import DESCRIPTION, built_program, write_files

OPERATIONS = ("LW", "SW", "LB", "LBU", "LH", "LHU", "LWL", "LWR", "SB", "SH", "SWL", "SWR", "LL", "SC")
OFFSETS = range(0x44)
PAGES = 8
STEPS = 40_000
USER = 0x0040_0000  # where user code lies, on the physical pages from 2 on
WATCHED = ("index", "entrylo0", "entrylo1", "context", "badvaddr", "entryhi", "epc")
DESCRIBED = """[machine]
nodes = 1
frames = 8
processors = [0]
[[guest]]
image = "guest.raw"
form = "raw"
pages = 8
vcpus = 1
node = 0
profile = {profile}
[[work]]
act = "run"
processor = 0
guest = 0
vcpu = 0
steps = 40000
"""


def add_registers() -> str:
    return "".join(f"mfc0 r9, {name}\n{add_to_sum(9)}" for name in WATCHED)


def vectors(code: Assembler) -> None:
    """The start, and the general vector: what an exception tells is added up, and the instruction is passed. A call goes back into the kernel."""
    code.listing("""
        j     start
        nop
    """)
    fill_up_to(code, KERNEL + 0x180)
    code.listing(f"""
        mfc0  r9, cause
        {add_to_sum(9)}
        andi  r9, r9, 0x7C
        {add_registers()}
        mfc0  r9, cause
        andi  r9, r9, 0x7C
        addiu r9, r9, -32
        beq   r9, zero, kernel
        mfc0  k0, epc
        addiu k0, k0, 4
        mtc0  k0, epc
        eret
    kernel:
        mtc0  zero, status
        j     last
        nop
    """)


def accesses(code: Assembler, name: str, in_kernel: bool) -> None:
    """The accesses of one operation, each with another value."""
    code.constant(8, 0xCFFF_E000)
    for offset in OFFSETS:
        code.constant(10, (0x9E37_79B9 * (offset + 1)) & 0xFFFF_FFFF)
        code.op(name, rt=10, rs=8, immediate=offset)
        code.listing(add_to_sum(10) + (add_registers() if in_kernel else ""))


def image(name: str, in_kernel: bool) -> bytes:
    """A guest that makes one operation's accesses, prints the sum of what they left, and halts."""
    code = Assembler(KERNEL)
    vectors(code)
    code.listing("""
    last:
        lui   r16, 0xCFFF
        ori   r16, r16, 0xF000
    """)
    code.listing(print_word(17))
    code.listing("""
        sw    zero, 4(r16)
    start:
        addiu r17, zero, 0
    """)
    if in_kernel:
        accesses(code, name, in_kernel)
        code.listing("""
            j     last
            nop
        """)
    else:
        for index in range(2):
            for register, value in (("index", index), ("entryhi", USER + 0x2000 * index), ("entrylo0", 0x82 + 0x80 * index), ("entrylo1", 0xC2 + 0x80 * index)):
                code.constant(9, value)
                code.op("MTC0", rt=9, rd=COPROCESSOR_REGISTERS[register])
            code.op("TLBWI")
        code.constant(9, USER)
        code.op("MTC0", rt=9, rd=COPROCESSOR_REGISTERS["epc"])
        code.listing("""
            addiu r9, zero, 0x12
            mtc0  r9, status
            eret
        """)
        fill_up_to(code, KERNEL + 0x2000)
        accesses(code, name, in_kernel)
        code.listing("syscall")
    return as_bytes(code.finished()).ljust(4096 * PAGES, b"\0")


def consoles(disco: pathlib.Path, memory: bytes, profile: int) -> set[bytes]:
    """What the interpreter and disco print, alone and monitored, but for the sums."""
    start = Start(memory, KERNEL, PAGES, 1, profile=profile)
    found = {private_report([start], [Run(0, 0, STEPS, 0)])}
    with tempfile.TemporaryDirectory() as at:
        folder = pathlib.Path(at)
        write_files(folder, DESCRIBED.format(profile=profile).encode(), {"guest.raw": memory})
        for how in ("--private", "--machine"):
            done = subprocess.run([disco, how, DESCRIPTION], cwd=folder, stdout=subprocess.PIPE, check=True)
            found.add(done.stdout.split(b"sums ")[0])
    return found


def main() -> int:
    parser = argparse.ArgumentParser(description=__doc__.split("\n", 1)[0])
    parser.add_argument("disco", type=built_program, help="the built program")
    given = parser.parse_args()
    compared, wrong = 0, 0
    printed: dict[tuple[str, bool], set[bytes]] = {}
    for name in OPERATIONS:
        for in_kernel in (True, False):
            memory = image(name, in_kernel)
            for profile in (1, 2):
                found = consoles(given.disco, memory, profile)
                compared += len(OFFSETS)
                if len(found) > 1 or not all(report.endswith(b"end halted\n") for report in found):
                    wrong += 1
                    print(f"{name} in {'kernel' if in_kernel else 'user'} mode, profile {profile}: {sorted(found)}")
                printed.setdefault((name, in_kernel), set()).update(found)
    paged = sorted(name for (name, in_kernel), reports in printed.items() if len(reports) > 1)
    print(f"{compared} accesses, {wrong} consoles differ; the profiles differ for {', '.join(paged)} in kernel mode")
    return 1 if wrong or paged != ["LW", "SW"] else 0


if __name__ == "__main__":
    sys.exit(main())
