"""Builds a program as a guest, and the same objects as a program for qemu-mips."""

from __future__ import annotations

import pathlib
import subprocess
import sys
from concurrent.futures import ThreadPoolExecutor

from .programs import Program

HERE = pathlib.Path(__file__).resolve().parent
KIT = HERE.parent.parent / "examples" / "c" / "kit"
sys.path.append(str(KIT))
import words  # noqa: E402  (the kit's check of instruction words)

PREFIX = "mips-linux-gnu-"
# as examples/c/README.md has them; then what a hosted compiler has to forget, and no warnings of foreign code
FLAGS = (
    "-mips2 -mabi=32 -EB -msoft-float -mno-abicalls -fno-pic -G0 -ffreestanding -fno-stack-protector -fno-unwind-tables"
    " -fno-asynchronous-unwind-tables -ffunction-sections -fdata-sections"
    " -fno-strict-aliasing -fno-tree-loop-distribute-patterns -U__linux__ -U__linux -Ulinux -U__unix__ -U__unix -Uunix -w -nostdinc"
).split()
LINK = "-EB -z max-page-size=4096 -z noexecstack --gc-sections --build-id=none --defsym=stack_size=0x10000".split()
JOBS = 2


def run(command: list, **options) -> str:
    done = subprocess.run([str(word) for word in command], stdout=subprocess.PIPE, stderr=subprocess.PIPE, text=True, **options)
    if done.returncode != 0:
        sys.exit(f"{command[0]} .. {command[-1]}\n{done.stderr[-3000:]}")
    return done.stdout


def quoted(text: str) -> str:
    return '"' + text.replace("\\", "\\\\").replace('"', '\\"') + '"'


def write_embedded(program: Program, work: pathlib.Path) -> pathlib.Path:
    """The program's words and files, as C."""
    all_words = [program.name, *program.words]
    lines = ['#include "platform.h"', f"const int program_word_count = {len(all_words)};"]
    lines.append(f"const char *const program_words[] = {{{', '.join(map(quoted, all_words))}, 0}};")
    rows = []
    for number, (name, content) in enumerate(program.files.items()):
        path = work / f"{program.name}.{number}"
        path.write_bytes(content)
        first, end = f"embedded_{number}", f"embedded_{number}_end"
        lines.append(f"extern const unsigned char {first}[], {end}[];")
        lines.append(f'__asm__(".section .rodata\\n.balign 16\\n{first}: .incbin \\"{path}\\"\\n{end}: .byte 0\\n.previous");')
        rows.append(f"{{{quoted(name)}, {first}, {end}}}, ")
    lines.append(f"const struct embedded embedded_files[] = {{{''.join(rows)}{{0, 0, 0}}}};\n")
    written = work / f"{program.name}.files.c"
    written.write_text("\n".join(lines))
    return written


def compiled(sources: list[pathlib.Path], flags: list[str], folder: pathlib.Path) -> list[pathlib.Path]:
    folder.mkdir(parents=True, exist_ok=True)
    headers = run([PREFIX + "gcc", "-print-file-name=include"]).strip()
    base = [PREFIX + "gcc", *FLAGS, "-isystem", HERE / "library" / "include", "-isystem", headers, "-I", HERE / "library", "-I", KIT]

    def one(source: pathlib.Path) -> pathlib.Path:
        made = folder / (source.name + ".o")
        run([*base, *flags, "-c", source, "-o", made])
        return made

    with ThreadPoolExecutor(JOBS) as pool:
        return list(pool.map(one, sources))


def kept(sources: list[pathlib.Path], folder: pathlib.Path) -> list[pathlib.Path]:
    """Objects that all programs have, compiled once."""
    made = [folder / (source.name + ".o") for source in sources]
    return made if all(one.exists() for one in made) else compiled(sources, ["-O2"], folder)


def kit_objects(work: pathlib.Path) -> tuple[list[pathlib.Path], list[pathlib.Path]]:
    """The kit's start and devices, and those for Linux."""
    of_disco = [KIT / name for name in ("start.s", "put.c", "get.c", "disk.c", "packet.c", "trap.c", "print.c")]
    of_linux = [KIT / "outside" / name for name in ("linux_start.s", "linux.c")]
    return kept(of_disco, work / "disco"), kept(of_linux, work / "linux")


def pages_of(image: pathlib.Path) -> int:
    """How many pages the image needs, which has no instruction that the machine lacks."""
    file = image.read_bytes()
    bad = list(words.refused(file))
    if bad:
        sys.exit(f"{image.name}: {bad[0][0]:08x}: {bad[0][1]:08x} is no instruction of the machine")
    return words.pages(file, 1)


def build(program: Program, work: pathlib.Path) -> int:
    """Makes NAME.elf and NAME.user, and NAME.img where the program has a disk; answers the pages that the guest needs."""
    folder = work / program.name
    library = HERE / "library"
    objects = kept([*(one for one in sorted(library.glob("*.c")) if one.name != "heap.c"), KIT / "shift.c"], work / "library")
    objects += compiled([library / "heap.c", write_embedded(program, work)], ["-O2", f"-DHEAP={program.heap}"], folder / "library")
    objects += compiled(program.sources, [program.optimize, "-Dmain=program_main", *program.flags], folder / "program")
    disco, linux = kit_objects(work)
    if program.console is None:
        run([PREFIX + "ld", *LINK, "-e", "__start", "-o", work / f"{program.name}.user", *linux, *objects])
    symbols = work / f"{program.name}.symbols"
    run([PREFIX + "ld", *LINK, "-T", KIT / "disco.ld", "-o", symbols, *disco, *objects])
    run([PREFIX + "strip", "-s", symbols, "-o", work / f"{program.name}.elf"])
    if program.disk is not None:
        (work / f"{program.name}.img").write_bytes(program.disk)
        (work / "disk.img").write_bytes(program.disk)
    return pages_of(symbols)
