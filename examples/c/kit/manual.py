#!/usr/bin/env python3
"""Assembles each program of docs/GUESTS.md that is the assembler's, and runs those that say what they print.

    manual.py DISCO"""

import pathlib
import re
import subprocess
import sys
import tempfile

MANUAL = pathlib.Path(__file__).resolve().parents[3] / "docs" / "GUESTS.md"


DESCRIPTION = """[machine]
nodes = 1
frames = 16
processors = [0]
[[guest]]
image = "image.elf"
pages = 16
vcpus = 1
node = 0
profile = {profile}
[[work]]
act = "run"
processor = 0
guest = 0
vcpu = 0
steps = 2000
"""


def printed(words, folder):
    """What a call prints, or None where its status isn't 0."""
    run = subprocess.run(words, stdout=subprocess.PIPE, text=True, cwd=folder)
    return run.stdout if run.returncode == 0 else None


def outcome(disco, text):
    """Whether the program is right: it assembles, and prints what its first line says, in the profile that it names."""
    told = re.match(r"# prints (\S+)(?: in profile (\d))?", text)
    with tempfile.TemporaryDirectory() as at:
        folder = pathlib.Path(at)
        (folder / "guest.s").write_text(text)
        listing = printed([disco, "--asm", "guest.s"], folder)
        if listing is None or told is None:
            return listing is not None
        wanted = f"guest 0 console {len(told[1])}\n{told[1]}\nend halted\n"
        if told[2] is None:
            return printed([disco, "--asm", "guest.s", "--steps", "2000"], folder) == wanted
        (folder / "image.elf").write_bytes(bytes.fromhex(listing.split("\nfile image.elf ")[1].split("\n", 1)[1]))
        (folder / "machine.toml").write_text(DESCRIPTION.format(profile=told[2]))
        return all(text is not None and text.startswith(wanted) for text in (printed([disco, how, "machine.toml"], folder) for how in ("--private", "--machine")))


def main():
    blocks = re.findall(r"^```(\w*)\n(.*?)^```", MANUAL.read_text(), re.DOTALL | re.MULTILINE)
    texts = [text for language, text in blocks if not language]
    disco = pathlib.Path(sys.argv[1]).resolve()
    wrong = [text for text in texts if not outcome(disco, text)]
    print("".join(wrong) + f"{len(texts)} programs, {len(wrong)} of them wrong")
    return 1 if wrong else 0


if __name__ == "__main__":
    sys.exit(main())
