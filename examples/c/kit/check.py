#!/usr/bin/env python3
"""Compares what the programs print with their files `output`.

    check.py [--write]        by builds for this computer (build/host), and by the models where a program is of devices
    check.py --qemu FOLDER    by qemu-mips, with the programs of FOLDER
    check.py --interpret      by the interpreter of bench/reference, from the descriptions
    check.py --disco PROGRAM  by disco, from the descriptions: alone, and monitored

`output` has the report without its lines of sums, which say how often pages were filled and moved, and not what a guest printed."""

import argparse
import pathlib
import subprocess
import sys
import tomllib

HERE = pathlib.Path(__file__).resolve().parent.parent
TOP = HERE.parent.parent
PLAIN = ("primes", "forth", "tar", "numbers")  # they run on this computer too
MODELS = {"kernel": 1, "histogram": 1, "store": 3}  # the numbers of their guests
ALONE = (*PLAIN, "kernel", "histogram")  # they need no other guest
WIDE = "histogram"  # it has a second description, for four processors


def typed(name):
    """What the description types."""
    description = tomllib.loads((HERE / name / "machine.toml").read_text())
    return "".join(entry["text"] for entry in description.get("input", [])).encode()


def printed(words, name):
    """The console of a program for this computer, run in the example's folder."""
    run = subprocess.run(words, cwd=HERE / name, input=typed(name), stdout=subprocess.PIPE, stderr=subprocess.PIPE)
    if run.returncode != 0 or run.stderr:
        sys.exit(f"{name}: status {run.returncode}\n{run.stderr.decode(errors='replace')}")
    return run.stdout


def report(consoles):
    """The report of guests that halted, without sums."""
    return b"".join(b"guest %d console %d\n%b\nend halted\n" % (guest, len(text), text) for guest, text in enumerate(consoles))


def expected(name):
    if name in PLAIN:
        return report([printed([HERE / "build" / "host" / name], name)])
    model = [sys.executable, HERE / name / "model.py"]
    return report([printed([*model, str(guest)], name) for guest in range(MODELS[name])])


def described(words, name, description="machine.toml"):
    """The report of the description, without its sums."""
    words = [*words, f"examples/c/{name}/{description}"]
    run = subprocess.run(words, cwd=TOP, stdout=subprocess.PIPE, stderr=subprocess.STDOUT)
    return b"".join(line for line in run.stdout.splitlines(keepends=True) if not line.startswith(b"sums "))


def compared(name, how, text):
    want = (HERE / name / "output").read_bytes()
    print(f"{name}, {how}: {'as expected' if text == want else 'DIFFERS'}")
    if text != want:
        sys.stdout.write(text.decode(errors="replace"))
    return text == want


def comparisons(words):
    """Of each program: how it was run, and what it printed as a report."""
    if words.disco:
        for mode, names in (("--private", ALONE), ("--machine", (*PLAIN, *MODELS))):
            yield from ((name, f"disco {mode}", described([words.disco.resolve(), mode], name)) for name in names)
        yield WIDE, "disco --machine, four processors", described([words.disco.resolve(), "--machine"], WIDE, "wide.toml")
    elif words.interpret:
        interpreter = [sys.executable, HERE / "kit" / "interpret.py"]
        yield from ((name, "interpreter", described(interpreter, name)) for name in (*PLAIN, *MODELS))
    elif words.qemu:
        yield from ((name, "qemu-mips", report([printed(["qemu-mips", words.qemu.resolve() / f"{name}.user"], name)])) for name in PLAIN)
    else:
        yield from ((name, "this computer" if name in PLAIN else "model", expected(name)) for name in (*PLAIN, *MODELS))


def main():
    parser = argparse.ArgumentParser(description=__doc__, formatter_class=argparse.RawDescriptionHelpFormatter)
    parser.add_argument("--write", action="store_true")
    parser.add_argument("--qemu", type=pathlib.Path)
    parser.add_argument("--interpret", action="store_true")
    parser.add_argument("--disco", type=pathlib.Path)
    words = parser.parse_args()
    if words.write:
        for name in (*PLAIN, *MODELS):
            (HERE / name / "output").write_bytes(expected(name))
        return 0
    return 0 if all([compared(*one) for one in comparisons(words)]) else 1


if __name__ == "__main__":
    sys.exit(main())
