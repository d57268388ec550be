#!/usr/bin/env python3
"""Tries the wrong bodies of bench/edits, beside those that each gate tries. It proves nothing of the crates themselves.

    try_edits.py [CRATE ..]     tries the edits of these crates, or of all
    try_edits.py --named        tells each edit, of the gate too, that docs/PROOFS.md doesn't name

Makes a clone of the commit that is checked out, puts the edits into it in the place of the gate's, and calls `rt ci` for their crates, which
tries as many at once as there are processors. Prints each edit that isn't refused, or is refused only since a proof file names what the edit took
away (no goal and no equation of a clause stands in what the prover prints, so it says nothing of the contract), or only by a limit of the
prover. Some 25 seconds of one processor an edit, beside a check of each crate that has some; a crate whose proof an earlier gate on this
machine has kept is not proved again."""

import argparse
import collections
import pathlib
import re
import shutil
import subprocess
import sys
import tempfile

TOP = pathlib.Path(__file__).resolve().parent.parent
EDITS = TOP / "bench" / "edits"
CLAIMS = TOP / "docs" / "PROOFS.md"
TOLD = re.compile(r"^(?:rt: )?must-fail (?P<crate>\w+)/(?P<edit>\w+)\.edit: (?P<what>.*)$")


def crates_with_edits():
    return sorted(folder.name for folder in EDITS.iterdir() if folder.is_dir())


def nameless():
    """Each edit that the claims don't name as often as it stands."""
    places = collections.defaultdict(list)
    for edit in [*TOP.glob("crates/*/must-fail/*.edit"), *EDITS.glob("*/*.edit")]:
        places[edit.stem].append(str(edit.relative_to(TOP)))
    claims = CLAIMS.read_text()
    return [place for name, there in sorted(places.items()) if claims.count(f"`{name}`") < len(there) for place in there]


def put_edits(clone, crates):
    """The edits of these crates in the place of all that the gate tries."""
    for there in clone.glob("crates/*/must-fail"):
        shutil.rmtree(there)
    for crate in crates:
        shutil.copytree(EDITS / crate, clone / "crates" / crate / "must-fail")


def judged(what):
    """What came of an edit, in one word."""
    if not what.startswith("refused"):
        return "not refused"
    if "names what the edit took away" in what:
        return "lost name"
    return "limit" if "only by a limit" in what else "refused"


def tried(crates):
    """What the prover says of each edit of these crates."""
    with tempfile.TemporaryDirectory(prefix="disco-edits-") as room:
        clone = pathlib.Path(room) / "clone"
        subprocess.run(["git", "clone", "--quiet", str(TOP), str(clone)], check=True)
        put_edits(clone, crates)
        run = subprocess.Popen(["rt", "ci", *crates], cwd=clone, stdout=subprocess.PIPE, stderr=subprocess.STDOUT, text=True)
        for line in run.stdout:
            found = TOLD.match(line.rstrip("\n"))
            if found:
                yield found["crate"], found["edit"], found["what"]
        run.wait()


def main():
    parser = argparse.ArgumentParser(description=__doc__, formatter_class=argparse.RawDescriptionHelpFormatter)
    parser.add_argument("crates", nargs="*", metavar="CRATE", choices=[[], *crates_with_edits()])
    parser.add_argument("--named", action="store_true")
    words = parser.parse_args()
    if words.named:
        lacking = nameless()
        print("\n".join(lacking) if lacking else "docs/PROOFS.md names each edit")
        return 1 if lacking else 0
    crates = words.crates or crates_with_edits()
    wanted = sum(len(list((EDITS / crate).glob("*.edit"))) for crate in crates)
    counts = collections.Counter()
    for crate, edit, what in tried(crates):
        kind = judged(what)
        counts[kind] += 1
        if kind != "refused":
            print(f"{crate}/{edit}: {kind}: {what}", flush=True)
    untold = wanted - sum(counts.values())
    print(f"{counts['refused']} of {wanted} refused, {counts['limit']} by a limit, {counts['lost name']} for a lost name, {counts['not refused']} not refused, {untold} without an answer")
    return 1 if counts["not refused"] or counts["lost name"] or untold else 0


if __name__ == "__main__":
    sys.exit(main())
