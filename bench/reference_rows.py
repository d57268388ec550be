#!/usr/bin/env python3
"""Runs of the interpreter alone, each compared with the report that was derived by hand.

    python3 bench/reference_rows.py

A row of the tables in bench/rows is a description, the images and disks that it names, and its report or its refusal. Prints each row that
comes out otherwise, and ends with 1 if there is one.
"""

from __future__ import annotations

import sys

from rows import blocks, failing, handing_on, moving, packets
from rows.reading import Row, printed

TABLES = (moving.MOVES, moving.POLICIES, packets.PACKETS, blocks.BLOCKS, handing_on.HANDED_ON, failing.FAILURES)


def differs(row: Row) -> bool:
    """Whether a row prints something else, which is shown."""
    found = printed(row)
    if found == row.report:
        return False
    print(f"{row.about}\n  expected {row.report!r}\n  found    {found!r}")
    return True


def main() -> int:
    rows = [row for table in TABLES for row in table]
    differ = sum(differs(row) for row in rows)
    print(f"{len(rows)} rows, {differ} of them differ")
    return 1 if differ else 0


if __name__ == "__main__":
    sys.exit(main())
