#!/usr/bin/env python3
"""What histogram prints, by arithmetic alone. It shares no code with the program."""

BYTES, PARTS, BINS = 1024, 4, 16


def part(number):
    for _ in range(BYTES // PARTS):
        number = (number * 1103515245 + 12345) % 2**32
        yield number >> 24


values = [value for number in range(PARTS) for value in part(number)]
for first in range(0, 256, 256 // BINS):
    last = first + 256 // BINS - 1
    print(f"{first:02x} to {last:02x} {sum(first <= value <= last for value in values):4}")
print(f"{len(values)} bytes by {PARTS} virtual processors")
