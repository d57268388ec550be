#!/usr/bin/env python3
"""What the kernel's processes print: the same row of sieves as generators. It shares no code with the program."""

LAST, LIMIT, ROUNDS = 5, 30, 2000
seen = [0] * (LAST + 1)
printed = []


def counted(me, numbers):
    for number in numbers:
        seen[me] += 1
        yield number


def sieve(me, numbers):
    prime = next(numbers)
    printed.append(prime)
    yield from (number for number in numbers if number % prime)


numbers = iter(range(2, LIMIT + 1))
for me in range(1, LAST):
    numbers = sieve(me, counted(me, numbers))
printed += counted(LAST, numbers)
print("".join(f"{number} " for number in printed))
for me in range(LAST):
    print(f"process {me} ended with {seen[me]}")
number, worked = 1, 0
for _ in range(ROUNDS):
    number = (number * 1103515245 + 12345) % 2**32
    worked += number >> 16 & 1
print(f"process {LAST} ended by exception 3 at address 00000008")  # a store that the TLB doesn't allow
print(f"process {LAST + 1} ended with {worked}")
print("the timer has come")  # the last process takes more steps than a turn has
