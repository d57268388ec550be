"""Packets that are copied."""

from .programs import PRINTS_A_WORD, PRINTS_SENDERS, SENDS_65, SENDS_A_AND_B, SENDS_A_PAGE, SENDS_C_AND_D, SENDS_NOWHERE, TAKES_64
from .reading import Row
from .writing import guest, machine, runs, told

TWO_GUESTS = guest("0") + guest("1")
SENT = {"0": SENDS_A_PAGE, "1": PRINTS_A_WORD}

PACKETS = [
    Row(
        "a page that is copied",
        machine(frames=12) + TWO_GUESTS + runs((1, 4), (0, 20), (1, 20)),
        SENT,
        told(0, "Q", "halted", steps=15, refills=2) + told(1, "P", "halted", steps=11, refills=3, received=1),
        hands_on=False,
    ),
    Row(
        "a page that comes after the last step",
        machine(frames=12) + TWO_GUESTS + runs((1, 4), (0, 20)),
        SENT,
        told(0, "Q", "halted", steps=15, refills=2) + told(1, "", "budget", steps=4, refills=1, received=1),
        hands_on=False,
    ),
    Row(
        "a page that nobody waits for",
        machine(frames=12) + TWO_GUESTS + runs((1, 3), (0, 20)),
        SENT,
        told(0, "Q", "halted", steps=15, refills=2) + told(1, "", "budget", steps=3, refills=1),
        hands_on=False,
    ),
    Row(
        "65 packets",
        machine(frames=12) + TWO_GUESTS + runs((0, 271), (1, 700)),
        {"0": SENDS_65, "1": TAKES_64},
        told(0, "A", "halted", steps=271, refills=2) + told(1, "Y", "budget", steps=700, refills=2, received=64),
    ),
    Row(
        "packets to nobody",
        machine(frames=12) + TWO_GUESTS + runs((1, 4), (0, 19)),
        {"0": SENDS_NOWHERE, "1": PRINTS_A_WORD},
        told(0, "1", "halted", steps=19, refills=1) + told(1, "", "budget", steps=4, refills=1),
    ),
    Row(
        "two senders",
        machine(frames=12) + TWO_GUESTS + guest("2") + runs((0, 14), (2, 14), (1, 50)),
        {"0": SENDS_A_AND_B, "1": PRINTS_SENDERS, "2": SENDS_C_AND_D},
        told(0, "", "halted", steps=14, refills=2)
        + told(1, "2C0A2D0B", "budget", steps=50, refills=2, received=4)
        + told(2, "", "halted", steps=14, refills=2),
    ),
]
