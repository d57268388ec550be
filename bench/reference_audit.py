#!/usr/bin/env python3
"""Random descriptions carried out by the interpreter alone, with a look at all that has to hold after each turn.

    python3 bench/reference_audit.py [RUNS] [SEED] [--sharing PROBABILITY] [--failing PROBABILITY] [--mixed]

Each run is that of `random_guests.py` with the same seed and probabilities (1 and 0.25 if none are given). In
order, each item is carried out after the other; with `--mixed` each run item has a processor of its own choice, and
each turn is one of any processor. Either way each guest has to be what its private machine is after the same steps
and packets, and the frames, their counts and all TLBs have to agree with its pages.
Ends with an error at the first run in which something doesn't hold, whose seed is named.
"""

from __future__ import annotations

import argparse
import sys
from collections import Counter
from dataclasses import replace
from random import Random

from generator.scenario import Scenario, scenario
from reference import Item, Monitor, NeverGoesOn, Run
from reference.audit import Audit
from reference.moves import BlockRead, Delivery


def counts_of(monitor: Monitor) -> Counter[str]:
    """What came in a run."""
    total = Counter[str](runs=1)
    for monitored in monitor.guests:
        host, pages = monitored.host, monitored.host.pages
        total.update(guests=1, steps=monitored.steps, refills=host.refills)
        total.update({"ended by a cell": monitored.killer is not None})
        total.update({"received: thrown away": len(monitored.discarded)})
        total.update({f"finished: {kind.value}": times for kind, times in pages.finished.items()})
        total.update({f"skipped: {cause.value}": times for cause, times in pages.causes.items()})
        total.update({"shared: blocks": pages.taken[BlockRead], "shared: packets": pages.taken[Delivery]})
        handed = sum(packet.frame is not None for packet in monitored.received)
        total.update({"received: copied": len(monitored.received) - handed})
        total.update({"received: whole, copied as its frame was gone": handed - pages.taken[Delivery]})
        total.update({"sent: whole": sum(packet.frame is not None for packet in monitored.guest.devices.sent)})
        total.update({"sent: whole pages that found no frame": host.sends_without_frame})
    return total


def mixed_plan(made: Scenario, random: Random) -> list[Item]:
    """Each run item gets a processor of the machine; moves and failures keep theirs."""
    processors = range(len(made.processors))
    return [replace(item, host=random.choice(processors)) if isinstance(item, Run) else item for item in made.plan]


def carried_out(seed: int, sharing: float, failing: float, mixed: bool) -> Monitor | None:
    """The run of a seed, once all was found as it has to be. Nothing where it never goes on."""
    made = scenario(seed, sharing, failing)
    random = Random(seed)
    if mixed:
        made.processors += [random.choice(made.machine().nodes()) for _ in range(3)]
    monitor = Monitor(made.starts, made.hosts, made.machine(), made.policy)
    audit = Audit(monitor)
    try:
        if mixed:
            monitor.carry_out_mixed(mixed_plan(made, random), random)
        else:
            monitor.carry_out(made.plan)
    except NeverGoesOn as told:
        print(f"seed {seed}: {told}")
        return None
    audit.look_at_end()
    return monitor


def main() -> int:
    parser = argparse.ArgumentParser(description=__doc__.split("\n", 1)[0])
    parser.add_argument("runs", type=int, nargs="?", default=100, help="how many runs (%(default)s)")
    parser.add_argument("seed", type=int, nargs="?", default=0, help="the seed of the first (%(default)s)")
    parser.add_argument("--sharing", type=float, default=1.0, help="how many of the runs share, from 0 to 1 (%(default)s)")
    parser.add_argument("--failing", type=float, default=0.25, help="in how many of the runs cells fail (%(default)s)")
    parser.add_argument("--mixed", action="store_true", help="turns of all processors in any order")
    given = parser.parse_args()
    total = Counter[str]()
    for seed in range(given.seed, given.seed + given.runs):
        try:
            monitor = carried_out(seed, given.sharing, given.failing, given.mixed)
        except Exception:
            print(f"seed {seed}:", flush=True)
            raise
        total += counts_of(monitor) if monitor is not None else Counter(endless=1)
    for name, times in sorted(total.items()):
        print(f"{name:50} {times}")
    return 0


if __name__ == "__main__":
    sys.exit(main())
