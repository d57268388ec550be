"""The items of a plan."""

from __future__ import annotations

from collections.abc import Sequence
from dataclasses import dataclass

from .moves import PageMove


@dataclass(frozen=True)
class Run:
    """A virtual processor makes so many steps, unless it halts before, on a processor of the machine: the guest's own if none is named."""

    guest: int
    processor: int
    steps: int
    host: int | None = None


@dataclass(frozen=True)
class Ask:
    """A processor of the machine asks for a move of a guest's page."""

    asker: int
    guest: int
    move: PageMove


@dataclass(frozen=True)
class Fail:
    """A processor of the machine lets a cell fail for one guest after the other."""

    asker: int
    cell: int


Item = Run | Ask | Fail


def processor_of(item: Item, hosts: Sequence[int]) -> int:
    """The processor of the machine that carries an item out."""
    if isinstance(item, Ask | Fail):
        return item.asker
    return hosts[item.guest] if item.host is None else item.host
