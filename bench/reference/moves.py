"""Moves of a guest's pages: those that are asked for, when the policy asks, and those that are open."""

from __future__ import annotations

from collections import Counter
from collections.abc import Callable
from dataclasses import dataclass, field
from enum import Enum
from typing import ClassVar

from .frames import Frame


class Kind(Enum):
    """What a move does to a page."""

    MIGRATE = "migrate"
    REPLICATE = "replicate"
    COLLAPSE = "collapse"
    BREAK = "break"
    TAKE_SHARED = "take shared"
    GIVE_SHARED = "give shared"


@dataclass(frozen=True)
class Migrate:
    """A page's frame is to lie on another node."""

    kind: ClassVar[Kind] = Kind.MIGRATE
    page: int
    node: int


@dataclass(frozen=True)
class Replicate:
    """A page is to have a frame for reading on one more node."""

    kind: ClassVar[Kind] = Kind.REPLICATE
    page: int
    node: int


@dataclass(frozen=True)
class Collapse:
    """A page is to have its master alone."""

    kind: ClassVar[Kind] = Kind.COLLAPSE
    page: int


PageMove = Migrate | Replicate | Collapse


class Cause(Enum):
    """Why a move that was asked for doesn't begin."""

    ENDED = "the guest has ended"
    DEAD_CELL = "the cell of the asker or of the node has failed"
    SHARED = "the page is shared"
    REPLICATED = "a page with replicas doesn't migrate"
    SAME_NODE = "the page has a frame on the node"
    NO_REPLICA = "there is no replica to let go"
    NO_FRAME = "the node gives no frame"


@dataclass(frozen=True)
class BlockRead:
    """A virtual processor's read of a block."""

    processor: int
    block: int


@dataclass(frozen=True)
class Delivery:
    """The receipt of a packet, by how many came before."""

    place: int


Operation = BlockRead | Delivery


@dataclass
class OpenMove:
    """A move that has begun: the processors that may still name the page, its frame, and what a shared frame is taken for."""

    kind: Kind
    waiting: set[int]
    target: Frame | None = None
    operation: Operation | None = None

    def is_for(self, operation: Operation) -> bool:
        """Whether this operation itself ends the move now."""
        return self.kind is Kind.TAKE_SHARED and self.operation == operation and not self.waiting


@dataclass
class Page:
    """The frames behind a page, who may name it, its move, and what was noted of it since one began last, or was skipped."""

    master: Frame
    is_shared: bool = False
    replicas: list[Frame] = field(default_factory=list)
    mapped: set[int] = field(default_factory=set)
    move: OpenMove | None = None
    misses: Counter[int] = field(default_factory=Counter)  # of each node
    is_written: bool = False

    def frames(self) -> tuple[Frame, ...]:
        return (self.master, *self.replicas)

    def nearest(self, node: int, is_dead: Callable[[int], bool]) -> Frame:
        """The frame by which a processor of this node reaches the page: the nearest, the lower node's of two as near. None that lies in a
        cell that has failed."""
        live = [frame for frame in self.frames() if not is_dead(frame.node)]
        return min(live, key=lambda frame: (abs(frame.node - node), frame.node))

    def lies_on(self, node: int) -> bool:
        return any(frame.node == node for frame in self.frames())

    def is_writable(self) -> bool:
        return not self.is_shared and not self.replicas

    def need(self) -> Kind | None:
        """The move that comes before the page's bytes may change."""
        if self.is_shared:
            return Kind.BREAK
        return Kind.COLLAPSE if self.replicas else None

    def note(self, node: int, is_miss: bool, is_store: bool) -> None:
        """Notes a data access by a processor of this node."""
        self.is_written |= is_store
        self.misses[node] += is_miss

    def note_anew(self) -> None:
        self.misses.clear()
        self.is_written = False

    def cause_against(self, move: PageMove) -> Cause | None:
        """Why this move can't begin, want of a frame aside."""
        if self.is_shared:
            return Cause.SHARED
        match move:
            case Migrate(node=node):
                if self.replicas:
                    return Cause.REPLICATED
                return Cause.SAME_NODE if self.master.node == node else None
            case Replicate(node=node):
                return Cause.SAME_NODE if self.lies_on(node) else None
            case Collapse():
                return None if self.replicas else Cause.NO_REPLICA


@dataclass(frozen=True)
class Policy:
    """After how many misses of a node a page migrates there, or gets a replica there. 0: never."""

    migrate: int = 0
    replicate: int = 0

    def is_on(self) -> bool:
        return self.migrate > 0 or self.replicate > 0

    def choice(self, number: int, page: Page, node: int) -> PageMove | None:
        """What is asked for after a miss of this node."""
        misses = page.misses[node]
        if 0 < self.migrate <= misses and misses == page.misses.total():
            return Migrate(number, node)
        if 0 < self.replicate <= misses and not page.is_written:
            return Replicate(number, node)
        return None
