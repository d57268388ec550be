"""The pages of a guest, what backs them, and how their moves change that."""

from __future__ import annotations

from collections import Counter
from collections.abc import Sequence

from .frames import Frame, Holder
from .moves import Cause, Collapse, Kind, Operation, OpenMove, Page, PageMove

ASKED = (Kind.MIGRATE, Kind.REPLICATE, Kind.COLLAPSE)


class Pages:
    """All pages of a guest, its spare frames, and how many moves began, ended and were skipped."""

    def __init__(self, holder: Holder, order: Sequence[int], count: int) -> None:
        """Each page gets the next frame that the nodes have in this order."""
        self.holder = holder
        self.pages = [Page(holder.find(order)) for _ in range(count)]
        self.spares: list[Frame] = []
        self.moving: set[int] = set()
        self.begun = Counter[Kind]()
        self.finished = Counter[Kind]()
        self.taken = Counter[type[Operation]]()  # shared frames that became a page's master, by what brought them
        self.causes = Counter[Cause]()

    def __getitem__(self, number: int) -> Page:
        return self.pages[number]

    def has_ended(self) -> bool:
        return not self.pages

    # what a report counts

    @property
    def moves(self) -> int:
        return sum(self.finished[kind] for kind in ASKED)

    @property
    def skips(self) -> int:
        return self.causes.total()

    @property
    def breaks(self) -> int:
        return self.finished[Kind.BREAK]

    @property
    def shared(self) -> int:
        return self.taken.total()

    # moves

    def skip(self, number: int, cause: Cause) -> None:
        """A guest that has ended has no pages."""
        self.causes[cause] += 1
        if self.pages:
            self.pages[number].note_anew()

    def target_of(self, move: PageMove) -> Frame | None:
        """The frame with which a move that was asked for begins; a collapse needs none."""
        return None if isinstance(move, Collapse) else self.holder.find([move.node])

    def begin(self, number: int, kind: Kind, target: Frame | None = None, operation: Operation | None = None) -> None:
        """A break takes the spare that was added last."""
        page = self.pages[number]
        assert page.move is None
        page.move = OpenMove(kind, set(page.mapped), self.spares.pop() if kind is Kind.BREAK else target, operation)
        page.note_anew()
        self.moving.add(number)
        self.begun[kind] += 1

    def first_waiting(self, processor: int) -> int | None:
        """The lowest page that waits for a processor."""
        return min((number for number in self.moving if processor in self.pages[number].move.waiting), default=None)

    def first_ready(self) -> int | None:
        """The lowest page whose move waits for nobody, but for those that wait for what they were begun for."""
        moves = {number: self.pages[number].move for number in self.moving}
        return min((number for number, move in moves.items() if not move.waiting and move.kind is not Kind.TAKE_SHARED), default=None)

    def leave(self, number: int, processor: int) -> None:
        """A processor can't name the page any more."""
        page = self.pages[number]
        page.mapped.discard(processor)
        if page.move is not None:
            page.move.waiting.discard(processor)

    def finish(self, number: int) -> None:
        """A move ends that waits for nobody."""
        page = self.pages[number]
        assert not page.move.waiting
        self.finished[page.move.kind] += 1
        FINISHES[page.move.kind](self, page, page.move.target)
        self.close(number)

    def close(self, number: int) -> None:
        self.pages[number].move = None
        self.moving.discard(number)

    def migrate(self, page: Page, target: Frame) -> None:
        self.holder.release(page.master)
        page.master = target

    def replicate(self, page: Page, target: Frame) -> None:
        page.replicas.append(target)

    def collapse(self, page: Page, target: None = None) -> None:
        for frame in page.replicas:
            self.holder.release(frame)
        page.replicas.clear()

    def own(self, page: Page, target: Frame) -> None:
        """The page's bytes come to lie on a frame of its own."""
        self.holder.release(page.master)
        page.master, page.is_shared = target, False

    def let_go(self, page: Page, target: Frame) -> None:
        """The shared frame isn't taken."""
        self.holder.release(target)

    def give(self, page: Page, target: Frame) -> None:
        """The page's frame may be held by others from now on."""
        self.collapse(page)
        page.is_shared = True
        self.spares.append(target)

    def take(self, number: int) -> None:
        """The operation of the move ends it, and the page lies on the shared frame. A frame of its own is spare."""
        page = self.pages[number]
        assert page.move.kind is Kind.TAKE_SHARED and not page.move.waiting
        self.collapse(page)
        if page.is_shared:
            self.holder.release(page.master)
        else:
            self.spares.append(page.master)
        page.master, page.is_shared = page.move.target, True
        self.taken[type(page.move.operation)] += 1
        self.close(number)

    # the end

    def let_all_go(self) -> None:
        """Shared frames that are being taken are let go, whoever is waited for."""
        for number in sorted(self.moving):
            if self.pages[number].move.kind is Kind.TAKE_SHARED:
                self.pages[number].move.waiting.clear()
                self.finish(number)

    def end(self) -> None:
        """The guest has ended, and gives all its frames back."""
        self.let_all_go()
        for frame in self.held():
            self.holder.release(frame)
        self.pages, self.spares, self.moving = [], [], set()

    def needed(self) -> list[Frame]:
        """Each frame without which the guest can't go on, once for each place in which it stands."""
        targets = [page.move.target for page in self.pages if page.move is not None and page.move.target is not None]
        return [*(page.master for page in self.pages), *targets, *self.spares]

    def held(self) -> list[Frame]:
        """Each frame, once for each place in which it stands."""
        return [*self.needed(), *(frame for page in self.pages for frame in page.replicas)]


FINISHES = {
    Kind.MIGRATE: Pages.migrate,
    Kind.REPLICATE: Pages.replicate,
    Kind.COLLAPSE: Pages.collapse,
    Kind.BREAK: Pages.own,
    Kind.TAKE_SHARED: Pages.let_go,
    Kind.GIVE_SHARED: Pages.give,
}
