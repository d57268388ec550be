#!/usr/bin/env python3
"""Turns of two processors of one guest, in an order that is told, each with what has to come of it.

    python3 bench/reference_turns.py

A guest of two virtual processors reads blocks and gets pages while both processors may name the page. Each turn's answer was derived by
hand. Ends with an error at the first one that is another.
"""

from __future__ import annotations

import sys
from collections.abc import Callable
from random import Random

from generator.assembler import KERNEL
from reference import Ask, Collapse, DiskFile, Fail, Input, Machine, Migrate, Monitor, Policy, Replicate, Run, Start
from reference.audit import Audit
from reference.host import Answer, Seat
from reference.moves import Kind
from rows.programs import COUNTS, FIVE_READS, PRINTS_A, READS_A_BLOCK, SENDS_A_PAGE
from rows.writing import listing, words

BLOCK = b"a".rjust(4, b"\0").ljust(4096, b"\0")

FIVE_LOADS = words(FIVE_READS)  # from page 1

# virtual processor 1 goes to the second part
FIRST_PART = """
    lw    r8, 0x10(r16)
    bne   r8, zero, other
    nop
"""

ARMS = """
    addiu r8, zero, 2
    sw    r8, 0x3C(r16)
"""

READS = """
    addiu r8, zero, 2
    sw    r8, 0x24(r16)
    addiu r9, zero, 1
    sw    r9, 0x28(r16)       # block 0 comes into page 2
"""

LOADS = """
other:
    lw    r11, 0x2000(r10)
    j     other
    nop
"""


class Pair:
    """A guest of two virtual processors, each loaded on a processor of its own, beside a guest that sends page 2 whole to it."""

    def __init__(self, first: str, second: str = LOADS, nodes: int = 1) -> None:
        image = listing(FIRST_PART + first + second)
        pair = Start(image, KERNEL, 4, 2, DiskFile("d", BLOCK))
        sender = Start(SENDS_A_PAGE, KERNEL, 4, 1)
        machine = Machine([range(nodes)], 16, [0, 0], [0, 0], cache=1)
        self.monitor = Monitor([sender, pair], [0, 0], machine, Policy())
        self.audit = Audit(self.monitor)
        self.guest = self.monitor.guests[1]
        self.pages = self.guest.host.pages
        self.seats = [self.guest.host.load(number, number) for number in range(2)]

    def turn(self, number: int) -> Answer:
        """A turn of one of the two."""
        seat: Seat = self.seats[number]
        answer = self.guest.turn(seat)
        self.monitor.watch(self.guest, seat, answer)
        self.audit.look_at_guest(self.guest)
        self.audit.look_at_frames()
        return answer

    def expect(self, number: int, *answers: Answer) -> None:
        """The next turns of one of the two."""
        for answer in answers:
            found = self.turn(number)
            assert found is answer, f"{found} in the place of {answer}"

    def until(self, number: int, answer: Answer) -> None:
        """Turns of one of the two, up to one with this answer."""
        while self.turn(number) is not answer:
            pass

    def step(self, number: int, steps: int) -> None:
        for _ in range(steps):
            self.until(number, Answer.STEPPED)

    def send(self) -> None:
        """The sender sends its page."""
        for _ in self.monitor.run(Run(0, 0, 11)):
            pass

    def close(self) -> None:
        for seat in list(self.guest.host.seats.values()):
            self.guest.host.unload(seat)
        self.monitor.close()
        self.audit.look_at_end()

    def counts(self) -> tuple[int, int]:
        """How many shared frames were taken, and how many let go."""
        return self.pages.shared, self.pages.finished[Kind.TAKE_SHARED]


def reads_while_the_other_loads() -> Pair:
    """Processor 1 has loaded from page 2, into which processor 0 begins to read a block."""
    pair = Pair(READS)
    pair.step(1, 7)
    assert pair.pages[2].mapped == {1}
    pair.until(0, Answer.BEGUN)
    return pair


def a_read_waits_for_the_other_processor() -> None:
    pair = reads_while_the_other_loads()
    pair.expect(0, Answer.WAITS, Answer.WAITS)
    pair.expect(1, Answer.ACKNOWLEDGED)
    pair.expect(0, Answer.STEPPED)
    assert pair.counts() == (1, 0) and pair.pages[2].is_shared and len(pair.pages.spares) == 1
    pair.close()


def another_access_ends_the_move() -> None:
    """Processor 1 loads once more before the read is made, which begins anew."""
    pair = reads_while_the_other_loads()
    pair.expect(1, Answer.ACKNOWLEDGED, Answer.STEPPED, Answer.STEPPED, Answer.FINISHED)
    assert pair.counts() == (0, 1) and not pair.pages[2].is_shared
    pair.expect(1, Answer.REFILLED, Answer.STEPPED)
    pair.expect(0, Answer.BEGUN, Answer.WAITS)
    pair.expect(1, Answer.ACKNOWLEDGED)
    pair.expect(0, Answer.STEPPED)
    assert pair.counts() == (1, 1) and pair.monitor.frames.counts[0] == 2
    pair.close()


def the_plan_ends_the_move() -> None:
    """A processor that asks for a move of the page ends what is in its way."""
    pair = reads_while_the_other_loads()
    pair.expect(1, Answer.ACKNOWLEDGED)
    assert list(pair.monitor.ask(Ask(0, 1, Collapse(2)))) == [Answer.FINISHED]
    assert pair.counts() == (0, 1) and pair.pages.skips == 1
    pair.close()


WRITES_THE_BLOCK = """
other:
    lw    r11, 0x2000(r10)
    addiu r8, zero, 1
    sw    r8, 0x24(r16)
    addiu r9, zero, 2
    sw    r9, 0x28(r16)       # page 1 becomes block 0
"""


def a_block_is_written_before_it_is_read() -> None:
    """The read that began to share the block isn't that operation any more, and copies."""
    pair = Pair(READS, WRITES_THE_BLOCK)
    pair.step(1, 7)
    pair.until(0, Answer.BEGUN)
    pair.expect(1, Answer.ACKNOWLEDGED)
    pair.step(1, 4)
    pair.expect(0, Answer.FINISHED, Answer.STEPPED)
    assert pair.counts() == (0, 1) and not pair.pages[2].is_shared
    pair.close()


SENDS_THE_PAGE = """
other:
    lw    r11, 0x2000(r10)
    addiu r8, zero, 2
    sw    r8, 0x30(r16)
    addiu r9, zero, 4
    sw    r9, 0x34(r16)
    sw    zero, 0x38(r16)     # four bytes of page 2 go to guest 0
"""


def a_send_waits_and_ends_the_move() -> None:
    """A send is an access to its page, though no processor's TLB is asked."""
    pair = Pair(READS, SENDS_THE_PAGE)
    pair.step(1, 11)
    pair.until(0, Answer.BEGUN)
    pair.expect(1, Answer.ACKNOWLEDGED, Answer.FINISHED, Answer.STEPPED)
    pair.close()


WRITES_THE_PAGE = """
other:
    lw    r11, 0x2000(r10)
    addiu r8, zero, 2
    sw    r8, 0x24(r16)
    sw    r8, 0x28(r16)       # page 2 becomes block 0
"""


def a_disk_write_ends_the_move() -> None:
    """So is a disk write, by which the read isn't that operation any more besides."""
    pair = Pair(READS, WRITES_THE_PAGE)
    pair.step(1, 9)
    pair.until(0, Answer.BEGUN)
    pair.expect(1, Answer.ACKNOWLEDGED, Answer.FINISHED, Answer.STEPPED)
    pair.expect(0, Answer.STEPPED)
    assert pair.counts() == (0, 1)
    pair.close()


IS_INTERRUPTED = """
    lui   r8, 0xC000
    ori   r8, r8, 0x180
    lui   r9, 0xAE00
    ori   r9, r9, 4
    sw    r9, 0(r8)           # the handler halts
    ori   r8, zero, 0x1001
    mtc0  r8, status
"""

INTERRUPTS_AND_HALTS = """
other:
    lw    r11, 0x2000(r10)
    addiu r8, zero, 1
    sw    r8, 0x18(r16)       # interrupts virtual processor 0
    sw    zero, 4(r16)
"""


def a_guest_ends_with_an_open_move() -> None:
    """An interrupt comes before the read, its handler halts, and the other one halts too."""
    pair = Pair(IS_INTERRUPTED + READS, INTERRUPTS_AND_HALTS)
    pair.step(1, 7)
    pair.until(0, Answer.BEGUN)
    pair.expect(0, Answer.WAITS)
    pair.expect(1, Answer.ACKNOWLEDGED, Answer.STEPPED, Answer.STEPPED, Answer.STEPPED)
    pair.step(0, 2)
    pair.expect(0, Answer.ENDED)
    assert pair.counts() == (0, 1) and not pair.pages.skips
    pair.close()


WAITS_FOR_A_PACKET = """
wait:
    lw    r9, 0x40(r16)
    beq   r9, zero, wait
    nop
"""


def a_packet_waits_for_the_other_processor() -> None:
    """The first turn after the acknowledgement receives it, whoever makes it."""
    pair = Pair(ARMS + WAITS_FOR_A_PACKET)
    pair.step(1, 7)
    pair.step(0, 8)
    pair.send()
    pair.expect(0, Answer.STEPPED)
    assert pair.pages[2].move.waiting == {1} and not pair.guest.received
    pair.expect(0, Answer.STEPPED)
    pair.expect(1, Answer.ACKNOWLEDGED)
    assert not pair.guest.received
    pair.expect(0, Answer.STEPPED)
    assert len(pair.guest.received) == 1 and pair.counts() == (1, 0)
    pair.close()


ARMS_ANOTHER = """
    addiu r8, zero, 3
    sw    r8, 0x3C(r16)
    nop
    addiu r8, zero, 2
    sw    r8, 0x3C(r16)
    nop
"""


def another_page_is_armed_meanwhile() -> None:
    """The packet's move of the page that was armed is nobody's own any more; the packet asks for the other page."""
    pair = Pair(ARMS + ARMS_ANOTHER)
    pair.step(1, 7)
    pair.step(0, 8)
    pair.send()
    pair.step(0, 2)
    assert pair.pages[2].move is not None and pair.pages[3].move is None
    pair.expect(0, Answer.STEPPED)
    assert len(pair.guest.received) == 1 and pair.pages[3].is_shared and pair.pages[2].move is not None
    pair.expect(1, Answer.ACKNOWLEDGED)
    pair.until(1, Answer.FINISHED)
    assert pair.counts() == (1, 1)
    pair.close()


def a_packet_ends_the_move_of_a_read() -> None:
    """The armed page is that of a read which has begun: the packet comes first, and the read begins anew."""
    pair = Pair(ARMS + READS)
    pair.step(0, 11)
    pair.expect(0, Answer.BEGUN)
    pair.send()
    pair.expect(0, Answer.BEGUN)
    assert len(pair.guest.received) == 1 and pair.counts() == (1, 1)
    pair.expect(0, Answer.STEPPED)
    assert pair.counts() == (2, 1) and pair.monitor.frames.counts[0] == 2
    pair.close()


LOADS_THE_ARMED_PAGE = ARMS + """
    lw    r11, 0x2000(r10)
"""


def a_page_is_armed_and_loaded_at_once() -> None:
    """The packet that is on the wire is received before the load."""
    pair = Pair(LOADS_THE_ARMED_PAGE)
    pair.send()
    pair.step(0, 8)
    pair.expect(0, Answer.REFILLED, Answer.STEPPED)
    assert len(pair.guest.received) == 1 and pair.counts() == (1, 0)
    pair.close()


def one_frame_is_held_by_three_guests() -> None:
    """The count of a kept block's frame, while three guests share it and after their ends."""
    starts = [Start(READS_A_BLOCK, KERNEL, 4, 1, DiskFile("d", BLOCK)) for _ in range(3)]
    monitor = Monitor(starts, [0] * 3, Machine([[0]], 13, [0] * 3, [0], cache=1), Policy())
    for steps, count in ((7, 4), (8, 1)):
        for number in range(3):
            assert [*monitor.run(Run(number, 0, steps))].count(Answer.STEPPED) == steps
        assert monitor.frames.counts[0] == count


def a_packet_is_taken_by_a_halted_virtual_processors_turn() -> None:
    """It is loaded, and its one turn asks for packets as others do."""
    waits = ARMS + "    sw    zero, 4(r16)\n"
    pair = Pair(waits)
    pair.step(0, 9)
    pair.send()
    pair.expect(0, Answer.HALTED)
    assert len(pair.guest.received) == 1
    pair.close()


LOADS_THE_QUEUE = """
other:
    lw    r11, 0x0C(r16)      # how many bytes are queued
    j     other
    nop
"""


def input_joins_with_the_step() -> None:
    """A step that is put off by a refill brings no input yet, of which the other virtual processor would see something."""
    pair = Pair("    lw    r11, 0x2000(r10)\n", LOADS_THE_QUEUE)
    pair.guest.guest.devices.inputs.append(Input(6, b"ab"))
    pair.audit.private[1].devices.inputs.append(Input(6, b"ab"))
    pair.step(0, 6)
    pair.expect(0, Answer.REFILLED)
    for steps, queued in ((7, 0), (3, 2)):
        pair.step(1, steps)
        assert pair.guest.guest.processors[1].registers[11] == queued
        pair.step(0, 1)
    pair.close()


def a_processor_that_does_nothing_is_waited_for() -> None:
    """Page 2 is to have its replicas let go while processor 1 may name it."""
    pair = Pair("    lw    r11, 0x2000(r10)\n", nodes=2)
    assert list(pair.monitor.ask(Ask(0, 1, Replicate(2, 1)))) == [Answer.FINISHED]
    pair.step(1, 7)
    pair.step(0, 6)
    asked = pair.monitor.ask(Ask(0, 1, Collapse(2)))
    assert next(asked) is Answer.WAITS
    pair.expect(0, *[Answer.WAITS] * 100)
    pair.expect(1, Answer.ACKNOWLEDGED, Answer.FINISHED, Answer.STEPPED)
    assert not list(asked)
    pair.expect(0, Answer.REFILLED, Answer.STEPPED)
    pair.close()


def a_step_meets_a_replica_in_a_failed_cell() -> None:
    """The processor of node 2 reads page 1 by the replica on node 1, whose cell fails. The guest goes on, and its next load collapses the page."""
    machine = Machine([[0], [1], [2]], 8, [0], [2], lends=[0, 1, 0])
    monitor = Monitor([Start(FIVE_LOADS, KERNEL, 4, 1)], [0], machine, Policy())
    audit = Audit(monitor)
    guest = monitor.guests[0]
    assert list(monitor.ask(Ask(0, 0, Replicate(1, 1)))) == [Answer.FINISHED]
    seat = guest.host.load(0, 0)

    def expect(*answers: Answer) -> None:
        for answer in answers:
            assert guest.turn(seat) is answer
            monitor.watch(guest, seat, answer)

    expect(Answer.REFILLED, Answer.STEPPED, Answer.REFILLED, Answer.STEPPED)
    assert not guest.host.uses(1)
    assert list(monitor.fail(Fail(0, 1))) == [Answer.CELL_FAILED]
    assert not guest.has_ended
    expect(Answer.BEGUN, Answer.ACKNOWLEDGED, Answer.FINISHED, Answer.REFILLED, Answer.STEPPED)
    assert not guest.host.pages[1].replicas
    guest.host.unload(seat)
    monitor.close()
    audit.look_at_end()


class Prints:
    """Two guests that print, at home in cell 0, and processors 0 and 1 of cells 0 and 1; guest 0 is loaded on one."""

    def __init__(self, processor: int) -> None:
        machine = Machine([[0], [1]], 16, [0, 0], [0, 1], lends=[0, 4])
        self.monitor = Monitor([Start(PRINTS_A, KERNEL, 4, 1)] * 2, [0, 0], machine, Policy())
        self.audit = Audit(self.monitor)
        self.guest = self.monitor.guests[0]
        self.seat = self.guest.host.load(processor, 0)

    def expect(self, *answers: Answer) -> None:
        for answer in answers:
            assert self.guest.turn(self.seat) is answer
            self.monitor.watch(self.guest, self.seat, answer)

    def fail(self) -> None:
        """Cell 1 fails."""
        assert list(self.monitor.fail(Fail(0, 1))) == [Answer.CELL_FAILED] * 2
        self.audit.look_at_guest(self.guest)
        self.audit.look_at_frames()

    def close(self, killer: int | None) -> None:
        """Guest 0 has ended so, and guest 1 by the end of the plan."""
        self.guest.host.unload(self.seat)
        self.monitor.close()
        assert [monitored.killer for monitored in self.monitor.guests] == [killer, None]
        self.audit.look_at_end()


def a_guest_ends_that_is_loaded_in_the_cell() -> None:
    """All its frames lie in cell 0, and it has made its first step."""
    prints = Prints(processor=1)
    prints.expect(Answer.REFILLED, Answer.STEPPED)
    prints.fail()
    prints.expect(Answer.ENDED)
    assert prints.guest.steps == 1
    prints.close(killer=1)


def a_guest_goes_on_that_was_loaded_in_the_cell_before() -> None:
    """It makes its last steps on processor 0, and on processor 1 none any more."""
    prints = Prints(processor=1)
    prints.expect(Answer.REFILLED, Answer.STEPPED)
    prints.guest.host.unload(prints.seat)
    prints.fail()
    assert not list(prints.monitor.run(Run(0, 0, 5, 1)))
    prints.seat = prints.guest.host.load(0, 0)
    prints.expect(Answer.REFILLED, *[Answer.STEPPED] * 4, Answer.ENDED)
    prints.close(killer=None)


def a_guest_ends_whose_page_is_about_to_move_there() -> None:
    """The frame is held from the move's begin on, though the page is copied only once processor 0 has dropped it."""
    prints = Prints(processor=0)
    prints.expect(Answer.REFILLED, Answer.STEPPED)
    asked = prints.monitor.ask(Ask(1, 0, Migrate(0, 1)))
    assert next(asked) is Answer.WAITS and prints.monitor.frames.loans == [0, 1]
    prints.fail()
    assert not list(asked) and prints.monitor.frames.loans == [0, 0]
    assert not prints.guest.host.pages.moves and not prints.guest.host.pages.skips
    prints.expect(Answer.ENDED)
    prints.close(killer=1)


def two_virtual_processors_count_while_their_page_moves() -> None:
    """In any order of turns none of the thousand additions of each is lost."""
    runs = [Run(0, number, 100_000, number) for number in range(2)]
    moves = [Ask(2, 0, Migrate(1, node)) for node in (1, 0)] * 5
    for policy in (Policy(), Policy(migrate=2, replicate=3)):
        for schedule in range(4):
            start = Start(COUNTS, KERNEL, 4, 2)
            monitor = Monitor([start], [0], Machine([[0, 1]], 16, [0], [0, 0, 1]), policy)
            audit = Audit(monitor)
            monitor.carry_out_mixed([*runs, *moves], Random(schedule))
            audit.look_at_end()
            assert monitor.report().startswith(b"guest 0 console 1\nY\nend halted\n")
            assert monitor.guests[0].host.pages.moves + monitor.guests[0].host.pages.skips >= 10


READS_ITSELF = """
    addiu r9, zero, 1
    sw    r9, 0x28(r16)       # block 0, which is this page, comes into page 0
    sw    zero, 4(r16)
"""


def a_read_into_the_page_of_its_own_instruction_is_copied() -> None:
    """The fetch is another access than the read, and would end a move of the page each time before it."""
    image = listing(READS_ITSELF)
    start = Start(image, KERNEL, 4, 1, DiskFile("d", image))
    for cache in (0, 1):
        monitor = Monitor([start], [0], Machine([[0]], 5, [0], [0], cache=cache), Policy())
        monitor.carry_out([Run(0, 0, 20)])
        assert monitor.guests[0].guest.has_halted()
        assert monitor.guests[0].host.pages.shared == 0


TURNS: list[Callable[[], None]] = [
    a_read_waits_for_the_other_processor,
    another_access_ends_the_move,
    the_plan_ends_the_move,
    a_block_is_written_before_it_is_read,
    a_send_waits_and_ends_the_move,
    a_disk_write_ends_the_move,
    a_guest_ends_with_an_open_move,
    a_packet_waits_for_the_other_processor,
    another_page_is_armed_meanwhile,
    a_packet_ends_the_move_of_a_read,
    a_page_is_armed_and_loaded_at_once,
    one_frame_is_held_by_three_guests,
    a_packet_is_taken_by_a_halted_virtual_processors_turn,
    input_joins_with_the_step,
    a_processor_that_does_nothing_is_waited_for,
    a_step_meets_a_replica_in_a_failed_cell,
    a_guest_ends_that_is_loaded_in_the_cell,
    a_guest_goes_on_that_was_loaded_in_the_cell_before,
    a_guest_ends_whose_page_is_about_to_move_there,
    two_virtual_processors_count_while_their_page_moves,
    a_read_into_the_page_of_its_own_instruction_is_copied,
]


def main() -> int:
    for turns in TURNS:
        turns()
        print(turns.__name__.replace("_", " "))
    return 0


if __name__ == "__main__":
    sys.exit(main())
