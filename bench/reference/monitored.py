"""A guest under the monitor: its turns, and the packets that come in."""

from __future__ import annotations

from .host import Answer, Host, PutOff, Seat
from .machine import Guest, Start
from .moves import Delivery
from .wires import Arrival, Wires

MOST_CALLS = 4  # by which a turn asks for a packet


class Monitored:
    """A guest under the monitor, from its boot to its end."""

    def __init__(self, number: int, start: Start, host: Host, wires: Wires) -> None:
        self.number = number
        self.guest = Guest(start, host)
        self.host = host
        self.wires = wires
        self.in_hand: Arrival | None = None
        self.last_sender = number  # whose packet was taken last
        self.has_ended = False
        self.killer: int | None = None  # the cell by whose failure it ended
        self.steps = 0
        self.received: list[Arrival] = []
        self.discarded: list[Arrival] = []
        self.was_armed = False

    def is_loaded(self, virtual: int) -> bool:
        return any(seat.loaded == virtual for seat in self.host.seats.values())

    def may_be_loaded(self, processor: int) -> bool:
        """Whether it hasn't ended, and the cell of a processor of the machine hasn't failed for it."""
        return not self.has_ended and not self.host.is_dead_processor(processor)

    # turns

    def turn(self, seat: Seat) -> Answer:
        """What is due is asked for, then a packet may come, and then one event."""
        if seat.due is not None:
            self.host.ask(seat.processor, seat.due)
        for _ in range(MOST_CALLS):
            if self.packet_in() not in (Answer.BEGUN, Answer.FINISHED):
                break
        return self.event(seat)

    def event(self, seat: Seat) -> Answer:
        """The first that applies."""
        if self.has_ended:
            return Answer.ENDED
        answer = self.host.errand(seat) if self.host.pages.moving else None
        if answer is not None:
            return answer
        return Answer.HALTED if self.guest.processors[seat.loaded].halted else self.step(seat)

    def step(self, seat: Seat) -> Answer:
        devices = self.guest.devices
        sent = len(devices.sent)
        self.host.seat = seat
        try:
            self.guest.step(seat.loaded)
        except PutOff as put_off:
            return put_off.answer
        self.steps += 1
        self.was_armed |= devices.armed is not None
        if len(devices.sent) > sent:
            self.wires.put(self.number, devices.sent[-1])
        if self.guest.processors[seat.loaded].halted and self.guest.has_halted():
            self.end()
        return Answer.STEPPED

    # packets

    def packet_in(self) -> Answer:
        """A packet comes in where the guest has armed a page and hasn't ended. One from a dead cell is thrown away."""
        armed = self.guest.devices.armed
        if armed is None or self.has_ended:
            return Answer.NOT_ARMED
        if self.in_hand is None:
            self.in_hand = self.wires.take(self.number, self.last_sender)
        if self.in_hand is None:
            return Answer.NONE_IN_HAND
        self.last_sender = self.in_hand.sender
        if self.in_hand.cell in self.host.dead:
            return self.discard(self.in_hand)
        delivery = Delivery(len(self.received) + len(self.discarded))
        return self.host.make_way(armed, self.in_hand.frame, delivery) or self.receive(self.in_hand)

    def discard(self, packet: Arrival) -> Answer:
        self.discarded.append(packet)
        self.in_hand = None
        return Answer.DISCARDED

    def receive(self, packet: Arrival) -> Answer:
        self.guest.devices.receive(packet.sender, packet.data)
        self.received.append(packet)
        self.in_hand = None
        return Answer.DELIVERED

    # cells that fail

    def cell_fails(self, cell: int) -> Answer:
        """A guest that uses the cell ends; another one goes on without it."""
        if not self.has_ended and self.host.uses(cell):
            self.killer = cell
            self.end()
        self.host.dead.add(cell)
        return Answer.CELL_FAILED

    # ends

    def take_last_packet(self) -> None:
        """Once the plan is done."""
        while self.packet_in() in (Answer.BEGUN, Answer.FINISHED, Answer.DISCARDED):
            pass

    def end_by_budget(self) -> None:
        self.host.finish_all_ready()
        self.end()

    def end(self) -> None:
        self.has_ended = True
        self.host.end()
