"""What is on its way between guests."""

from __future__ import annotations

from collections import deque
from dataclasses import dataclass

from .devices import Packet
from .frames import Frame

WIRE_PACKETS = 64


@dataclass(frozen=True)
class Arrival:
    """A packet that was taken from a wire."""

    sender: int
    data: bytes
    frame: Frame | None
    cell: int  # from which it was sent


class Wires:
    """A queue of packets from each guest to each other one. A packet for which there is no room is lost."""

    def __init__(self, guests: int) -> None:
        self.queues = {
            (sender, receiver): deque[Packet]() for sender in range(guests) for receiver in range(guests) if sender != receiver
        }
        self.guests = guests

    def put(self, sender: int, packet: Packet) -> None:
        queue = self.queues.get((sender, packet.receiver))
        if queue is not None and len(queue) < WIRE_PACKETS:
            queue.append(packet)

    def take(self, receiver: int, last_sender: int) -> Arrival | None:
        """The next packet to a guest. The wires are asked in order of sender, beginning after the last one taken from."""
        for step in range(1, self.guests + 1):
            sender = (last_sender + step) % self.guests
            queue = self.queues.get((sender, receiver))
            if queue:
                packet = queue.popleft()
                return Arrival(sender, packet.data, packet.frame, packet.cell)
        return None
