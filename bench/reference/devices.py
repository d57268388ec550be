"""The device page: console, input, disk, packets, and interrupts between virtual processors."""

from __future__ import annotations

from collections import deque
from collections.abc import Callable, Iterable
from dataclasses import dataclass
from typing import TYPE_CHECKING

from .coprocessor import INPUT_INTERRUPT, PACKET_INTERRUPT, PROCESSOR_INTERRUPT
from .words import WORD

if TYPE_CHECKING:
    from .frames import Frame
    from .machine import Guest
    from .processor import VirtualProcessor

PAGE = 4096
NONE = WORD  # what is read where there is no input byte, or no armed page

READ_BLOCK, WRITE_BLOCK = 1, 2
DONE, NO_BLOCK, NO_PAGE, NO_COMMAND = 0, 1, 2, 3


@dataclass
class Transfer:
    """What a virtual processor has set for its disk commands and its sends."""

    block: int = 0
    disk_page: int = 0
    status: int = 0
    send_page: int = 0
    send_length: int = 0


@dataclass(frozen=True)
class Input:
    """Bytes that are typed once virtual processor 0 has made so many steps."""

    at: int
    text: bytes


@dataclass(frozen=True)
class DiskFile:
    """A file of blocks, which guests share that name it."""

    name: str
    content: bytes


@dataclass(frozen=True)
class Packet:
    """What a guest sent, to which number, and the frame that has the same bytes where the whole page is handed on."""

    receiver: int
    data: bytes
    frame: Frame | None = None
    cell: int | None = None  # in which the page's frame lay then


class Devices:
    """What the device page keeps for the whole guest."""

    def __init__(self, guest: Guest, disk: DiskFile | None, inputs: Iterable[Input]) -> None:
        self.guest = guest
        self.console = bytearray()
        self.inputs = deque(sorted(inputs, key=lambda entry: entry.at))
        self.queue: deque[int] = deque()
        self.disk = None if disk is None else blocks_of(disk.content)
        self.own_blocks = set[int]()  # that the guest has written
        self.sent: list[Packet] = []
        self.armed: int | None = None
        self.packet_length = 0
        self.packet_sender = 0

    def load(self, processor: VirtualProcessor, offset: int) -> int | None:
        """What a load answers; None where there is no such register."""
        register = REGISTERS.get(offset)
        return None if register is None else register.load(self, processor)

    def store(self, processor: VirtualProcessor, offset: int, value: int) -> bool:
        """Does what a store does; false where there is no such register."""
        register = REGISTERS.get(offset)
        if register is None:
            return False
        register.store(self, processor, value)
        return True

    def join_input(self, steps: int) -> list[Input]:
        """The input that is due after so many steps of virtual processor 0 joins the queue."""
        joined = []
        while self.inputs and self.inputs[0].at <= steps:
            joined.append(self.inputs.popleft())
            self.queue.extend(joined[-1].text)
        self.signal_input()
        return joined

    def take_back(self, joined: list[Input]) -> None:
        """The input that joined last hasn't joined after all."""
        for entry in reversed(joined):
            self.inputs.appendleft(entry)
            for _ in entry.text:
                self.queue.pop()
        self.signal_input()

    def signal_input(self) -> None:
        """Virtual processor 0 has its input interrupt as long as a byte is queued."""
        self.guest.processors[0].coprocessor.set_line(INPUT_INTERRUPT, bool(self.queue))

    # what a load answers

    def nothing(self, processor: VirtualProcessor) -> int:
        return 0

    def take_byte(self, processor: VirtualProcessor) -> int:
        byte = self.queue.popleft() if self.queue else NONE
        self.signal_input()
        return byte

    def queued(self, processor: VirtualProcessor) -> int:
        return len(self.queue) & WORD

    def armed_page(self, processor: VirtualProcessor) -> int:
        return NONE if self.armed is None else self.armed

    # what a store does

    def ignore(self, processor: VirtualProcessor, value: int) -> None:
        pass

    def print_byte(self, processor: VirtualProcessor, value: int) -> None:
        self.console.append(value & 0xFF)

    def halt(self, processor: VirtualProcessor, value: int) -> None:
        processor.halted = True

    def interrupt_processors(self, processor: VirtualProcessor, value: int) -> None:
        """Each virtual processor whose bit is set; bits of others say nothing."""
        for other in self.guest.processors:
            if value >> other.number & 1:
                other.coprocessor.set_line(PROCESSOR_INTERRUPT, True)

    def answer_processors(self, processor: VirtualProcessor, value: int) -> None:
        processor.coprocessor.set_line(PROCESSOR_INTERRUPT, False)

    def set_block(self, processor: VirtualProcessor, value: int) -> None:
        processor.transfer.block = value

    def set_disk_page(self, processor: VirtualProcessor, value: int) -> None:
        processor.transfer.disk_page = value

    def command_disk(self, processor: VirtualProcessor, value: int) -> None:
        status = self.disk_status(processor.transfer, value)
        if status == DONE:
            move = self.read_block if value == READ_BLOCK else self.write_block
            move(processor, processor.transfer.block, processor.transfer.disk_page)
        processor.transfer.status = status

    def read_block(self, processor: VirtualProcessor, block: int, page: int) -> None:
        self.guest.watcher.block_comes(processor, page, block, block in self.own_blocks)
        self.guest.replace_page(page, self.disk[block])

    def write_block(self, processor: VirtualProcessor, block: int, page: int) -> None:
        self.guest.watcher.block_goes(processor, page)
        self.disk[block] = self.guest.page(page)
        self.own_blocks.add(block)

    def disk_status(self, transfer: Transfer, command: int) -> int:
        """The first reason against a command, or that there is none."""
        if command not in (READ_BLOCK, WRITE_BLOCK):
            return NO_COMMAND
        if self.disk is None or transfer.block >= len(self.disk):
            return NO_BLOCK
        if transfer.disk_page >= self.guest.pages:
            return NO_PAGE
        return DONE

    def set_send_page(self, processor: VirtualProcessor, value: int) -> None:
        processor.transfer.send_page = value

    def set_send_length(self, processor: VirtualProcessor, value: int) -> None:
        processor.transfer.send_length = value

    def send(self, processor: VirtualProcessor, value: int) -> None:
        """The first bytes of a page go to a guest; nothing does where the page isn't there, or the length isn't one to a whole page."""
        page, length = processor.transfer.send_page, processor.transfer.send_length
        if page < self.guest.pages and 1 <= length <= PAGE:
            frame = self.guest.watcher.page_goes(processor, page, length, value)
            cell = self.guest.watcher.cell_of_page(page)
            self.sent.append(Packet(value, self.guest.page(page)[:length], frame, cell))

    def arm(self, processor: VirtualProcessor, value: int) -> None:
        """The next packet comes into that page; a number of no page disarms."""
        self.armed = value if value < self.guest.pages else None

    def answer_packet(self, processor: VirtualProcessor, value: int) -> None:
        self.guest.processors[0].coprocessor.set_line(PACKET_INTERRUPT, False)

    def receive(self, sender: int, data: bytes) -> None:
        """A packet comes into the armed page."""
        self.guest.replace_page(self.armed, data)
        self.packet_length, self.packet_sender = len(data), sender
        self.guest.processors[0].coprocessor.set_line(PACKET_INTERRUPT, True)
        self.armed = None


@dataclass(frozen=True)
class Register:
    """A register of the device page."""

    load: Callable[[Devices, VirtualProcessor], int] = Devices.nothing
    store: Callable[[Devices, VirtualProcessor, int], None] = Devices.ignore


REGISTERS = {
    0x00: Register(store=Devices.print_byte),
    0x04: Register(store=Devices.halt),
    0x08: Register(load=Devices.take_byte),
    0x0C: Register(load=Devices.queued),
    0x10: Register(load=lambda devices, processor: processor.number),
    0x14: Register(load=lambda devices, processor: len(devices.guest.processors)),
    0x18: Register(store=Devices.interrupt_processors),
    0x1C: Register(store=Devices.answer_processors),
    0x20: Register(load=lambda devices, processor: processor.transfer.block, store=Devices.set_block),
    0x24: Register(load=lambda devices, processor: processor.transfer.disk_page, store=Devices.set_disk_page),
    0x28: Register(store=Devices.command_disk),
    0x2C: Register(load=lambda devices, processor: processor.transfer.status),
    0x30: Register(load=lambda devices, processor: processor.transfer.send_page, store=Devices.set_send_page),
    0x34: Register(load=lambda devices, processor: processor.transfer.send_length, store=Devices.set_send_length),
    0x38: Register(store=Devices.send),
    0x3C: Register(load=Devices.armed_page, store=Devices.arm),
    0x40: Register(load=lambda devices, processor: devices.packet_length),
    0x44: Register(load=lambda devices, processor: devices.packet_sender),
    0x48: Register(store=Devices.answer_packet),
}


def blocks_of(disk: bytes) -> list[bytes]:
    """A disk's blocks, the last one filled with zeros."""
    blocks = [disk[begin : begin + PAGE] for begin in range(0, len(disk), PAGE)]
    return [block.ljust(PAGE, b"\0") for block in blocks]
