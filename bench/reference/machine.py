"""A guest as it sees itself: memory, virtual processors and devices, and the step of a virtual processor."""

from __future__ import annotations

from collections import Counter
from dataclasses import dataclass

from .devices import PAGE, Devices, DiskFile, Input
from .exceptions import Code, GuestException, coprocessor_unusable
from .frames import Frame
from .instructions import Decoded
from .opcode_maps import decode
from .processor import VirtualProcessor
from .tlb import Entry, Use

DEVICE_PAGE = 0xFFFF


@dataclass(frozen=True)
class Start:
    """What a guest is started from. The image lies at the beginning of its memory, and zeros behind it."""

    image: bytes
    entry: int
    pages: int
    processors: int
    disk: DiskFile | None = None
    inputs: tuple[Input, ...] = ()
    profile: int = 1


class StepPutOff(Exception):
    """A watcher has done something in the place of a step, of which nothing was done. It is begun anew later."""


class Watcher:
    """Who is told of what the guest doesn't see itself, and may put the step off. This one does nothing."""

    def fetched(self, processor: VirtualProcessor, address: int, place: int) -> None:
        """The virtual processor may fetch at this address, and this place of memory is there."""

    def accessed(self, processor: VirtualProcessor, address: int, place: int, use: Use) -> None:
        """It may use data at this address so, and this place of memory is there."""

    def loaded(self, place: int) -> None:
        """An instruction loads from this place, or would have stored there conditionally."""

    def stored(self, place: int) -> None:
        """An instruction stores to this place."""

    def block_comes(self, processor: VirtualProcessor, page: int, block: int, is_own: bool) -> None:
        """The instruction of the virtual processor is about to read a block into this page, which the guest has written or not."""

    def block_goes(self, processor: VirtualProcessor, page: int) -> None:
        """It is about to write a block from this page."""

    def page_goes(self, processor: VirtualProcessor, page: int, length: int, receiver: int) -> Frame | None:
        """It is about to send so much of this page to a guest of that number. The frame with which all of it can be handed on."""
        return None

    def cell_of_page(self, page: int) -> int | None:
        """The cell in which a page lies. A guest alone has none."""
        return None

    def tlb_written(self, processor: VirtualProcessor, old: Entry, new: Entry) -> None:
        """An entry of its TLB is replaced."""


@dataclass
class Coverage:
    """What was carried out: how often each instruction, and how often each exception came."""

    instructions: Counter[str]
    exceptions: Counter[Code]

    @staticmethod
    def none() -> Coverage:
        return Coverage(Counter(), Counter())

    def add(self, other: Coverage) -> None:
        self.instructions += other.instructions
        self.exceptions += other.exceptions


class Guest:
    """A guest from its boot on."""

    def __init__(self, start: Start, watcher: Watcher) -> None:
        self.pages = start.pages
        self.has_register_page = start.profile == 2
        self.memory = bytearray(start.image.ljust(PAGE * start.pages, b"\0"))
        self.processors = [VirtualProcessor(self, number, start.entry) for number in range(start.processors)]
        self.devices = Devices(self, start.disk, start.inputs)
        self.watcher = watcher
        self.coverage = Coverage.none()

    # memory

    def has_memory(self, place: int) -> bool:
        return place >> 12 < self.pages

    def is_device(self, place: int) -> bool:
        return place >> 12 == DEVICE_PAGE

    def word(self, place: int) -> int:
        return int.from_bytes(self.memory[place : place + 4], "big")

    def page(self, number: int) -> bytes:
        return bytes(self.memory[PAGE * number : PAGE * (number + 1)])

    def replace_page(self, number: int, data: bytes) -> None:
        """A device writes the first bytes of a page, and all links into the page are cleared."""
        self.memory[PAGE * number : PAGE * number + len(data)] = data
        for processor in self.processors:
            if processor.link is not None and processor.link * 32 // PAGE == number:
                processor.link = None

    # steps

    def has_halted(self) -> bool:
        return all(processor.halted for processor in self.processors)

    def step(self, number: int) -> None:
        """One step of a virtual processor: an interrupt, or else the instruction or its first fault; then the clock."""
        processor = self.processors[number]
        if processor.halted:
            return
        joined = self.devices.join_input(processor.steps) if number == 0 else []
        try:
            if processor.coprocessor.interrupt_comes():
                raise GuestException(Code.INT)
            self.execute(processor, decode(processor.fetch()))
        except StepPutOff:
            self.devices.take_back(joined)
            raise
        except GuestException as raised:
            self.coverage.exceptions[raised.code] += 1
            processor.pc = processor.coprocessor.enter(raised, processor.pc, processor.slot is not None)
            processor.slot = None
        processor.coprocessor.tick()
        processor.steps += 1

    def execute(self, processor: VirtualProcessor, word: Decoded) -> None:
        """The instruction that was fetched. Whether user code may use its coprocessor is asked before anything else."""
        if word.needs_kernel and processor.coprocessor.in_user_mode():
            raise coprocessor_unusable(0)
        self.coverage.instructions[word.name] += 1
        try:
            after = word.execute(processor, word)
        except StepPutOff:
            self.coverage.instructions[word.name] -= 1
            raise
        processor.pc, processor.slot = processor.following() if after is None else after
