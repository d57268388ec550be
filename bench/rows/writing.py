"""The parts of a row: of a description, of images, and of a report."""

from __future__ import annotations

from generator.assembler import KERNEL, Assembler
from generator.program import as_bytes


def machine(nodes: int = 1, frames: int = 16, cache: int = 0, node: int = 0) -> str:
    """One processor, of this node."""
    return f"[machine]\nnodes = {nodes}\nframes = {frames}\nprocessors = [{node}]\ncache = {cache}\n"


def cells(*lends: int) -> str:
    """Each node is a cell of its own, and lends so many frames."""
    return "".join(f"[[cell]]\nnodes = [{node}]\nlend = {lend}\n" for node, lend in enumerate(lends))


def guest(image: str, pages: int = 4, node: int = 0, disk: str = "") -> str:
    named = f'disk = "{disk}"\n' if disk else ""
    return f'[[guest]]\nimage = "{image}"\nform = "raw"\npages = {pages}\nvcpus = 1\nnode = {node}\n{named}'


def runs(*slices: tuple[int, int]) -> str:
    """Slices: a guest and its steps each."""
    return "".join(
        f'[[work]]\nact = "run"\nprocessor = 0\nguest = {number}\nvcpu = 0\nsteps = {steps}\n' for number, steps in slices
    )


def moved(number: int, page: int, kind: str, node: int | None = None) -> str:
    to = "" if node is None else f"node = {node}\n"
    return f'[[work]]\nact = "move"\nprocessor = 0\nguest = {number}\npage = {page}\nkind = "{kind}"\n{to}'


def failed(cell: int) -> str:
    return f'[[work]]\nact = "fail"\nprocessor = 0\ncell = {cell}\n'


def words(text: str) -> bytes:
    """An image of words in hexadecimal."""
    return b"".join(int(word, 16).to_bytes(4, "big") for word in text.split())


def listing(text: str) -> bytes:
    """An image of instructions, with the device page in register 16 and the guest's memory in register 10 before them."""
    code = Assembler(KERNEL)
    code.listing(f"lui r16, 0xCFFF\nori r16, r16, 0xF000\nlui r10, 0xC000\n{text}")
    return as_bytes(code.finished())


def told(number: int, console: str, end: str, **sums: int) -> str:
    """A guest's part of the report; sums that aren't named are 0."""
    names = ("steps", "refills", "moves", "skips", "breaks", "shared", "received", "discarded")
    counts = " ".join(f"{name} {sums.get(name, 0)}" for name in names)
    return f"guest {number} console {len(console)}\n{console}\nend {end}\nsums {counts}\n"


def failure(cell: int, *ended: int) -> str:
    """The line of a failure, and the guests that it ended."""
    return f"failure cell {cell} ended {' '.join(map(str, ended)) or 'none'}\n"
