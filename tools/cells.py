"""A board's memory as accepted requests left it since the plate, and how many of its cells each of them wrote (02, Req 05)."""

from typing import List, NamedTuple, Optional

from bench import Verdict
from commands import CREATE_FIELD, STORE_DATA
from frames import is_good
from status import BLOCK, EXISTS, counted, size_of


class Writes(NamedTuple):
    """How many cells a request names, and how many of them are written, since they held another byte than the one that is wanted."""

    named: int = 0
    written: int = 0

    def plus(self, other: "Writes") -> "Writes":
        return Writes(self.named + other.named, self.written + other.written)

    def words(self) -> str:
        return f"writes {self.written} of {counted(self.named, 'cell')}"


class Cells:
    """The memory of a board that was blank at its plate: all blocks, then a status byte for each possible field, 00h where none is (01, "Memory").

    Fields lie one after another from block 0. What does not fit that is no work of our board, and leaves the cells as they were.
    """

    def __init__(self, blocks: int):
        self.table = blocks * BLOCK
        self.memory = bytearray(self.table + blocks)

    def sizes(self) -> List[int]:
        """How many bytes each field has."""
        return [size_of(status) for status in self.memory[self.table :] if status & EXISTS]

    def put(self, place: int, wanted: bytes) -> Writes:
        """Writes each cell that does not hold the byte wanted."""
        end = place + len(wanted)
        written = sum(held != byte for held, byte in zip(self.memory[place:end], wanted))
        self.memory[place:end] = wanted
        return Writes(len(wanted), written)

    def store(self, field: int, offset: int, data: bytes) -> Optional[Writes]:
        """4Bh. None where the field is not there or ends before the data does."""
        sizes = self.sizes()
        if field >= len(sizes) or offset + len(data) > sizes[field]:
            return None
        return self.put(sum(sizes[:field]) + offset, data)

    def shape(self, field: int, status: int) -> Optional[Writes]:
        """4Dh: blocks granted and blocks given back become 00h, and the status is set. None where no field can be changed so."""
        sizes = self.sizes()
        if field > len(sizes):
            return None
        start = sum(sizes[:field])
        old = sizes[field] if field < len(sizes) else 0
        new = size_of(status) if status & EXISTS else 0
        smaller, larger = sorted((old, new))
        is_last = field + 1 >= len(sizes)
        if larger == 0 or start + larger > self.table or old != new and not is_last:
            return None
        cleared = self.put(start + smaller, bytes(larger - smaller))
        return cleared.plus(self.put(self.table + field, bytes([status if new else 0])))

    def work(self, request: bytes) -> Optional[Writes]:
        """An accepted 4Bh or 4Dh done; None where it does not fit the fields that are there."""
        if request[1] == STORE_DATA:
            return self.store(request[2], request[3], request[6:-1])
        return self.shape(request[2], request[3])


class Wear:
    """A board's cells, how many of them all requests named and wrote so far, and of how many requests that cannot be told."""

    def __init__(self, blocks: int):
        self.cells = Cells(blocks)
        self.sum = Writes()
        self.untold = 0

    def hear(self, request: bytes, verdict: Verdict) -> List[str]:
        """What a request wrote, told if it was accepted and names cells."""
        if verdict.kind != "done" or not (is_good(request, STORE_DATA) or is_good(request, CREATE_FIELD)):
            return []
        writes = self.cells.work(request)
        if writes is None:
            self.untold += 1
            return ["what this writes cannot be told: it does not fit the fields told before"]
        self.sum = self.sum.plus(writes)
        return [writes.words()]

    def line(self) -> str:
        """The sum, for the end of the page."""
        untold = f"; of {counted(self.untold, 'request')} it cannot be told" if self.untold else ""
        return f"memory: {counted(self.sum.named, 'cell')} named, {self.sum.written} written{untold}"
