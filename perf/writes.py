"""The cells of memory that a board writes on a tape, counted by valgrind's lackey, which tells every write of a program with its place and its bytes (02, Req 05)."""

import subprocess
from typing import Iterable, List, NamedTuple, Set

from process import Failure

WATCH = ["valgrind", "--tool=lackey", "--trace-mem=yes", "--log-fd=2"]


class Writes(NamedTuple):
    """Replies; the cells that their requests name; the cells that a call changed; the cells that a call wrote, and how many bytes were written to them."""

    replies: int
    named: int
    changed: int
    written: int
    stores: int


def places_of(line: bytes) -> range:
    """The places that a line of the trace tells written: " S 1ffefff8,8", or " M .." for what is read and written."""
    if line[:2] not in (b" S", b" M"):
        return range(0)
    place, size = line[3:].split(b",")
    return range(int(place, 16), int(place, 16) + int(size))


def counted(program: str, tape: str) -> Writes:
    """Plays a tape by perf/writes.c. A cell that one call writes twice counts once in `written` and twice in `stores`."""
    with open(tape, "rb") as given:
        try:
            played = subprocess.Popen([*WATCH, program], stdin=given, stdout=subprocess.PIPE, stderr=subprocess.PIPE)
        except OSError as error:
            raise Failure(f"{program}: {error}") from None
    with played:
        cells = cells_written(played.stderr)
        counts = [int(word) for word in played.stdout.read().split()]
    if played.returncode != 0:
        raise Failure(f"{program} on {tape}: it ended with {played.returncode}")
    return Writes(*counts, *cells)


def cells_written(trace: Iterable[bytes]) -> List[int]:
    """By the trace as it comes, which is long and kept nowhere. No call of the board is before the line with the places."""
    memory, length, mark = next(([int(word) for word in line.split()[1:]] for line in trace if line.startswith(b"places ")), (0, 0, 0))
    written = stores = 0
    cells: Set[int] = set()
    for line in trace:
        told = places_of(line)
        if told.start == mark:
            written += len(cells)
            cells = set()
        inside = range(max(told.start, memory), min(told.stop, memory + length))
        stores += len(inside)
        cells.update(inside)
    return [written + len(cells), stores]
