"""Every call of perf/calls.c and perf/closing.c on both boards, its instructions counted one by one, and the rows that are made of them."""

import os
import re
from typing import Dict, List, NamedTuple, Tuple

import emulated
from machine import IS_MEASURED
from process import Failure, run

ENTRIES = ("character", "poll", "measured", "fault", "power_on", "fresh")
CLOSING = ("poll", "character")

CALL_RATIO_LIMIT = 1.1

COUNTED_BY = "callgrind" if IS_MEASURED else "an emulator on another processor"
CALLS_NOTE = f"""\
Instructions from the entry's first to its return, with all that it calls. Each call is counted on its own, by {COUNTED_BY}; both boards start from the same
bytes, and must return and leave the same. A row is every call of its kind in perf/calls.c, on two plates and with 0 to 4 fault codes waiting: the dearest call
of each board with their ratio, the ratio of the two means, and how many calls there are, with the ratio of the one that stands worst for the library."""
CLOSING_NOTE = """\
Counted and compared in the same way. A row is every way of perf/ways.h with that command, whether it is done or answered with an error; below stand the frames
that are no request. Tried are plates of 1 to 5, 8 and 112 blocks, few fields and many, sound tables and unsound ones, 0 to 4 fault codes waiting (with 97 to
111 fields none and four), a locked position, and the board's own address, which is not its plate's, as well as the broadcast."""


class Call(NamedTuple):
    """One call: what it found, and its instructions on each board."""

    row: str
    way: str
    library: int
    hand: int


class Row(NamedTuple):
    """The calls of one row: the dearest of each board, the ratio of the means, the call that stands worst for the library, and by how many instructions one is at
    most over the ratio that the gate allows."""

    library: int
    hand: int
    mean: float
    worst: Call
    over: float
    calls: int

    @property
    def ratio(self) -> float:
        return self.library / self.hand

    @property
    def worst_ratio(self) -> float:
        return ratio_of(self.worst)


def ratio_of(call: Call) -> float:
    return call.library / call.hand


def over_ratio(call: Call) -> float:
    return call.library - CALL_RATIO_LIMIT * call.hand


def by_callgrind(program: str, entry: str, work: str) -> Tuple[List[str], List[int]]:
    """The program's lines, and what callgrind counted; it writes a part behind each call, and one at the end."""
    parts = os.path.join(work, f"{os.path.basename(program)}-{entry}.callgrind")
    if os.path.exists(parts):
        os.remove(parts)
    counting = [f"--{option}={board}_{entry}" for option in ("toggle-collect", "dump-after") for board in ("qs", "hand")]
    words = ["valgrind", "--tool=callgrind", f"--callgrind-out-file={parts}", "--combine-dumps=yes", *counting, program, entry]
    lines = run(words).stdout.decode().splitlines()
    with open(parts, encoding="utf-8") as file:
        totals = [int(number) for number in re.findall(r"^totals: (\d+)", file.read(), re.M)]
    os.remove(parts)
    return lines, totals[:-1]


def counted(program: str, entry: str, work: str) -> List[Call]:
    """The program's lines are its calls, each made on the library and then on the hand-written C."""
    lines, totals = by_callgrind(program, entry, work) if IS_MEASURED else emulated.counted(program, program + ".o", entry, work)
    if not lines or len(totals) != 2 * len(lines) or 0 in totals:
        raise Failure(f"{entry}: {len(totals)} calls were counted, and {2 * len(lines)} were made")
    return [Call(*line.split("\t"), library, hand) for line, library, hand in zip(lines, totals[::2], totals[1::2])]


def row_of(calls: List[Call]) -> Row:
    library, hand = [call.library for call in calls], [call.hand for call in calls]
    return Row(max(library), max(hand), sum(library) / sum(hand), max(calls, key=ratio_of), max(map(over_ratio, calls)), len(calls))


def rows_of(calls: List[Call]) -> Dict[str, Row]:
    by_row: Dict[str, List[Call]] = {}
    for call in calls:
        by_row.setdefault(call.row, []).append(call)
    return {name: row_of(its) for name, its in by_row.items()}


def call_rows(program: str, work: str) -> Dict[str, Row]:
    """The calls that close no frame, entry by entry."""
    return {name: row for entry in ENTRIES for name, row in rows_of(counted(program, entry, work)).items()}


def closing_rows(program: str, work: str) -> Dict[str, Dict[str, Row]]:
    """The calls that close a frame, by entry, in the order of the commands' numbers; the frames that are no request come last."""
    return {entry: dict(sorted(rows_of(counted(program, entry, work)).items())) for entry in CLOSING}
