"""Single calls of the library and of perf/hand.c on an emulated Cortex-M: their instructions, counted one by one, and their stack, which was painted before."""

import pathlib
import re
import sys
from typing import Dict, List, NamedTuple, Tuple

import arm
from arm import Failure

PERF = arm.ROOT / "perf"
sys.path.insert(0, str(PERF))

from costs import ENTRIES, Call, Row, rows_of  # noqa: E402

# The emulator lets each instruction last 2^SHIFT ns, and the timer that test/counted.c reads beats every BEAT ns. A beat at either end may be cut off, which is
# far less than an instruction: what is not that CLOSE to a whole number does not go by instructions.
SHIFT = 10
BEAT = 40
CLOSE = 0.1
PAINTED = 4096


class Told(NamedTuple):
    """One call: its instructions from the first to its return with all that it calls, and the bytes of stack below its caller's."""

    instructions: int
    stack: int


def told_of(beats: int, stack: int) -> Told:
    exact = beats * BEAT / (1 << SHIFT)
    if abs(exact - round(exact)) > CLOSE:
        raise Failure(f"a call took {beats} beats of the timer, which are {exact:.2f} instructions: the emulator's clock does not go by them")
    if stack >= PAINTED:
        raise Failure(f"a call used all of the {PAINTED} bytes of stack that were painted")
    return Told(round(exact), stack)


class Counter:
    """The programs of one core; what they have in common is compiled once."""

    def __init__(self, bare: arm.Bare):
        self.bare = bare
        self.compiled: Dict[Tuple[object, ...], str] = {}

    def object(self, source: pathlib.Path, *defines: str) -> str:
        if (source, *defines) not in self.compiled:
            own = ["-isystem", str(arm.HERE / "test" / "include"), "-isystem", str(arm.HERE / "include"), *defines]
            self.compiled[(source, *defines)] = self.bare.object(source, *own)
        return self.compiled[(source, *defines)]

    def program(self, source: pathlib.Path, entry: str) -> str:
        """Every call of this entry by this source goes by test/counted.c, and no other call."""
        sources = [source, PERF / "hand.c", arm.HERE / "test" / "bare.c", arm.HERE / "board" / "memory.c"]
        objects = [*map(self.object, sources), self.object(arm.HERE / "test" / "counted.c", f"-DENTRY={entry}", f"-DPAINTED={PAINTED}")]
        wraps = [f"--wrap={name}" for name in (f"qs_{entry}", f"hand_{entry}", "main")]
        return self.bare.linked(f"{source.stem}-{entry}", arm.HERE / "test" / "bare.ld", objects, *wraps)

    def run(self, source: pathlib.Path, entry: str) -> Tuple[List[str], List[Told]]:
        """The program's lines and its calls, from each of which the veneer's own instructions are taken off."""
        output = self.bare.work / "counted.out"
        found = self.bare.run_plan(self.program(source, entry), f"- {output} {source.stem} {entry}\n", "-icount", f"shift={SHIFT}")
        said = found.stdout.decode("utf-8", "replace")
        if found.returncode != 0 or not re.fullmatch(r"(?:\d+ \d+\n)+", said):
            raise Failure(f"{source.stem} {entry} on {self.bare.core.name} ended with status {found.returncode}\n{said[-2000:]}")
        nothing, *calls = [told_of(*map(int, line.split())) for line in said.splitlines()]
        if nothing.stack != 0 or not calls:
            raise Failure(f"{source.stem} {entry}: {len(calls)} calls were counted, and a function that returns at once took {nothing.stack} bytes of stack")
        around = nothing.instructions - 1  # such a function is one instruction
        return output.read_text().splitlines(), [Told(call.instructions - around, call.stack) for call in calls]


class Counted(NamedTuple):
    """The calls of one program and entry on both boards, and the most stack of the library's."""

    calls: List[Call]
    stack: int


def on_both_boards(counter: Counter, program: str, entry: str) -> Counted:
    """Each line is a call, made on the library and then on the hand-written C."""
    lines, told = counter.run(PERF / f"{program}.c", entry)
    if len(told) != 2 * len(lines):
        raise Failure(f"{program} {entry}: {len(told)} calls were counted, and {2 * len(lines)} were made")
    library, hand = told[::2], told[1::2]
    calls = [Call(*line.split("\t"), ours.instructions, theirs.instructions) for line, ours, theirs in zip(lines, library, hand)]
    return Counted(calls, max(call.stack for call in library))


class Costs(NamedTuple):
    """What a core needs: the rows of instructions, and the most stack of each entry of the board where it was measured."""

    calls: Dict[str, Row]
    closing: Dict[str, Row]
    stack: Dict[str, int]


def is_wanted(row: str) -> bool:
    """Rows of the page: no refusals, and of calls while fault codes wait only what a board does most."""
    return not row.endswith("is refused") and (not row.endswith(" while codes wait") or row.startswith("character that is kept"))


def is_request(row: str) -> bool:
    """Rows of the page among the frames that are closed: the commands, not what is no request."""
    return re.match(r"[0-9A-F]{2}h ", row) is not None


def costs_of(bare: arm.Bare, stack: bool) -> Costs:
    counter = Counter(bare)
    by_entry = {entry: on_both_boards(counter, "calls", entry) for entry in ENTRIES}
    closing = on_both_boards(counter, "closing", "poll")
    calls = {name: row for counted in by_entry.values() for name, row in rows_of(counted.calls).items() if is_wanted(name)}
    most = {f"qs_{entry}": counted.stack for entry, counted in by_entry.items()}
    if stack:
        by_character = on_both_boards(counter, "closing", "character")
        most["qs_poll"] = max(most["qs_poll"], closing.stack)
        most["qs_character"] = max(most["qs_character"], by_character.stack)
        most["qs_restart"] = max(call.stack for call in counter.run(arm.HERE / "test" / "restart.c", "restart")[1])
    requests = {name: row for name, row in sorted(rows_of(closing.calls).items()) if is_request(name)}
    return Costs(calls, requests, most if stack else {})
