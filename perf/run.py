#!/usr/bin/env python3
"""The benchmark: answer program and C entry points beside the second program and a board written in C by hand.

    run.py [--answer PROGRAM] [--library FOLDER]             measures everything and writes docs/PERFORMANCE.md
    run.py [--library FOLDER] --check                        holds the library to what its header says it needs and keeps, its stack to the bound, and the
                                                             instructions of every kind of call to their limits, and fails where one is over; the host
                                                             that sleeps to polls that each close a frame; and the cells that are written to those that change

PROGRAM answers tapes and FOLDER has libquicksetter.a; those not named are proved and built, as crates/answer/out/answer and in target/staticlib.
Instructions are counted by valgrind's callgrind, writes by its lackey; without valgrind only times are measured, and those checks are left out. What the library is
and needs comes from gcc's binutils (archive.py), the instructions of each call from costs.py, the cells that are written from writes.py. All of it is about the machine code of x86-64. On another processor the
checks are made with a cross compiler and an emulator (machine.py, emulated.py), and say that they were left out where there is none; of the page the same
parts are measured anew, and what is told of tapes, by whole programs, stays as it was.
"""

import os
import random
import re
import shutil
import subprocess
import sys
from typing import Callable, Dict, List, NamedTuple, Optional

ROOT = os.path.dirname(os.path.dirname(os.path.abspath(__file__)))
sys.path.insert(0, os.path.join(ROOT, "tools"))

import archive  # noqa: E402
import costs  # noqa: E402
import machine  # noqa: E402
import writes  # noqa: E402
from costs import CALL_RATIO_LIMIT, Row  # noqa: E402
from process import Failure, run  # noqa: E402
from tape import Character, Measured, Plate, Poll, encode, xor_of  # noqa: E402

WORK = os.path.join(ROOT, "target", "perf")
PAGE = os.path.join(ROOT, "docs", "PERFORMANCE.md")
FLAGS = ["-std=c11", "-O3", "-Wall", "-Wextra", "-Werror"]
PLATE = Plate(112, 24, 0, 4, 55)

SHORT_TAPE, LONG_TAPE, TIMED_TAPE = 2000, 12000, 500000
ROUNDS = 7

# What `--check` allows, in instructions inside the C entry. No single call may cost much more than the hand-written C's, and most calls of a
# host are kept characters: these must stay below. Adding an entry can change the cost of another.
KEPT = "character that is kept"
KEPT_LIMIT = 92
KEPT_RATIO_LIMIT = 0.92

# The code of an older kit met these. Today's makes the pointer of each slice that an export is lent one that is never null, and keeps more in registers and on the stack
# for it: a kept character costs 18 instructions more than it did, a call that closes a frame 32 to 45. So much the worst call of all is over the ratio now, and the dearest kept
# character over its limit; one instruction is to spare.
KIT_ADDS = 24
KEPT_KIT_ADDS = 16


# --- tapes ----------------------------------------------------------------------------------


class Drive:
    """A tape as a drive and its host would make it."""

    def __init__(self):
        self.bytes = bytearray(encode(PLATE))
        self.events = 0
        self.now = 0

    def add(self, record):
        self.bytes += encode(record)
        self.events += 1

    def character(self, ticks: int, value: int, parity: bool = False):
        self.now = (self.now + ticks) % (1 << 32)
        self.add(Character(self.now, value, parity))

    def poll(self, ticks: int):
        self.now = (self.now + ticks) % (1 << 32)
        self.add(Poll(self.now))

    def send(self, values: List[int]):
        """Address and checksum put round a command and its data, the characters, and a poll that closes."""
        frame = [0x40] + values
        for value in frame + [xor_of(frame)]:
            self.character(PLATE.character_ticks(), value)
        self.poll(PLATE.closing_gap())


def polling_drive(drive: Drive, events: int):
    """A drive that reads the position again and again; its host polls every 55 ticks and gives a new measured position each time."""
    while drive.events < events:
        drive.add(Measured(drive.now * 7 % (1 << 32)))
        for value in (0x40, 0x42, 0x02):
            drive.character(PLATE.character_ticks(), value)
        for _ in range(8):
            drive.poll(PLATE.closing_gap() // 4)


def reads_and_stores(drive: Drive, events: int):
    """128 bytes stored in a field of eight blocks and read back."""
    drive.send([0x4D, 0, 0xC7, 0x55])
    dice = random.Random(1)
    while drive.events < events:
        drive.send([0x4B, 0, 0, 128, 0x55] + [dice.randrange(256) for _ in range(128)])
        drive.send([0x4A, 0, 0, 128, 0x55])


def full_table(drive: Drive, events: int):
    """112 fields of one block each; the last one asked for its status and its bytes, and the free blocks."""
    for field in range(112):
        drive.send([0x4D, field, 0xC0, 0x55])
    while drive.events < events:
        drive.send([0x4C, 111])
        drive.send([0x4A, 111, 0, 16, 0x55])
        drive.send([0x4E])


def hours_in_a_field(drive: Drive, events: int):
    """A motor's data in a field of four blocks, which its drive stores whole with the hours, a number of four bytes, counted on; then it reads them."""
    drive.send([0x4D, 0, 0xC3, 0x55])
    dice = random.Random(3)
    data = [dice.randrange(256) for _ in range(60)]
    hours = 40000
    while drive.events < events:
        drive.send([0x4B, 0, 0, 64, 0x55] + list(hours.to_bytes(4, "big")) + data)
        drive.send([0x4A, 0, 0, 4, 0x55])
        hours += 1


def noise(drive: Drive, events: int):
    """Random characters, some with a parity fault, one in eight after a gap that closes."""
    dice = random.Random(2)
    while drive.events < events:
        gap = PLATE.closing_gap() if dice.randrange(8) == 0 else dice.randrange(PLATE.closing_gap())
        value = dice.choice((0x40, 0xFF, 0x4E, 0x42, dice.randrange(256)))
        drive.character(gap, value, dice.randrange(50) == 0)


class Tape(NamedTuple):
    name: str
    make: Callable[[Drive, int], None]


TAPES = (
    Tape("polling drive", polling_drive),
    Tape("128-byte reads and stores", reads_and_stores),
    Tape("full table of 112 fields", full_table),
    Tape("hours counted in a field", hours_in_a_field),
    Tape("noise", noise),
)


class Written(NamedTuple):
    path: str
    events: int


def written(tape: Tape, events: int) -> Written:
    """The tape as a file with at least so many events, and how many it has."""
    drive = Drive()
    tape.make(drive, events)
    path = os.path.join(WORK, f"{tape.name.replace(' ', '-')}-{events}.tape")
    with open(path, "wb") as file:
        file.write(drive.bytes)
    return Written(path, drive.events)


# --- programs -------------------------------------------------------------------------------


def compiled(name: str, sources: List[str], library: str, board: str = "qs") -> str:
    """A measuring program. It is bound to the C library at its start, so that no call of the hand-written C looks for memset while it is measured; in an emulator it has it within."""
    path = os.path.join(WORK, name)
    objects = []
    for source in sources:
        objects.append(f"{path}-{source[:-2]}.o" if objects else f"{path}.o")
        run([machine.tool("gcc"), *FLAGS, f"-DBOARD={board}", "-c", os.path.join(ROOT, "perf", source), "-o", objects[-1]])
    linked = ["-Wl,-z,now"] if machine.IS_MEASURED else ["-static", f"-Wl,-Map={path}.map"]
    run([machine.tool("gcc"), *objects, "-L", library, "-lquicksetter", *linked, "-o", path])
    return path


def found_library(library: Optional[str]) -> str:
    """The folder of libquicksetter.a."""
    if library:
        return library
    run(["bash", os.path.join("tools", "module.sh"), "quicksetter"], cwd=ROOT)
    return os.path.join(ROOT, "target", "staticlib")


def found_answer(answer: Optional[str]) -> str:
    """The answer program."""
    if answer:
        return answer
    crate = os.path.join(ROOT, "crates", "answer")
    run(["rt", "run"], cwd=crate, stdin=subprocess.DEVNULL)  # on no tape at all: what is wanted is the program
    return os.path.join(crate, "out", "answer")


def tape_programs(answer: Optional[str], library: str) -> Dict[str, str]:
    """The programs that answer tapes."""
    second = os.path.join(WORK, "second")
    run(["cargo", "build", "--release", "--offline", "--target-dir", second], cwd=os.path.join(ROOT, "second", "answer"))
    return {
        "second": os.path.join(second, "release", "second"),
        "answer": found_answer(answer),
        "entries": compiled("play-qs", ["play.c"], library, "qs"),
        "hand": compiled("play-hand", ["play.c", "hand.c"], library, "hand"),
    }


def answers(program: str, tape: Written) -> bytes:
    with open(tape.path, "rb") as file:
        return run([program], stdin=file).stdout


def check_answers(programs: Dict[str, str], tape: Written):
    """Speed counts only where the answers are the same."""
    expected = answers(programs["second"], tape)
    for name, program in programs.items():
        if answers(program, tape) != expected:
            raise Failure(f"{name} answers {os.path.basename(tape.path)} otherwise than the second program")


# --- measuring ------------------------------------------------------------------------------


def has_valgrind() -> bool:
    return shutil.which("valgrind") is not None


def instructions(program: str, tape: Written) -> int:
    """What callgrind counts of the whole program."""
    with open(tape.path, "rb") as given:
        said = run(["valgrind", "--tool=callgrind", "--callgrind-out-file=/dev/null", program], stdin=given).stderr.decode()
    return int(re.search(r"Collected : (\d+)", said).group(1))


def instructions_an_event(program: str, short: Written, long: Written) -> float:
    return (instructions(program, long) - instructions(program, short)) / (long.events - short.events)


def call_rows(library: str) -> Dict[str, Row]:
    return costs.call_rows(compiled("calls", ["calls.c", "hand.c"], library), WORK)


def closing_rows(library: str) -> Dict[str, Dict[str, Row]]:
    return costs.closing_rows(compiled("closing", ["closing.c", "hand.c"], library), WORK)


def processor_seconds(program: str, tape: Written) -> float:
    with open(tape.path, "rb") as given, open(os.devnull, "wb") as nowhere:
        process = subprocess.Popen([program], stdin=given, stdout=nowhere)
        _, status, used = os.wait4(process.pid, 0)
        process.returncode = os.waitstatus_to_exitcode(status)
    if process.returncode != 0:
        raise Failure(f"{program} ended with status {process.returncode}")
    return used.ru_utime + used.ru_stime


def nanoseconds_an_event(programs: Dict[str, str], tape: Written) -> Dict[str, float]:
    """The best of several rounds, one program after the other in each, so that a busy minute hits all of them."""
    best = {name: float("inf") for name in programs}
    for _ in range(ROUNDS):
        for name, program in programs.items():
            best[name] = min(best[name], processor_seconds(program, tape))
    return {name: 1e9 * seconds / tape.events for name, seconds in best.items()}


# --- the page -------------------------------------------------------------------------------

HEAD = """# Performance

Written by perf/run.py (`make bench`), not by hand. Everything is measured on one machine ({machine}), C compiled by `gcc {flags}`
({compiler}), Rust by `cargo build --release`.
The board written in C (perf/hand.c) has the same refusals, the same image and all commands, unproved; the second program is the independent one in
Rust. Before a tape is measured, all four programs must print the same answers to it.
"""


def table(head: List[str], rows: List[List[str]]) -> str:
    lines = ["| " + " | ".join(head) + " |", "|" + "---|" * len(head)]
    return "\n".join(lines + ["| " + " | ".join(row) + " |" for row in rows]) + "\n"


LIMIT_NOTE = f"""\
The gate holds every single call of this table and the next to {CALL_RATIO_LIMIT} of the hand-written C's. Where a character is kept it also holds the dearest call and
the mean to {KEPT_RATIO_LIMIT}, and while no code waits every call to {KEPT_RATIO_LIMIT} and to {KEPT_LIMIT} instructions. Over that a call may be by
{KIT_ADDS} instructions, a kept character by {KEPT_KIT_ADDS}: today's kit makes the pointer of each lent slice one that is never null, at every export, which an older one, that met the limits, did not."""
COLUMNS = ["Library", "Hand-written C", "Ratio", "Means", "Calls", "Worst of them"]


def cells(row: Row) -> List[str]:
    return [str(row.library), str(row.hand), f"{row.ratio:.2f}", f"{row.mean:.2f}", str(row.calls), f"{row.worst_ratio:.2f}"]


def call_page(rows: Dict[str, Row]) -> str:
    return f"\n## Inside the C entry\n\n{costs.CALLS_NOTE}\n{LIMIT_NOTE}\n\n" + table(["Call", *COLUMNS], [[name, *cells(row)] for name, row in rows.items()])


def closing_page(rows: Dict[str, Dict[str, Row]]) -> str:
    page = f"\n## A call that closes a frame\n\n{costs.CLOSING_NOTE}\n"
    for entry, its in rows.items():
        page += "\n" + table([f"A {entry} closes", *COLUMNS], [[name, *cells(row)] for name, row in its.items()])
    return page


def library_page(library: str) -> str:
    """What the archive is and needs, and its stack."""
    missing = machine.missing(*machine.READERS)
    if missing:
        return f"\n## The library\n\nWhat the library is and needs was left out: {', '.join(missing)} of gcc's binutils is not there.\n"
    path = os.path.join(library, "libquicksetter.a")
    found = archive.library_of(path)
    stacks = archive.stacks_of(path, found.entries)
    seen = archive.seen_stack(compiled("stack", ["stack.c"], library))
    page = f"\n## The library\n\n{archive.LIBRARY_NOTE}\n\n" + table(["What", "Found"], archive.library_rows(found, stacks))
    return page + f"\n{archive.STACK_NOTE}\n\n" + table(["Entry", "Bound", "Measured"], archive.stack_rows(stacks, seen))


class Host(NamedTuple):
    """A host of perf/sleep.c: how often it woke, how many of those times to poll, how many polls closed a frame, and the replies."""

    name: str
    wake_ups: int
    polls: int
    closing: int
    replies: int


SLEEP_NOTE = f"""\
The polling drive's tape of {LONG_TAPE} events, played by perf/sleep.c on three hosts over libquicksetter.a. Each hands in the tape's characters and positions and gets the same
replies; a character wakes each of them. They part in when they poll: every 55 ticks, as the tape does; on each bit time; or as long after a character as its answer
said (02, Req 03). The gate holds the last one to polls that each close a frame."""


def sleeping_hosts(library: str) -> List[Host]:
    program = compiled("sleep", ["sleep.c"], library)
    with open(written(TAPES[0], LONG_TAPE).path, "rb") as tape:
        lines = run([*machine.emulator(), program], stdin=tape).stdout.decode().splitlines()
    return [Host(name, *map(int, numbers)) for name, *numbers in (line.split("\t") for line in lines)]


def sleep_page(library: str) -> str:
    rows = [[host.name, str(host.wake_ups), f"{host.wake_ups / host.replies:.0f}", str(host.polls), str(host.closing)] for host in sleeping_hosts(library)]
    return f"\n## How often a host wakes\n\n{SLEEP_NOTE}\n\n" + table(["Host", "Wake-ups", "A request", "Polls", "that close"], rows)


WRITES_NOTE = f"""\
Cells of memory that the board writes, tapes of {LONG_TAPE} events and the stored one of a shop that puts a label onto a board, played by perf/writes.c. valgrind's lackey tells each write
of the program, with its place and its bytes; those in the lent memory are counted. Named are the cells that accepted requests set: a store's bytes, the blocks granted or given back, the
status. The board of 0.8.0, counted in the same way, wrote each of them; now those are written that hold another byte (02, Req 05). The gate holds library and hand-written C to that: no
cell that stays is written, and none twice by one call."""
LABEL_TAPE = os.path.join(ROOT, "tapes", "programming.tape")


def counted_writes(library: str, board: str, events: int) -> Dict[str, writes.Writes]:
    """What the board writes on each tape. More than what changes is a failure; less cannot be."""
    program = compiled(f"writes-{board}", ["writes.c", "hand.c"], library, board)
    tapes = {tape.name: written(tape, events).path for tape in TAPES}
    found = {name: writes.counted(program, path) for name, path in {**tapes, "a label put onto a board": LABEL_TAPE}.items()}
    for name, its in found.items():
        if not its.changed == its.written == its.stores:
            raise Failure(f"{board}, {name}: {its.changed} cells change, {its.written} are written, by {its.stores} bytes")
    return found


def writes_page(library: str) -> str:
    rows = [
        [name, str(its.replies), str(its.named), str(its.written), f"{its.named / its.replies:.2f}", f"{its.written / its.replies:.2f}"]
        for name, its in counted_writes(library, "qs", LONG_TAPE).items()
    ]
    head = ["Tape", "Requests", "Cells named", "Written", "Writes a request, before", "after"]
    return f"\n## Writes to memory\n\n{WRITES_NOTE}\n\n" + table(head, rows)


def tape_page(title: str, note: str, found: Dict[str, Dict[str, float]]) -> str:
    rows = []
    for name, by_program in found.items():
        second = by_program["second"]
        row = [name, f"{second:.0f}"]
        for program in ("answer", "entries", "hand"):
            row.append(f"{by_program[program]:.0f} ({by_program[program] / second:.2f})")
        rows.append(row)
    head = ["Tape", "Second program", "Answer program", "C entries", "Hand-written C"]
    return f"\n## {title}\n\n{note}\n\n" + table(head, rows)


INSTRUCTION_NOTE = f"""\
Of the whole program, by callgrind: a tape of {LONG_TAPE} events less one of {SHORT_TAPE}, by the events between. In brackets the ratio to the second
program. "C entries" is perf/play.c, the answer program in C over libquicksetter.a; "hand-written C" the same over perf/hand.c."""
TIME_NOTE = f"""Processor time of the whole program on {TIMED_TAPE} events, the best of {ROUNDS} rounds. In brackets the ratio to the second program."""
NO_VALGRIND = "\nInstructions were not counted: valgrind is not there.\n"


def measure(programs: Dict[str, str], library: str) -> str:
    """The whole page."""
    compiler = run(["gcc", "--version"]).stdout.decode().splitlines()[0]
    page = HEAD.format(machine=machine.MEASURED, flags=" ".join(FLAGS[:2]), compiler=compiler) + library_page(library)
    counts: Dict[str, Dict[str, float]] = {}
    times: Dict[str, Dict[str, float]] = {}
    counting = has_valgrind()
    for tape in TAPES:
        print(f"perf: {tape.name}", flush=True)
        short, long, timed = (written(tape, events) for events in (SHORT_TAPE, LONG_TAPE, TIMED_TAPE))
        check_answers(programs, timed)
        if counting:
            counts[tape.name] = {name: instructions_an_event(program, short, long) for name, program in programs.items()}
        times[tape.name] = nanoseconds_an_event(programs, timed)
    if counting:
        print("perf: inside the C entry", flush=True)
        page += call_page(call_rows(library)) + closing_page(closing_rows(library)) + sleep_page(library) + writes_page(library)
        page += tape_page("Instructions a tape event", INSTRUCTION_NOTE, counts)
    else:
        print("perf: valgrind is not there: only times are measured", flush=True)
        page += NO_VALGRIND + sleep_page(library)
    return page + tape_page("Nanoseconds a tape event", TIME_NOTE, times)


def over_limit(name: str, row: Row) -> bool:
    """KEPT is the row of the usual character, with no code waiting; the rows that begin so are its fellows."""
    if row.over > KIT_ADDS:
        return True
    if not name.startswith(KEPT):
        return False
    added = KEPT_KIT_ADDS / row.hand
    if name == KEPT:
        return row.library > KEPT_LIMIT + KEPT_KIT_ADDS or row.worst_ratio - added > KEPT_RATIO_LIMIT
    return max(row.ratio, row.mean) - added > KEPT_RATIO_LIMIT


def check_archive(library: str) -> int:
    """The archive held to the header's words on what it needs and keeps, and the stack that is seen to its bound."""
    missing = machine.missing("gcc", *machine.READERS)
    if missing:
        print(f"perf: the check of what the library needs was LEFT OUT, since {', '.join(missing)} of gcc's binutils is not there{machine.PACKAGES}")
        return 0
    path = os.path.join(library, "libquicksetter.a")
    found = archive.library_of(path)
    wrong = archive.broken_promises(found)
    for words in wrong:
        print(f"perf: {words}")
    if wrong:
        return 1
    seen = archive.seen_stack(compiled("stack", ["stack.c"], library))
    rows = archive.stack_rows(archive.stacks_of(path, found.entries), seen)
    deepest = max(int(bound) for _, bound, _ in rows)
    print(f"perf: the library needs {', '.join(sorted(found.needed)) or 'nothing'} and keeps nothing; its {len(rows)} entries lay at most {deepest} bytes on the stack")
    return 0


def check_sleep(library: str) -> int:
    """The host that sleeps by the answer polls only to close a frame, and has every reply."""
    missing = machine.missing("gcc")
    if missing:
        print(f"perf: the host that sleeps was LEFT OUT, since {', '.join(missing)} is not there{machine.PACKAGES}")
        return 0
    as_tape, each_bit, asleep = sleeping_hosts(library)
    print(f"perf: {asleep.replies} requests: {asleep.name} {asleep.wake_ups} wake-ups, {as_tape.name} {as_tape.wake_ups}, {each_bit.name} {each_bit.wake_ups}")
    return int(not asleep.polls == asleep.closing == asleep.replies)


def check_writes(library: str) -> int:
    """Both boards write the cells that change, and no others. What a tape changes is the same on both."""
    if not machine.IS_MEASURED or not has_valgrind():
        print(f"perf: the count of the cells that are written was LEFT OUT: it needs valgrind on {machine.MEASURED}")
        return 0
    ours, theirs = (counted_writes(library, board, SHORT_TAPE) for board in ("qs", "hand"))
    named, found = (sum(getattr(its, what) for its in ours.values()) for what in ("named", "written"))
    print(f"perf: {len(ours)} tapes name {named} cells and change {found}, which are written, each once")
    return int(ours != theirs)


def check_limits(library: str) -> int:
    """Every row of the two tables of calls held to its limit."""
    missing = machine.missing("gcc", "nm") if not machine.IS_MEASURED else [] if has_valgrind() else ["valgrind"]
    if missing:
        print(f"perf: the check of the instructions inside the C entries was LEFT OUT, since {', '.join(missing)} is not there{machine.PACKAGES}")
        return 0
    rows = call_rows(library)
    if KEPT not in rows:
        raise Failure(f"perf/calls.c makes no {KEPT}")
    for entry, closing in closing_rows(library).items():
        rows.update({f"{entry} that closes, {name}": row for name, row in closing.items()})
    over = [name for name, row in rows.items() if over_limit(name, row)]
    for name, row in rows.items():
        found = f"at most {row.library} instructions, hand-written C {row.hand}, ratio {row.ratio:.3f}, of the means {row.mean:.3f}, of the worst call {row.worst_ratio:.3f}"
        print(f"perf: {name}: {found}" + (f": over its limit (worst: {row.worst.way})" if name in over else ""))
    calls = sum(row.calls for row in rows.values())
    print(f"perf: {calls} calls of {len(rows)} kinds, each held; {len(over)} kinds are over their limit")
    return int(bool(over))


def sections_of(page: str) -> Dict[str, str]:
    """The page's parts by their titles; the head has none."""
    parts = filter(str.strip, re.split(r"^(?=## )", page, flags=re.M))
    return {part.split("\n", 1)[0] if part.startswith("## ") else "": part for part in parts}


def renewed(library: str) -> str:
    """The page as it stands, with the parts measured anew that are about the library and its calls."""
    missing = machine.missing("gcc", *machine.READERS)
    if missing:
        raise Failure(f"nothing was measured, since {', '.join(missing)} is not there{machine.PACKAGES}")
    with open(PAGE, encoding="utf-8") as file:
        stood = sections_of(file.read())
    anew = sections_of(library_page(library) + call_page(call_rows(library)) + closing_page(closing_rows(library)) + sleep_page(library))
    parts = {"": stood.pop(""), **anew, **{title: part for title, part in stood.items() if title not in anew}}
    return "\n\n".join(part.rstrip("\n") for part in parts.values()) + "\n"


def write_page(answer: Optional[str], library: str) -> int:
    page = measure(tape_programs(answer, library), library) if machine.IS_MEASURED else renewed(library)
    with open(PAGE, "w", encoding="utf-8") as file:
        file.write(page)
    print(page)
    return 0


def option(arguments: List[str], name: str) -> Optional[str]:
    """The word behind an option, both taken off."""
    if name not in arguments[:-1]:
        return None
    place = arguments.index(name)
    word = arguments[place + 1]
    del arguments[place : place + 2]
    return word


def path_option(arguments: List[str], name: str) -> Optional[str]:
    word = option(arguments, name)
    return None if word is None else os.path.abspath(word)


def main(arguments: List[str]) -> int:
    if arguments in (["help"], ["-h"], ["--help"]):
        sys.stdout.write(__doc__)
        return 0
    answer, library = path_option(arguments, "--answer"), path_option(arguments, "--library")
    checks = arguments == ["--check"] and answer is None
    if arguments and not checks:
        sys.stderr.write(__doc__)
        return 2
    os.makedirs(WORK, exist_ok=True)
    try:
        library = found_library(library)
        return check_archive(library) | check_sleep(library) | check_writes(library) | check_limits(library) if checks else write_page(answer, library)
    except Failure as failure:
        sys.stderr.write(f"run.py: {failure}\n")
        return 1


if __name__ == "__main__":
    sys.exit(main(sys.argv[1:]))
