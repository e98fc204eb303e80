"""Tests of cells.py and of explain.py --writes: what is told of each frame, odd replies, and the counts held to the memory of the proved library."""

import ctypes
import glob
import os
import random
import re
import tempfile

import bench
import cells
import commands
import explain
import frames
import records
import status
import texts
from test_explain import HEADER, JUDGE, sealed
from test_tape import PLATE_LINE, ROOT, SESSIONS, put, run_tool, session
from written import event_and_comment

WRITES = explain.Options(writes=True)
UNTOLD = "what this writes cannot be told: it does not fit the fields told before"


# --- the page --------------------------------------------------------------------------------


def page_of(name, options):
    text = session(name)
    page, summary = explain.explain_tape(texts.good_session(text), texts.answers_to_come(text), JUDGE, options)
    assert summary.status() == 0, name
    return page


def told_of(group):
    """What is told of the cells that one frame wrote."""
    return [line.strip() for line in group.splitlines() if line.strip().startswith("writes ")]


def test_each_frame_of_the_session():
    """Behind each ask of changed-cells.txt stands what is told of it; behind one that is refused or names no cells, nothing."""
    events = [event_and_comment(line) for line in session("changed-cells").splitlines()]
    wanted = [[comment] if comment else [] for event, comment in events if event.startswith("ask ")]
    groups = [group for group in page_of("changed-cells", WRITES).split("\n\n") if "  request  " in group]
    assert [told_of(group) for group in groups] == wanted and sum(map(len, wanted)) == 17


def test_sums():
    """As counted by hand: of the programming session two creations and two deletions of blank fields, two creations, two labels, and a field locked."""
    for name, line in (
        ("changed-cells", "memory: 573 cells named, 102 written"),
        ("programming", "memory: 167 cells named, 35 written"),
        ("sleep", "memory: 0 cells named, 0 written"),
    ):
        page = page_of(name, WRITES)
        assert page.splitlines()[-2] == line and page.splitlines()[-1].startswith("summary: "), (name, page)
    assert [line for group in page_of("programming", WRITES).split("\n\n") for line in told_of(group)] == [
        "writes 1 of 33 cells",
        "writes 1 of 17 cells",
        "writes 1 of 17 cells",
        "writes 1 of 33 cells",
        "writes 1 of 17 cells",
        "writes 16 of 16 cells",
        "writes 1 of 17 cells",
        "writes 12 of 16 cells",
        "writes 1 of 1 cell",
    ]


def test_all_else_is_as_without_it():
    is_told = re.compile(r"\s+writes \d+ of \d+ cells?|memory: \d+ cells? named, \d+ written")
    for name in SESSIONS:
        for sleep in (False, True):
            page = page_of(name, explain.Options(sleep, writes=True))
            left = [line for line in page.splitlines() if not is_told.fullmatch(line)]
            assert left == page_of(name, explain.Options(sleep)).splitlines(), name


def test_documents_tell_the_session():
    with open(os.path.join(ROOT, "docs", "TOOLS.md"), encoding="utf-8") as file:
        shown = re.findall(r"^    ((?:writes \d|memory: ).*)$", file.read(), re.MULTILINE)
    page = page_of("changed-cells", WRITES)
    assert len(shown) == 2 and all(f"{line}\n" in page for line in shown), shown


def test_writes_on_the_command_line():
    library = os.path.join(ROOT, bench.LIBRARY)
    with tempfile.TemporaryDirectory() as folder:
        text = put(folder, "cells.txt", session("changed-cells").encode())
        tape = put(folder, "cells.tape", texts.tape_of(session("changed-cells")))
        answers = put(folder, "cells.out", texts.answers_to_come(session("changed-cells")).encode())
        given = (0, page_of("changed-cells", WRITES).encode(), b"")
        for words in (["--writes"], ["--library", library, "--writes"], ["--writes", "--library", library], ["--writes", "--writes"]):
            assert run_tool("explain.py", words + [text, answers], b"") == given, words
        ended, page, _ = run_tool("explain.py", ["--writes", tape, answers], b"")
        assert ended == 0 and b"\nmemory: 573 cells named, 102 written\nsummary: " in page
        both = page_of("changed-cells", explain.Options(sleep=True, writes=True)).encode()
        for words in (["--sleep", "--writes"], ["--writes", "--sleep"]):
            assert run_tool("explain.py", words + [text, answers], b"") == (0, both, b""), words
        for words in (["--writes"], [text, "--writes", answers], ["--writes", text, answers, text]):
            assert run_tool("explain.py", words, b"")[0] == 2, words


def test_where_memory_is_not_known():
    """A log does not say what memory held before it, and of several boards there are several memories."""
    with tempfile.TemporaryDirectory() as folder:
        log = put(folder, "log.txt", b"0 > 40 4E 0E\n")
        boards = put(folder, "boards.txt", session("two-boards").encode())
        said = b"explain.py: --writes is not for a log, which does not say what the board's memory held before it\n"
        for words in (["--writes", "--log", log], ["--sleep", "--writes", "--log", log]):
            assert run_tool("explain.py", words, b"") == (2, b"", said), words
        said = f"explain.py: {boards}: a text of several boards; --writes tells of one board's memory\n".encode()
        assert run_tool("explain.py", ["--writes", boards], b"") == (1, b"", said)


# --- odd replies -----------------------------------------------------------------------------


def accepted(*requests, blocks=8):
    """What is told of requests, all without their checksums, that are accepted one after another; and the sum."""
    wear = cells.Wear(blocks)
    return [line for request in requests for line in wear.hear(sealed(request), bench.Verdict("done"))] + [wear.line()]


FIELD_0 = "40 4D 00 C1 55"
FIELD_1 = "40 4D 01 C0 55"
STORED = "40 4B 00 00 02 55 41 42"


def test_what_no_board_of_ours_accepts():
    """Of a request that does not fit the fields nothing can be told, and it changes none of the counts behind it."""
    for fields, odd in (
        ([], STORED),
        ([], "40 4B FF FF 01 55 41"),
        ([], "40 4D 01 C0 55"),
        ([], "40 4D FF FF 55"),
        ([], "40 4D 00 40 55"),
        ([FIELD_0], "40 4B 01 00 01 55 41"),
        ([FIELD_0], "40 4B 00 1F 02 55 41 42"),
        ([FIELD_0], "40 4D 01 40 55"),
        ([FIELD_0], "40 4D 01 C6 55"),
        ([FIELD_0, FIELD_1], "40 4D 00 C0 55"),
        ([FIELD_0, FIELD_1], "40 4D 00 C2 55"),
        ([FIELD_0, FIELD_1], "40 4D 00 41 55"),
        ([FIELD_0, FIELD_1], "40 4D 01 C6 55"),
    ):
        creations = ["40 4D 00 C1 55", STORED] if not fields else [STORED]
        told = accepted(*fields, *creations)
        odd_told = accepted(*fields, odd, *creations)
        assert odd_told.pop(len(fields)) == UNTOLD and told == odd_told[:-1] + [told[-1]], odd
        assert odd_told[-1] == told[-1] + "; of 1 request it cannot be told"
    full = [f"40 4D {field:02X} C0 55" for field in range(3)]
    assert accepted(*full, blocks=2)[2:] == [UNTOLD, "memory: 34 cells named, 2 written; of 1 request it cannot be told"]
    assert accepted(STORED, STORED)[-1].endswith("; of 2 requests it cannot be told")


def test_what_other_boards_accept():
    """As well as can be told: a field deleted by another status, as before Req 02, and a store to a read-only one."""
    assert accepted(FIELD_0, STORED, "40 4D 00 00 55")[2] == "writes 3 of 33 cells"
    assert accepted("40 4D 00 81 55", STORED, STORED)[1:3] == ["writes 2 of 2 cells", "writes 0 of 2 cells"]


def told_on_a_tape(lines, answers):
    found = texts.good_session(PLATE_LINE + lines)
    page, _ = explain.explain_tape(found, "tick reply\n" + answers, JUDGE, WRITES)
    return [line for group in page.split("\n\n") for line in told_of(group)], page


def test_only_good_replies_are_counted():
    """A creation that is refused, unanswered, answered wrongly or not ours, or that nothing closed, writes nothing. The next one does."""
    create = "ask {}\nask at 5000 40 4D 00 C0 55\n"
    once = "5440 40 4D 00 C0 CD\n"
    for request, answer in (
        ("40 4D 00 C1 54", "440 40 50 0F 1F\n"),
        ("40 4D 00 C1 55", ""),
        ("40 4D 00 C1 55", "440 40 4D 00 C1 CD\n"),
        ("40 4D 00 C1 55", "440 40 4D 00 C2 CF\n"),
        ("40 4D 00 C1 55", "440 40 4B 00 00 01 0A\n"),
        ("41 4D 00 C1 55", "440 41 4D 00 C1 CD\n"),
        ("40 4C 00", "352 40 4C 00 C1 CD\n"),
        ("40 4A 00 00 01 55", "484 40 4A 00 00 01 41 4A\n"),
    ):
        told, page = told_on_a_tape(create.format(request), answer + once)
        assert told == ["writes 1 of 17 cells"] and "memory: 17 cells named, 1 written\n" in page, (request, page)
    told, _ = told_on_a_tape("frame: 40 4D 00 C1 55 sum\npower-on\nask at 5000 40 4D 00 C0 55\n", once)
    assert told == ["writes 1 of 17 cells"]


def test_tapes_without_a_board():
    for tape, line in ((b"", ""), (b"\x05", "The tape is bad at place 0: a lone last byte.\n\n")):
        told_by = "tick reply\n" + ("bad 0\n" if line else "")
        page, _ = explain.explain_tape(texts.Session(tape, [], [], []), told_by, JUDGE, WRITES)
        assert page.startswith(line + "summary: "), page


def test_any_accepted_frame():
    """Whatever a judge takes, counts are told or not, and no more is written than named."""
    dice = random.Random(5)
    for _ in range(300):
        wear = cells.Wear(dice.randrange(1, 6))
        length = len(wear.cells.memory)
        for _ in range(20):
            values = bytes([dice.choice((0x40, 0xFF)), dice.choice((0x4B, 0x4D)), dice.randrange(4)] + [dice.randrange(256) for _ in range(dice.randrange(9))])
            wear.hear(values + bytes([records.xor_of(values)]), bench.Verdict("done"))
            wear.hear(values, bench.Verdict("done"))
            assert len(wear.cells.memory) == length and wear.sum.written <= wear.sum.named


# --- the proved library's memory -------------------------------------------------------------

with open(HEADER, encoding="utf-8") as header:
    SIZES = {name: int(number) for name, number in re.findall(r"#define QS_(IMAGE_LENGTH|LABEL_LENGTH|REPLY_ROOM) (\d+)", header.read())}


class Library:
    """Our board by the library's entries, its memory in sight, and how many of its bytes each accepted request changed."""

    def __init__(self, plate):
        self.entries = ctypes.CDLL(os.path.join(ROOT, bench.LIBRARY))
        self.image = ctypes.create_string_buffer(SIZES["IMAGE_LENGTH"])
        self.memory = ctypes.create_string_buffer(plate.total * (status.BLOCK + 1))
        self.room = ctypes.create_string_buffer(SIZES["REPLY_ROOM"])
        self.changed = []
        numbers = [ctypes.c_uint32(number) for number in plate]
        assert self.call("qs_fresh", *numbers, *self.lent(ctypes.create_string_buffer(SIZES["LABEL_LENGTH"])), *self.lent(self.image)) == 0

    @staticmethod
    def lent(buffer):
        return buffer, ctypes.c_uint64(len(buffer))

    def call(self, name, *arguments):
        entry = getattr(self.entries, name)
        entry.restype = ctypes.c_uint64
        return entry(*arguments)

    def closing(self, name, *arguments):
        """A call that may close a frame: its reply, if any. Where that is one to a 4Bh or 4Dh, memory may have changed, else not."""
        before = self.memory.raw
        result = self.call(name, *self.lent(self.image), *arguments, *self.lent(self.memory), *self.lent(self.room)) % (1 << 32)
        assert result <= len(self.room), f"{name} is refused"
        reply, after = self.room.raw[:result], self.memory.raw
        if reply and reply[1] % commands.WARNING in (commands.STORE_DATA, commands.CREATE_FIELD):
            self.changed.append(sum(old != new for old, new in zip(before, after)))
        else:
            assert before == after, reply
        return reply

    def take(self, record):
        """A record of a tape handed to its entry."""
        if isinstance(record, records.Character):
            return self.closing("qs_character", ctypes.c_uint32(record.tick), ctypes.c_uint8(record.value), ctypes.c_uint8(record.parity))
        if isinstance(record, records.Poll):
            return self.closing("qs_poll", ctypes.c_uint32(record.tick))
        if isinstance(record, records.PowerOn):
            assert self.call("qs_power_on", *self.lent(self.image)) == 0
        elif isinstance(record, records.Measured):
            assert self.call("qs_measured", *self.lent(self.image), ctypes.c_uint32(record.position)) == 0
        else:
            assert self.call("qs_fault", *self.lent(self.image), ctypes.c_uint8(record.code)) == 0
        return b""


def stored_tapes():
    """Each stored tape with what is printed of it."""
    for path in sorted(glob.glob(os.path.join(ROOT, "tapes", "*.tape"))):
        with open(path, "rb") as tape, open(path[: -len("tape")] + "out", encoding="ascii") as answers:
            yield os.path.basename(path), tape.read(), answers.read()


def test_counts_are_the_librarys():
    """Over all stored tapes: the cells told as written are as many as the bytes of memory that the call changed, and no other call changes any."""
    accepted_requests = 0
    for name, tape, answers in stored_tapes():
        taken, _ = records.split(tape)
        if not taken:
            continue
        board = Library(taken[0])
        for record in taken[1:]:
            board.take(record)
        page, _ = explain.explain_tape(texts.Session(tape, [], [], []), answers, JUDGE, WRITES)
        told = [int(line.split()[1]) for group in page.split("\n\n") for line in told_of(group)]
        assert told == board.changed and f"named, {sum(told)} written\n" in page, (name, told, board.changed)
        accepted_requests += len(told)
    assert accepted_requests > 60, accepted_requests


def chosen_request(dice, sizes, statuses):
    """A 4Bh or 4Dh, mostly one that is accepted: the last field deleted or changed, the next one created, a few bytes stored that may be there already."""
    last = len(sizes) - 1
    if not sizes or dice.random() < 0.4:
        field = dice.choice((last, last, last + 1, dice.randrange(len(sizes) + 2)))
        named = 0xC0 | dice.randrange(4)
        if 0 <= field <= last:
            named = dice.choice((named, statuses[field] % 0x80, statuses[field], statuses[field] ^ 0x40))
        return bytes([0x40, commands.CREATE_FIELD, max(field, 0), named, 0x55])
    field = dice.randrange(len(sizes))
    offset = dice.randrange(sizes[field])
    count = dice.randrange(1, sizes[field] - offset + 1 + dice.randrange(2))
    return bytes([0x40, commands.STORE_DATA, field, offset, count, 0x55]) + bytes(dice.choice((0, 1)) for _ in range(count))


def asked_of_both(request, board, wear):
    """Puts a request to the library's board and to ours on paper; whether it was accepted."""
    for tick, value in enumerate(request):
        board.take(records.Character(tick, value, False))
    reply = board.take(records.Poll(len(request) + 100))
    return bool(wear.hear(request, JUDGE(request, reply)))


def test_memory_is_the_librarys():
    """Over requests by chance: after each of them every byte of memory is the library's, and so is the sum of what was written."""
    dice = random.Random(6)
    taken = 0
    for _ in range(40):
        plate = records.Plate(dice.randrange(1, 12), 24, 0, 1, 22)
        board, wear = Library(plate), cells.Wear(plate.total)
        for _ in range(60):
            values = chosen_request(dice, wear.cells.sizes(), wear.cells.memory[wear.cells.table :])
            request = values + bytes([records.xor_of(values)])
            assert frames.is_good(request, request[1])
            taken += asked_of_both(request, board, wear)
            assert bytes(wear.cells.memory) == board.memory.raw, (plate, request.hex())
        assert wear.sum.written == sum(board.changed) and wear.untold == 0
    assert taken > 1000, taken
