"""program against encoder: labels as text and as tape, old fields deleted, saved and put back; every way to fail; a cable that is pulled at each stage; labels
compared with tools/label.py; bad command lines and files."""

import os
import pathlib
import pty
import random
import re
import subprocess
from typing import Optional, Tuple

import keeping
import label
import written
from rig import COMMAND_LINE, DONE, ERROR_CODE, FILE_FAULT, PORT_FAULT, REFUSED, ROOT, SILENCE, TIMEOUT, Checks, Encoder, Line, Ran, Tools, Wire, sealed
from test_bench import answering

FAST = ("--rate", "38400", "--pause", "22")
SPINDLE = ROOT / "tools" / "labels" / "spindle.txt"
CODES = "codes 55 55 55 55\n"
OLD = CODES + 'field 2 blocks\ntext "USED"\nfield 1 block, code 1 wanted, read-only\nhex 01 FF 02\n'
DONE_LINE = "done: the board holds 4 fields, 9 blocks\n"
STEPS = (
    ["count the fields", "read the status of field 1", "delete field 1", "read the status of field 0", "delete field 0"]
    + ["create field 0", "store field 0", "read back field 0", "create field 1", "store field 1", "read back field 1"]
    + ["create field 2", "store field 2", "read back field 2", "lock field 2", "create field 3", "store field 3", "read back field 3"]
)
PROGRESS = "".join(f"{place:4} of {14 if place == 0 else 18}  {words}\n" for place, words in enumerate(STEPS, start=1))


def tape_of(text: str) -> bytes:
    found, bad = label.read_label(text)
    assert not bad, bad
    return label.tape_of(found)


def memory_of(text: str, total: int = 112) -> bytes:
    """What memory holds when a label is on the board."""
    fields = label.label_of(tape_of(text)).fields
    return b"".join(field.content for field in fields).ljust(16 * total, b"\x00") + bytes(field.status for field in fields).ljust(total, b"\x00")


def old_board(**more) -> bytes:
    """A board's file with another motor's label."""
    return keeping.board(memory=memory_of(OLD), **more)


def put_text(path: pathlib.Path, text: str) -> pathlib.Path:
    path.write_text(text, encoding="utf-8")
    return path


# --- onto a board -----------------------------------------------------------------------------


def check_whole(tools: Tools, checks: Checks):
    """The label of a text, then what was there before put back from its saved tape, then a tape's."""
    file = keeping.put(tools.folder / "whole.board", old_board(counter=3))
    saved, spindle = tools.folder / "old.tape", tools.folder / "spindle.tape"
    spindle.write_bytes(tape_of(SPINDLE.read_text(encoding="ascii")))
    with Encoder(tools, file, *FAST) as encoder:
        ran = tools.run("program", encoder.port, str(SPINDLE), "--save", str(saved), *FAST)
        expected = f"saved to {saved}: 2 fields, 3 blocks\n" + PROGRESS + DONE_LINE
        checks.check(ran == (DONE, expected, ""), f"the spindle's label: {ran}")
        checks.check(saved.read_bytes() == tape_of(OLD), "the saved tape is the old label's")
        checks.check(keeping.read(file).memory == memory_of(SPINDLE.read_text(encoding="ascii")), "the board holds the spindle's label")
        ran = tools.run("program", encoder.port, str(saved), "--no-save", *FAST)
        checks.check(ran.status == DONE and ran.out.endswith("done: the board holds 2 fields, 3 blocks\n"), f"put back: {ran}")
        checks.check(keeping.read(file).memory == memory_of(OLD), "the board holds the old label again")
        encoder.command("fault 1E")
        ran = tools.run("program", encoder.port, str(spindle), "--no-save", "--address", "all", *FAST)
        checks.check(ran == (DONE, PROGRESS + DONE_LINE, ""), f"a tape, to all, with a fault waiting: {ran}")
        checks.check(keeping.read(file).counter == 3, "the counter is as it was")


def check_saving(tools: Tools, checks: Checks):
    """By the label's name and the time where no name is given; never over another file; and what cannot be read ends it before anything is changed."""
    file = keeping.put(tools.folder / "saving.board", old_board())
    text = put_text(tools.folder / "one.txt", CODES + "field 1 block\n")
    with Encoder(tools, file, *FAST) as encoder:
        taken = keeping.put(tools.folder / "taken", b"mine")
        ran = tools.run("program", encoder.port, str(text), "--save", str(taken), *FAST)
        checks.check(ran == (FILE_FAULT, "", f"program: {taken}: File exists\n") and taken.read_bytes() == b"mine", f"a name that is taken: {ran}")
        ran = tools.run("program", encoder.port, str(text), "--save", "/nowhere/old", *FAST)
        checks.check(ran == (FILE_FAULT, "", "program: /nowhere/old: No such file or directory\n"), f"a folder that is not there: {ran}")
        other = put_text(tools.folder / "other.txt", "codes 55 54 55 55\nfield 1 block\n")
        ran = tools.run("program", encoder.port, str(other), *FAST)
        told = "nothing was changed: the old field 1 cannot be saved: error 0Fh wrong access code (not the code that is wanted)\n"
        checks.check(ran == (ERROR_CODE, told, ""), f"a field that cannot be read: {ran}")
        checks.check(keeping.read(file).memory == memory_of(OLD), "nothing was changed")
        ran = tools.run("program", encoder.port, str(text), *FAST)
        named = re.match(rf"saved to ({re.escape(str(text))}\.before-\d{{8}}-\d{{6}}): 2 fields, 3 blocks\n", ran.out)
        checks.check(ran.status == DONE and named is not None, f"a name by the time: {ran}")
        checks.check(named is not None and pathlib.Path(named.group(1)).read_bytes() == tape_of(OLD), "saved by the time's name")
        empty = put_text(tools.folder / "empty.txt", CODES)
        ran = tools.run("program", encoder.port, str(empty), "--no-save", *FAST)
        checks.check(ran.out.endswith("done: the board holds 0 fields, 0 blocks\n"), f"a label without fields: {ran}")
        ran = tools.run("program", encoder.port, str(text), *FAST)
        checks.check(ran.status == DONE and ran.out.startswith("no field was on the board\n"), f"nothing to save: {ran}")


FAILING = (
    ("codes 54 55 55 55\n", ERROR_CODE, "failed after 4 of 5 requests: delete field 0: error 0Fh wrong access code (not the code that is wanted)\n"),
    ("codes 55 54 55 55\n", ERROR_CODE, "failed after 2 of 5 requests: delete field 1: error 0Fh wrong access code (not the code that is wanted)\n"),
    (
        CODES + "field 8 blocks\n" * 14 + "field 1 block\n",
        ERROR_CODE,
        "failed after 47 of 50 requests: create field 14: error 10h out of memory (the blocks are not there, or the field is not the last)\n",
    ),
)


def check_failing(tools: Tools, checks: Checks):
    for text, status, last in FAILING:
        file = keeping.put(tools.folder / "failing.board", old_board())
        with Encoder(tools, file, *FAST) as encoder:
            ran = tools.run("program", encoder.port, str(put_text(tools.folder / "failing.txt", text)), "--no-save", *FAST)
        checks.check(ran.status == status and ran.out.splitlines(True)[-1:] == [last] and ran.err == "", f"{last}: {ran}")
    with Line() as line:
        ran = tools.run("program", line.name, str(SPINDLE))
        checks.check(ran == (SILENCE, "nothing was changed: the old fields cannot be counted: silence: no reply came\n", ""), f"silence: {ran}")
        ran = tools.run("program", line.name, str(SPINDLE), "--no-save")
        checks.check(ran == (SILENCE, "failed after 0 of 14 requests: count the fields: silence: no reply came\n", ""), f"silence: {ran}")
        line.hear(100, 0.05)
        board = answering(line, 3, sealed(0x41, 0x4E, 0x70, 0x00))
        ran = tools.run("program", line.name, str(SPINDLE), "--no-save")
        board.join()
        told = "failed after 0 of 14 requests: count the fields: refused B3: the reply comes from another address\n"
        checks.check(ran == (REFUSED, told, ""), f"another board's reply: {ran}")


def check_differs(tools: Tools, checks: Checks):
    """A board that reads back another byte."""

    def spoiled(sender: int, data: bytes) -> bytes:
        is_data = sender == 0 and data[1] == 0x4A
        return sealed(*data[:5], data[5] ^ 1, *data[6:-1]) if is_data else data

    file = keeping.put(tools.folder / "differs.board", keeping.board())
    with Wire(2, passes=spoiled) as wire, Encoder(tools, file, *FAST, port=wire.name(0)):
        ran = tools.run("program", wire.name(1), str(SPINDLE), "--no-save", *FAST, "--patience", "50")
    last = "failed after 3 of 14 requests: read back field 0: what was read back is not what was stored\n"
    checks.check(ran.status == REFUSED and ran.out.splitlines(True)[-1:] == [last] and ran.err == "", f"other bytes: {ran}")


def on_screen(tools: Tools, *arguments: str) -> str:
    """What the program writes to a terminal."""
    screen, terminal = pty.openpty()
    command = [tools.path("program"), *arguments]
    subprocess.run(command, stdout=terminal, stderr=terminal, stdin=subprocess.DEVNULL, timeout=TIMEOUT, check=False)
    os.close(terminal)
    shown = b""
    try:
        while True:
            shown += os.read(screen, 4096)
    except OSError:
        os.close(screen)
    return shown.decode()


def check_bar(tools: Tools, checks: Checks):
    """On a terminal: one line that is written over, and ended before anything else is told."""
    file = keeping.put(tools.folder / "bar.board", old_board())
    with Encoder(tools, file, *FAST) as encoder:
        shown = on_screen(tools, encoder.port, str(SPINDLE), "--no-save", *FAST)
    parts = shown.split("\r")
    checks.check(len([part for part in parts if part.startswith("[")]) == 18, f"eighteen bars: {parts}")
    checks.check(any(part.startswith("[############..................]    7 of 18  store field 0  ") for part in parts), f"the seventh bar: {parts}")
    checks.check(shown.endswith("] " + "  18 of 18  read back field 3           \r\n" + DONE_LINE.replace("\n", "\r\n")), f"the end: {parts[-3:]}")
    line = Line()
    board = answering(line, 3, sealed(0x40, 0x4E, 0x70, 0x00), lambda: (line.hear(6, 5), line.pull()))
    name = line.name
    shown = on_screen(tools, name, str(SPINDLE), "--no-save")
    board.join()
    checks.check(f"count the fields            \r\nprogram: {name}: the port is gone" in shown and shown.count("\n") == 2, f"a complaint behind a bar: {shown!r}")


def check_cut_off(tools: Tools, checks: Checks):
    """Who reads the progress goes away: the run goes on to its end, and that is told."""
    file = keeping.put(tools.folder / "cut-off.board", old_board())
    with Encoder(tools, file, *FAST) as encoder:
        command = [tools.path("program"), encoder.port, str(SPINDLE), "--no-save", *FAST]
        ran = subprocess.Popen(command, stdout=subprocess.PIPE, stderr=subprocess.PIPE, text=True)
        ran.stdout.readline()
        ran.stdout.close()
        err = ran.stderr.read()
        checks.check(ran.wait(TIMEOUT) == FILE_FAULT and err == "program: standard output cannot be written\n", f"nobody reads: {ran.returncode} {err}")
        ran.stderr.close()
    checks.check(keeping.read(file).memory == memory_of(SPINDLE.read_text(encoding="ascii")), "nobody reads: the board holds the label")


# --- the cable --------------------------------------------------------------------------------


class Cut:
    """Passes bytes on and counts them; after so many it pulls the program's cable. 0: never."""

    def __init__(self, after: int):
        self.after = after
        self.passed = 0
        self.wire: Optional[Wire] = None

    def __call__(self, sender: int, data: bytes) -> bytes:
        left = self.after - self.passed if self.after else len(data)
        self.passed += min(left, len(data))
        if self.after and self.passed == self.after:
            self.last(sender, data[:left])
        return data[:left]

    def last(self, sender: int, data: bytes):
        program = self.wire.lines[1]
        if program.fd >= 0 and sender == 0:
            os.write(program.fd, data)
        program.pull()


def run_cut(tools: Tools, file: pathlib.Path, after: int) -> Tuple[Ran, str, int]:
    """A run whose cable is pulled: how the program ended, the name of its port, and how many bytes passed."""
    keeping.put(file, old_board())
    cut = Cut(after)
    with Wire(2, passes=cut) as wire, Encoder(tools, file, *FAST, port=wire.name(0)):
        cut.wire = wire
        name = wire.name(1)
        ran = tools.run("program", name, str(SPINDLE), "--no-save", *FAST, "--patience", "5")
    return ran, name, cut.passed


def check_pulled(tools: Tools, checks: Checks):
    """Pulled after so many bytes of both directions together: one line, and the next run repairs it."""
    file = tools.folder / "pulled-shop.board"
    whole = memory_of(SPINDLE.read_text(encoding="ascii"))
    ran, _, passed = run_cut(tools, file, 0)
    checks.check(ran.status == DONE, f"a cable that is not pulled: {ran}")
    for after in [*range(1, 20), *range(20, passed, 23)]:
        ran, name, _ = run_cut(tools, file, after)
        told = ran.err.startswith(f"program: {name}: the port is gone") and ran.err.count("\n") == 1
        checks.check(ran.status == PORT_FAULT and told and "failed" not in ran.out, f"pulled after {after} bytes: {ran}")
        with Encoder(tools, file, *FAST) as encoder:
            ran = tools.run("program", encoder.port, str(SPINDLE), "--no-save", *FAST)
        checks.check(ran.status == DONE and keeping.read(file).memory == whole, f"the run after {after} bytes: {ran}")


# --- labels -----------------------------------------------------------------------------------

WORDS = ["1 block", "2  blocks", "8 blocks", "16 bytes", "128 bytes", "code 1 wanted", "code number 3", "read-only", "write-enabled", "no code wanted", "code wanted"]
BAD_WORDS = ["", "9 blocks", "0 blocks", "17 bytes", "1 byte", "x blocks", "code 4 wanted", "code number x", "blocks", "2 block", "locked", "01 blocks"]
CONTENT = [
    'text "SN 4711"', 'text "a \\"b\\" \\\\ \\x00\\xFF"', "hex 00 01,02", "hex 0x1 0xFF 40h", "hex 00*8", "hex 0102*3  FFh", 'text "# no comment" # one',
    'text  ""', 'text "open', "text SN", 'text "a" b', 'text "\\n"', 'text "\\x0"', "hex", "hex 0", "hex 0x123", "hex 00*", "hex 00*100001", "hex 00*999999999999999999999",
    "hex 00*0", "hex 00 * 2", "hex zz", "hex 00*129", "hex 0x", "hex 12h3", "hex FF;", "#only", "Hex 00", "field", "codes 55 55 55 55", "codes 1", "texts", "\thex\tFF\t",
]
CODE_LINES = ["codes 55 55 55 55", "codes 01,02 0304", "codes 55*4", "codes 55 55 55", "codes 55*5", "codes", "codes 5", "# codes 55 55 55 55", ""]


def random_text(dice: random.Random) -> str:
    lines = [CODE_LINES[0] if dice.random() < 0.7 else dice.choice(CODE_LINES)]
    for _ in range(dice.randrange(4)):
        words = dice.sample(WORDS[:5], 1) + dice.sample(WORDS[5:], dice.randrange(3))
        if dice.random() < 0.15:
            words.append(dice.choice(BAD_WORDS))
        dice.shuffle(words)
        lines.append(" " * dice.randrange(3) + "field " + dice.choice([", ", ",", " , "]).join(words))
        lines += dice.choices(CONTENT[:7] if dice.random() < 0.7 else CONTENT, k=dice.randrange(4))
    if dice.random() < 0.1:
        dice.shuffle(lines)
    return dice.choice(["\n", "\r\n", "\r"]).join(lines) + dice.choice(["", "\n"])


def check_text(tools: Tools, checks: Checks, text: str, file: pathlib.Path):
    """program --check says of a text what label.py says: that it is good, or which line is the first bad one, and why."""
    file.write_bytes(text.encode())
    found, bad = label.read_label(written.text_of_bytes(text.encode()))
    ran = tools.run("program", "--check", str(file))
    if bad:
        checks.check(ran == (FILE_FAULT, "", f"program: {file}: {bad[0]}\n"), f"{text!r}: {ran}, not {bad[0]}")
    else:
        needed = found.summary().replace("summary: ", f"{file}: good: ")
        checks.check(ran == (DONE, needed + "\n", ""), f"{text!r}: {ran}, not {needed}")


def check_texts(tools: Tools, checks: Checks, number: int):
    dice, file = random.Random(4), tools.folder / "random.txt"
    for line in CONTENT:
        check_text(tools, checks, f"{CODES}field 8 blocks\n{line}\n", file)
        check_text(tools, checks, f"{line}\n{CODES}", file)
    for words in WORDS + BAD_WORDS:
        check_text(tools, checks, f"{CODES}field {words}\n", file)
        check_text(tools, checks, f"{CODES}field 4 blocks, {words}, {words}\n", file)
    for text in ("", "\n\n", "\ufeff" + CODES, CODES + "field 1 block\n" * 256, CODES + "field 1 block\n" * 257, CODES + CODES, "field 1 block\n" + CODES):
        check_text(tools, checks, text, file)
    for _ in range(number):
        check_text(tools, checks, random_text(dice), file)


def check_tapes_of_texts(tools: Tools, checks: Checks):
    """Of a good text, the tape that label.py makes: seen by what comes onto the board."""
    dice = random.Random(5)
    file = keeping.put(tools.folder / "texts.board", keeping.board())
    with Encoder(tools, file, *FAST) as encoder:
        made = 0
        while made < 12:
            text = random_text(dice)
            if label.read_label(text)[1] or not text.startswith(CODES[:-1]):
                continue
            made += 1
            put = tools.folder / "made.txt"
            put.write_bytes(text.encode())
            ran = tools.run("program", encoder.port, str(put), "--no-save", *FAST)
            checks.check(ran.status == DONE and keeping.read(file).memory == memory_of(text), f"{text!r} onto the board: {ran}")


WANTS = "wants a port and a label, or --check and a label, and one of --save and --no-save at most; --help has more"
ANY_RECORD = "cut short, an unknown kind, codes missing or twice, no bit 7, or a 257th field"


def check_bad_use(tools: Tools, checks: Checks):
    folder = tools.folder
    tape = tape_of(CODES + "field 1 block\n")
    nowhere = folder / "nowhere.txt"
    for path, why in (
        (keeping.put(folder / "cut.tape", tape[:-1]), f"bad record at place 8: {ANY_RECORD}"),
        (keeping.put(folder / "size.tape", tape[:8] + b"\x14" + tape[9:] + b"\x00"), "wrong size at place 8: the field's bytes are not as many as its status says"),
        (keeping.put(folder / "long.tape", tape[:8] + tape[8:] * 2000), "over 34056 bytes, which is more than any label tape has"),
        (keeping.put(folder / "long.txt", b"#" * (1 << 18) + b"\n"), "over 262144 bytes, which is more than any label has"),
        (keeping.put(folder / "wide.txt", CODES.encode("utf-16")), "this text is UTF-16; save it as UTF-8"),
        (keeping.put(folder / "latin.txt", CODES.encode() + b'field 1 block\ntext "\xe9"\n'), "line 3: no printable ASCII: byte E9h; \\xNN says any byte"),
        (nowhere, "No such file or directory"),
        (pathlib.Path("/dev/zero"), "a device, not a label"),
        (folder, "Is a directory"),
    ):
        for arguments in (["--check", str(path)], ["/nowhere", str(path)]):
            ran = tools.run("program", *arguments)
            checks.check(ran == (FILE_FAULT, "", f"program: {path}: {why}\n"), f"{why}: {ran}")
    for words, why in (
        ("", WANTS),
        ("A", WANTS),
        ("--check A B", WANTS),
        ("A B --save x --no-save", WANTS),
        ("A B --save", "--save wants a value; --help has it"),
        ("A B --address 99", "--address is 0 to 31, not '99'"),
        ("A B --code 55", "there is no option --code; --help lists them"),
    ):
        ran = tools.run("program", *words.split())
        checks.check(ran == (COMMAND_LINE, "", f"program: {why}\n"), f"program {words}: {ran}")
    ran = tools.run("program", "/dev/null", str(SPINDLE))
    checks.check(ran == (PORT_FAULT, "", "program: /dev/null: not a serial port\n"), f"not a port: {ran}")


def test(tools: Tools, checks: Checks):
    check_whole(tools, checks)
    check_saving(tools, checks)
    check_failing(tools, checks)
    check_differs(tools, checks)
    check_bar(tools, checks)
    check_cut_off(tools, checks)
    check_pulled(tools, checks)
    check_texts(tools, checks, 400)
    check_tapes_of_texts(tools, checks)
    check_bad_use(tools, checks)
