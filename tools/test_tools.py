#!/usr/bin/env python3
"""Tests of the tools: those of the other test files, and here the command line, bad files and the answer program.

    test_tools.py             the tools alone, with the judge of target/libquicksetter.so
    test_tools.py PROGRAM     also the sessions, run through this answer program
"""

import os
import random
import subprocess
import sys
import tempfile

import bench
import boards
import bus
import explain
import label
import tape
import test_boards
import test_cells
import test_explain
import test_fields
import test_label
import test_tape
import texts
import traffic
import words
import written
from test_boards import PLATES
from test_explain import BACK_AT_308, JUDGE, LOG
from test_tape import ASKED, BUSES, HERE, PLATE_LINE, SESSIONS, SHEET_TAPE, SHEET_TEXT, path_of, put, run_tool, session


def test_command_line():
    assert run_tool("tape.py", ["write"], SHEET_TEXT.encode()) == (0, SHEET_TAPE, b"")
    assert run_tool("tape.py", ["write"], b"\xef\xbb\xbf" + SHEET_TEXT.replace("\n", "\r\n").encode()) == (0, SHEET_TAPE, b"")
    assert run_tool("tape.py", ["read"], SHEET_TAPE) == (0, SHEET_TEXT.encode(), b"")
    assert run_tool("tape.py", ["write"], b"poll 3\n") == (1, b"", b"tape.py: line 1: the plate comes first\n")
    assert run_tool("tape.py", ["write"], b"# caf\xe9\n") == (1, b"", b"tape.py: line 1: not UTF-8 text (byte E9h)\n")
    assert run_tool("tape.py", ["--help"], b"")[:2] == (0, tape.__doc__.encode())
    assert run_tool("explain.py", ["--help"], b"")[:2] == (0, explain.__doc__.encode())
    assert b"12.4 ms < 40 4E 70 00 7E" in run_tool("explain.py", ["-h"], b"")[1]
    for arguments in ([], ["one", "two", "three"], ["--log"], ["--run", "one"], ["--library"], ["--other", "one"]):
        assert run_tool("explain.py", arguments, b"")[::2] == (2, explain.__doc__.encode() + b"\n"), arguments
    assert run_tool("tape.py", [], b"")[0] == 2 and run_tool("tape.py", ["write", "a", "b"], b"")[0] == 2
    status, _, said = run_tool("explain.py", ["-", os.devnull], SHEET_TAPE)
    assert (status, said) == (1, b"explain.py: the answers do not start with the line `tick reply`\n")


def test_command_line_of_several_boards():
    text = session("two-boards").encode()
    tapes = boards.stored(session("two-boards"))
    assert run_tool("tape.py", ["write", "b"], text) == (0, tapes["b"][0], b"")
    for arguments in (["write"], ["write", "c"]):
        assert run_tool("tape.py", arguments, text) == (1, b"", b"tape.py: whose tape? `tape.py write NAME`; there are a, b\n")
    assert run_tool("tape.py", ["write", "a"], SHEET_TEXT.encode()) == (1, b"", b"tape.py: a text of one board, which has no name: a\n")
    status, tape_of_a, said = run_tool("tape.py", ["write", "a"], PLATES.encode() + b"poll\n")
    assert (status, tape_of_a) == (1, b"") and said.startswith(b"tape.py: line 3: poll is for a text of one board")
    with tempfile.TemporaryDirectory() as folder:
        tape_file, answers = put(folder, "b.tape", tapes["b"][0]), put(folder, "b.out", tapes["b"][1].encode())
        assert run_tool("explain.py", [tape_file, answers], b"")[0] == 0
        status, page, said = run_tool("explain.py", ["-", answers], text)
        assert (status, page, said) == (1, b"", b"explain.py: -: a text of several boards; tell each board's tape with its own answers\n")
        status, page, said = run_tool("explain.py", ["--run", "/bin/cat", "-"], PLATES.encode() + b"poll\npower-on\n")
        assert status == 1 and b" 2 bad lines," in page and said.count(b"\n") == 2


def test_exit_status():
    ask = PLATE_LINE.encode() + b"ask memory-status\n"
    answers = b"tick reply\n308 40 4E 08 00 06\n"
    with tempfile.TemporaryDirectory() as folder:
        answered = put(folder, "answers", answers)
        for given, status, line in (
            (ask, 0, b"0 bad lines, 0 failed expectations"),
            (ask + b"expect done\n", 0, b"0 failed expectations"),
            (ask + b"expect silence\n", 1, b"1 failed expectation\n"),
            (ask + b"oops\nexpect\n", 1, b"summary: 0 frames, 0 replies, 0 errors, 0 silences, 0 wrong or missing replies, 2 bad lines"),
            (texts.tape_of(PLATE_LINE + "ask memory-status\n"), 0, b"summary: 1 frame, 1 reply,"),
            (texts.tape_of(PLATE_LINE + "ask memory-status\n") + b"\x05", 1, b"1 bad line,"),
            (ask + b"ask memory-status\n", 1, b"1 wrong or missing reply,"),
        ):
            found, page, _ = run_tool("explain.py", ["-", answered], given)
            assert found == status and line in page, (given, page)
        log = put(folder, "log", LOG.encode())
        assert run_tool("explain.py", ["--log", log], b"")[0] == 0 and run_tool("explain.py", ["--log", answered], b"")[0] == 1
        said = run_tool("explain.py", ["-", answered], ask + b"oops\nexpect\n")[2].decode()
        assert said.startswith("explain.py: -: line 3: no event starts like this: oops\nexplain.py: -: line 4: not of the shape")


def test_no_file_brings_a_traceback():
    with tempfile.TemporaryDirectory() as folder:
        answers = put(folder, "answers", b"tick reply\n")
        noise = bytes(random.Random(3).randrange(256) for _ in range(4000))
        names = {
            "missing": os.path.join(folder, "missing"),
            "a directory": folder,
            "binary": put(folder, "binary", noise),
            "not UTF-8": put(folder, "latin", b"plate total 8 # caf\xe9\n"),
            "one long line": put(folder, "long", b"9" * 100000),
            "UTF-16": put(folder, "utf16", "plate".encode("utf-16")),
        }
        for what, name in names.items():
            for arguments in ([name, answers], ["--run", "/bin/cat", name], ["--log", name], [answers, name], ["--run", name, answers]):
                status, _, said = run_tool("explain.py", arguments, b"")
                assert status == 1 and said.count(b"\n") <= 1, (what, arguments, said)
        empty = put(folder, "empty", b"")
        assert run_tool("explain.py", [empty, answers], b"") == (0, (words.Summary().line() + "\n").encode(), b"")
        assert run_tool("explain.py", [answers, empty], b"")[0] == 1 and run_tool("explain.py", ["--log", empty], b"")[0] == 1
        for name in (os.path.join(folder, "missing"), folder):
            assert run_tool("explain.py", [name, answers], b"")[2].startswith(b"explain.py: [Errno "), name
        for what, message in (("not UTF-8", "line 1: not UTF-8 text (byte E9h)"), ("UTF-16", "this text is UTF-16; save it as UTF-8")):
            for arguments in ([names[what], answers], ["--log", names[what]]):
                assert run_tool("explain.py", arguments, b"")[2] == f"explain.py: {names[what]}: {message}\n".encode(), what
        assert run_tool("explain.py", ["--run", "/bin/false", empty], b"")[2] == b"explain.py: the answer program ended with status 1\n"


# What the shell does with a tool's output, and the exit status that is left.
OUTPUTS = (
    ('"$@" | head -n 1 >/dev/null; exit "${PIPESTATUS[0]}"', 0),
    ('"$@" >/dev/full', 1),
    ('"$@" >&-', 1),
    ('"$@" >&- 2>&-', 1),
    ('"$@" 2>&- >/dev/null', 0),
)


# With its buffers, a stream that cannot be written is tried once more when Python ends.
BUFFERED = {name: value for name, value in os.environ.items() if name != "PYTHONUNBUFFERED"}


def shell_runs(script, tool, given=b""):
    """What a shell makes of a tool's call: the exit status, once it is seen that no traceback came."""
    found = subprocess.run(["bash", "-c", script, "bash", sys.executable] + tool, input=given, capture_output=True, env=BUFFERED, check=False)
    assert b"Traceback" not in found.stderr and b"Exception" not in found.stderr, (script, found)
    return found.returncode


def test_closed_pipe_and_full_disk():
    """A page longer than any buffer, and one that fits into it."""
    turns = 1000
    long_session = (PLATE_LINE + "ask 40 44\n" * turns).encode()
    answers = "tick reply\n" + "".join(f"{308 + 352 * turn} 40 50 0B 1B\n" for turn in range(turns))
    explaining, writing, labelling = (os.path.join(HERE, name) for name in ("explain.py", "tape.py", "label.py"))
    long_label = test_label.FIRST + test_label.SMALL * 256
    with tempfile.TemporaryDirectory() as folder:
        long_page = [explaining, put(folder, "session", long_session), put(folder, "answers", answers.encode())]
        for tool in (long_page, [explaining, "--help"], [labelling, "--show", put(folder, "label", long_label)]):
            for script, status in OUTPUTS:
                assert shell_runs(script, tool) == status, (script, tool)
            reading_end, writing_end = os.pipe()
            os.close(reading_end)
            found = subprocess.run([sys.executable] + tool, stdout=writing_end, stderr=subprocess.PIPE, env=BUFFERED, check=False)
            os.close(writing_end)
            assert (found.returncode, found.stderr) == (0, b""), found
    assert shell_runs(OUTPUTS[0][0], [writing, "write"], long_session) == 0
    assert shell_runs(OUTPUTS[0][0], [labelling, test_label.SPINDLE, "-"]) == 0
    assert shell_runs('"$@" >/dev/full', [labelling, test_label.SPINDLE, "-"]) == 1
    assert shell_runs('"$@" >/dev/full', [writing, "read"], SHEET_TAPE) == 1


def test_nothing_that_is_not_built():
    """Without the answer program or the library, one line says how to make it."""
    root = bench.ROOT
    with tempfile.TemporaryDirectory() as folder:
        bench.ROOT = folder
        try:
            assert raised(bench.load, bench.Missing).endswith("make it: make target/libquicksetter.so")
            assert raised(explain.built_program, written.WrittenError).endswith("make it: make target/here/answer")
        finally:
            bench.ROOT = root


def raised(call, kind):
    try:
        call()
    except kind as error:
        assert "\n" not in str(error)
        return str(error)
    raise AssertionError(f"{call} raised nothing")


def scrambled(dice, lines):
    """Lines with letters changed, cut, doubled or swapped."""
    letters = list("\n".join(dice.choice(lines) for _ in range(dice.randrange(1, 8)))) or ["#"]
    for _ in range(dice.randrange(6)):
        place = dice.randrange(len(letters))
        letters[place] = dice.choice((letters[place] * 2, "", dice.choice('09afx<>*"#:,. \t\u00e4\u0661'), dice.choice(letters)))
    return "".join(letters)


def test_scrambled_texts():
    """Whatever stands in a text, a log or answers: bad lines are told, and nothing else is raised."""
    dice = random.Random(4)
    lines = [line for name in SESSIONS for line in session(name).splitlines()] + [f"ask {named}" for named, _ in ASKED]
    logs = LOG.splitlines()
    shared = [line for name in BUSES for line in session(name).splitlines()]
    for _ in range(500):
        script = boards.read_script(PLATES + scrambled(dice, shared))
        try:
            bus.explain_bus(script, lambda _: "tick reply\n308 40 4E 08 00 06\n", JUDGE)
        except texts.TextError:
            continue
    for _ in range(1500):
        found = texts.read_session(PLATE_LINE + scrambled(dice, lines))
        explain.explain_tape(found, "tick reply\n", JUDGE)
        traffic.explain_log(scrambled(dice, logs), JUDGE)
        try:
            explain.explain_tape(found, "tick reply\n" + scrambled(dice, ["308 40 4E 08 00 06", "bad 9", "660 40"]), JUDGE)
        except written.WrittenError:
            continue


def test_scrambled_labels():
    """Of a label too; and where no line is bad, the tape is good."""
    dice = random.Random(8)
    lines = test_label.spindle().splitlines() + test_label.TEXT.splitlines()
    good = 0
    for _ in range(1500):
        found, bad = label.read_label(test_label.CODES + scrambled(dice, [line for line in lines if not line.startswith("codes")]))
        if not bad:
            label.label_of(label.tape_of(found))
            good += 1
    assert good > 100, good


def test_program(program):
    for name in SESSIONS:
        text = session(name)
        answers = explain.answers_of(program, texts.tape_of(text))
        assert answers == texts.answers_to_come(text), f"{name}: {answers}"
        status, page, said = run_tool("explain.py", ["--run", program, path_of(name)], b"")
        assert (status, said) == (0, b"") and b"FAILED" not in page and page.rstrip().endswith(b" 0 failed expectations"), name
    for name in BUSES:
        for board, (stored_tape, answers) in boards.stored(session(name)).items():
            assert explain.answers_of(program, stored_tape) == answers, (name, board)
        status, page, said = run_tool("explain.py", ["--run", program, path_of(name)], b"")
        assert (status, said) == (0, b"") and b"FAILED" not in page, name
    taken = PLATES + "ask to 1 set-encoder-address address 0 code 55\nboard b: expect done\nask to 0 memory-status\n"
    status, page, _ = run_tool("explain.py", ["--run", program, "-"], taken.encode())
    assert status == 1 and b"which it took for a request" in page and b"clash     boards a and b answer at once" in page
    is_built = os.path.isfile(os.path.join(bench.ROOT, explain.ANSWER))
    assert run_tool("explain.py", [path_of("pallet-night")], b"")[0] == (0 if is_built else 1)
    torn = texts.tape_of(PLATE_LINE) + b"\x05"
    assert explain.answers_of(program, torn) == "tick reply\nbad 9\n"
    assert run_tool("explain.py", ["--run", program, "-"], torn)[0] == 1
    one_tick = "frame at 0: 40 53 13\nframe at 308 every 4: 40 4E 0E\nexpect reply 40 4E 08 00 06\npoll 308\n"
    for lines in (one_tick, BACK_AT_308 + "expect reply 40 46 00 00 00 06\n"):
        assert run_tool("explain.py", ["--run", program, "-"], (PLATE_LINE + lines).encode())[0] == 0, lines
    wrong = session("drive-start-up").replace("expect reply 40 4E 67 02 sum", "expect reply 40 4E 68 02 sum")
    status, page, _ = run_tool("explain.py", ["--run", program, "-"], wrong.encode())
    assert status == 1 and b"expect reply 40 4E 68 02 sum: FAILED\n" in page and page.endswith(b" 1 failed expectation\n")


def main(arguments):
    modules = (test_tape, test_explain, test_boards, test_fields, test_cells, test_label, sys.modules[__name__])
    found = [each for module in modules for each in vars(module).items()]
    tests = [check for name, check in found if name.startswith("test_") and callable(check) and check is not test_program]
    for check in tests:
        check()
    for program in arguments:
        test_program(program)
    print(f"tools: {len(tests) + len(arguments)} tests passed")


if __name__ == "__main__":
    main(sys.argv[1:])
