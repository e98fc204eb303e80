"""Tests of boards.py and bus.py: texts of several boards, each board's tape, which board answered, and clashes."""

import boards
import bus
import records
import texts
import words
from test_explain import JUDGE
from test_tape import BUSES, session

PLATES = "board a: plate total 112 bits 24 address 0 ticks 4 pause 55\nboard b: plate total 8 bits 24 address 1 ticks 4 pause 55\n"
PLATE_A, PLATE_B = (line.split(": ")[1] + "\n" for line in PLATES.splitlines())


def told(text, **answers):
    """The page and sums of a text on the lines that each board's answer program prints, whatever its tape."""
    script = boards.read_script(text)
    assert not script.bad, script.bad
    printed = {records.encode(plate): "tick reply\n" + answers.get(name, "") for name, plate in script.plates.items()}
    return bus.explain_bus(script, lambda tape: printed[tape[:9]], JUDGE)


def stored_answers(text):
    """What each board is to print, without the first line."""
    return {name: answers.partition("\n")[2] for name, (_, answers) in boards.stored(text).items()}


# --- texts and tapes -------------------------------------------------------------------------

# Board b is asked and answers, then moves to address 5 and answers there; board a is asked last, with a code that waits.
MOVED = PLATES + """ask to 1 memory-status
board b: expect reply 41 4E 08 00 sum
ask to 1 set-encoder-address address 5 code 54
board b: expect error wrong-access-code
ask to 1 set-encoder-address address 5 code 55
board b: expect reply 45 55 10
ask 41 4E
expect silence
ask to 5 memory-status
board b: expect reply 45 4E 08 00 sum
ask 45 44
board b: expect error unknown-command
board b: power-on
board a: fault 08
ask at 9000 40 46
board a: expect reply 40 C6 00 00 00 sum
"""

# The same as each board hears it, written by hand: a reply starts when the pause is over, and a pause behind it follows.
HEARD_BY_A = """frame at 0: 41 4E 0F
poll 308
frame at 352: 41 4E 08 00 07
poll 748
frame at 792: 41 55 45 54 05
poll 1188
frame at 1232: 41 50 0F 1E
poll 1584
frame at 1628: 41 55 45 55 04
poll 2024
frame at 2068: 45 55 10
poll 2376
frame at 2420: 41 4E 0F
poll 2728
frame at 2772: 45 4E 0B
poll 3080
frame at 3124: 45 4E 08 00 03
poll 3520
frame at 3564: 45 44 01
poll 3872
frame at 3916: 45 50 0B 1E
poll 4268
fault 08
frame at 9000: 40 46 06
poll 9308
poll 9792
"""
HEARD_BY_B = """frame at 0: 41 4E 0F
poll 308
poll 748
frame at 792: 41 55 45 54 05
poll 1188
poll 1584
frame at 1628: 41 55 45 55 04
poll 2024
poll 2376
frame at 2420: 41 4E 0F
poll 2728
frame at 2772: 45 4E 0B
poll 3080
poll 3520
frame at 3564: 45 44 01
poll 3872
poll 4268
power-on
frame at 9000: 40 46 06
poll 9308
frame at 9352: 40 C6 00 00 00 86
poll 9792
"""


def test_each_board_hears_the_others():
    tapes = boards.stored(MOVED)
    assert tapes["a"][0] == texts.tape_of(PLATE_A + HEARD_BY_A)
    assert tapes["b"][0] == texts.tape_of(PLATE_B + HEARD_BY_B)
    assert tapes["a"][1] == "tick reply\n9308 40 C6 00 00 00 86\n"
    replies_of_b = "308 41 4E 08 00 07\n1188 41 50 0F 1E\n2024 45 55 10\n3080 45 4E 08 00 03\n3872 45 50 0B 1E\n"
    assert tapes["b"][1] == "tick reply\n" + replies_of_b
    assert list(tapes) == ["a", "b"] and not boards.has_boards("# board\n" + PLATE_A) and boards.has_boards("\n# two\n" + PLATES)


def test_bad_lines():
    cases = (
        ("ask memory-status", "several boards are on the line: `ask to ADDRESS ..` or `ask to all ..`"),
        ("ask every 44 41 4E", "every is for a text of one board"),
        ("board a: ask to 0 memory-status", "every board hears an ask: no board's name stands in front of it"),
        ("board c: power-on", "no board c; there are a, b"),
        ("power-on", "several boards are on the line, so whose: `board NAME: power-on`"),
        ("fault 08", "several boards are on the line, so whose: `board NAME: fault`"),
        (PLATE_A.strip(), "several boards are on the line, so whose: `board NAME: plate`"),
        ("poll 3", "poll is for a text of one board; on a line of several the master only asks"),
        ("board a: frame: 40 4E 0E", "frame is for a text of one board; on a line of several the master only asks"),
        ("board a power-on", "not of the shape `board NAME: EVENT`, the name of at most 8 small letters or digits: board a power-on"),
        ("board a: oops", "no event starts like this: oops"),
        ("expect silence", "expect speaks of the last ask, and there is none"),
        ("ask 40 4E\nexpect done", "several boards are on the line: `board NAME: expect ..`; only `expect silence` speaks of all"),
        ("ask 40 4E\nboard b: expect well", "nothing that can be expected: well"),
        ("ask 40 4E\nboard c: " + PLATE_A.strip(), "the plates come first"),
        ("board a: " + PLATE_A.strip(), "a second plate for board a"),
        ("board c: plate total 8 bits 24 address 2 ticks 8 pause 55", "boards on one line have the same ticks and pause"),
        ("board c: plate total 0 bits 24 address 2 ticks 4 pause 55", "the plate would be refused: total is 0, not 1 to 112"),
    )
    for lines, message in cases:
        found = [str(error) for error in boards.read_script(PLATES + lines + "\n").bad]
        assert found == [f"line {lines.count(chr(10)) + 3}: {message}"], found
    assert len(boards.read_script(PLATES + "poll\nask to 1 memory-status\nraw: 00\n").bad) == 2
    assert len(boards.read_script("board a: plate\nboard a: power-on\n").bad) == 1


def test_texts_that_cannot_be_stored():
    cases = (
        ("ask 41 4E\nboard b: expect done\n", "line 4: no bytes are named for this reply: a stored session needs `expect reply`"),
        ("ask 41 4E\nexpect silence\nboard b: expect reply 41\n", "line 5: another reply is named already: silence"),
        ("ask 41 4E\nboard b: expect reply 41 4E 08 00 sum\nask at 791 40 4E\n", "line 5: the line is free from tick 792 on"),
        ("poll\n", "line 3: poll is for a text of one board; on a line of several the master only asks"),
    )
    for lines, message in cases:
        try:
            boards.stored(PLATES + lines)
        except texts.TextError as error:
            assert str(error) == message, str(error)
        else:
            raise AssertionError(f"taken: {lines!r}")


# --- the page --------------------------------------------------------------------------------


def test_which_board_answered():
    page, summary = told(MOVED, **stored_answers(MOVED))
    assert summary == words.Summary(frames=7, replies=6, errors=2, silences=1) and summary.status() == 0
    for line in (
        "a: Board of 112 blocks, 24 position bits, address 0 (40h), 4 ticks a bit; a gap of 220 ticks (5.729 ms) closes a frame.\nb: Board of 8 blocks,",
        "for board b: 4Eh Memory Status\n       308      8.021 ms  reply     board b: 41 4E 08 00 07\n",
        "line 4: board b: expect reply 41 4E 08 00 sum: holds\n",
        "reply     board b: 45 55 10\n                                    the board has address 5 (45h) from here on\n",
        "for no board: 4Eh Memory Status\n      2728     71.042 ms  silence\n                                    line 10: expect silence: holds\n",
        "                          host      board b: power-on\n\n                          host      board a: notes fault 08h counter overflow\n",
        "for board a: 46h Read Counter\n      9308    242.396 ms  reply     board a: 40 C6 00 00 00 86\n",
    ):
        assert line in page, (line, page)


def test_sessions_of_several_boards():
    """Of a stored session nothing is wrong, and each expectation, turned into a wrong one, fails and nothing else does."""
    turned = 0
    for name in BUSES:
        text = session(name)
        answers = stored_answers(text)
        page, summary = told(text, **answers)
        assert summary.status() == 0 and page.count("bench: ") == sum(told_by.count("\n") for told_by in answers.values()) == summary.replies, name
        lines = text.splitlines()
        for number, line in enumerate(lines):
            front, expect, wanted = line.partition("expect ")
            if not expect or line.startswith("#"):
                continue
            wrong = f"{front or 'board a: '}expect " + ("done" if wanted == "silence" else "silence")
            _, summary = told("\n".join(lines[:number] + [wrong] + lines[number + 1 :]), **answers)
            assert (summary.failed, summary.status()) == (1, 1), (name, line)
            turned += 1
    assert BUSES and turned > 20


def test_clashes():
    """Boards of one address, and a request to all: several answer at once."""
    one_address = PLATES.replace("address 1", "address 0") + "ask to 0 memory-status\nask to 0 encoder-reset\n"
    page, summary = told(one_address, a="308 40 4E 70 00 7E\n", b="308 40 4E 08 00 06\n")
    clash = "                          clash     boards a and b answer at once: their replies run into each other\n"
    assert clash in page and "for boards a and b: 4Eh Memory Status\n" in page
    assert summary == words.Summary(frames=2, replies=2, silences=1, wrong=1) and summary.status() == 1
    page, summary = told(PLATES + "ask to all memory-status\n", a="308 40 4E 70 00 7E\n", b="308 41 4E 08 00 07\n")
    assert clash in page and page.count("bench: done\n") == 2 and summary.wrong == 1
    third = PLATES + "board c: plate total 9 bits 24 address 2 ticks 4 pause 55\nask 42 4E\n"
    page, summary = told(third, a="308 42 4E 70 00 7C\n", b="308 42 4E 70 00 7C\n", c="308 42 4E 09 00 05\n")
    assert "boards a, b and c answer at once" in page and page.count("a reply, though silence was due\n") == 2 and summary.wrong == 3


def test_nothing_is_heard_of_a_clash():
    """The boards are handed no character of it, and the next ask waits until the longer reply is over."""
    third = PLATES + "board c: plate total 9 bits 24 address 2 ticks 4 pause 55\n"
    text = third + "ask FF 46\nboard a: expect error 0B\nboard b: expect reply 41 46 00 00 00 sum\nask 42 4E\n"
    heard = "frame at 0: FF 46 B9\npoll 308\npoll 792\nframe at 836: 42 4E 0C\npoll 1144\n"
    assert all(tape[9:] == texts.tape_of(PLATE_A + heard)[9:] for tape, _ in boards.stored(text).values())


def test_a_board_that_answers_another():
    """Board b is given board a's address: board a takes the reply, 40 55 15, for a request of its own."""
    text = PLATES + "ask to 1 set-encoder-address address 0 code 55\nask to 0 memory-status\n"
    page, summary = told(text, a="748 40 50 0C 1C\n1100 40 4E 70 00 7E\n", b="396 40 55 15\n1100 40 4E 08 00 06\n")
    assert "       748     19.479 ms  reply     board a: 40 50 0C 1C\n" in page
    assert "to the reply of board b, which it took for a request; what follows is not played\n" in page
    assert "for boards a and b: 4Eh Memory Status\n" in page and summary == words.Summary(frames=2, replies=4, wrong=2)


def test_programs_that_are_wrong():
    ask = PLATES + "ask to 1 memory-status\n"
    right = "308 41 4E 08 00 07\n"
    cases = (
        ({"b": right}, "bench: done\n", words.Summary(frames=1, replies=1)),
        ({}, "silence   board b: though a reply was due\n", words.Summary(frames=1, silences=1, wrong=1)),
        ({"a": "308 40 4E 70 00 7E\n"}, "a reply, though silence was due\n", words.Summary(frames=1, replies=1, silences=0, wrong=2)),
        ({"b": "308 40 4E 08 00 06\n"}, "bench: refused B3", words.Summary(frames=1, replies=1, wrong=1)),
        ({"b": "307 41\n" + right}, "board b: 41\n                                    to no request\n", words.Summary(frames=1, replies=2, wrong=1)),
        ({"b": "500\n" + right}, "board b: no bytes\n                                    to no request\n", words.Summary(frames=1, replies=2, wrong=1)),
        ({"b": right + right}, "board b: 41 4E 08 00 07\n                                    to no request\n", words.Summary(frames=1, replies=2, wrong=1)),
        ({"a": "bad 9\n", "b": right}, "The answer program calls the tape of board a bad at place 9.\n", words.Summary(frames=1, replies=1, bad=1)),
    )
    for answers, line, summed in cases:
        page, summary = told(ask, **answers)
        assert line in page and summary == summed and summary.status() == (answers != {"b": right}), (answers, page)
    _, summary = told(ask + "board b: expect error 0B\nexpect silence\nboard a: expect silence\n", b=right)
    assert summary == words.Summary(frames=1, replies=1, failed=2)
