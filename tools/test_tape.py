"""Tests of tape.py, of what an ask and an expect say and of bytes as people write them; and what all tests of the tools share."""

import os
import random
import subprocess
import sys

import boards
import commands
import records
import tape
import texts
import written

HERE = os.path.dirname(os.path.abspath(__file__))
ROOT = os.path.dirname(HERE)

SHEET_TAPE = bytes.fromhex(
    "07 00 01 00 70 18 00 04 37 08 00 02 00 00 00 00 00 40 00 08 00 02 00 2C 00 00 00 4E 00"
    "08 00 02 00 58 00 00 00 0E 00 06 00 03 00 34 01 00 00"
)
SHEET_TEXT = "plate total 112 bits 24 address 0 ticks 4 pause 55\nframe at 0 every 44: 40 4E 0E\npoll 308\n"
PLATE_LINE = "plate total 8 bits 24 address 0 ticks 4 pause 55\n"


def path_of(name):
    return os.path.join(HERE, "sessions", name + ".txt")


def session(name):
    with open(path_of(name), encoding="utf-8") as file:
        return file.read()


# The texts of one board, and those of several.
NAMES = sorted(name[:-4] for name in os.listdir(os.path.join(HERE, "sessions")) if name.endswith(".txt"))
BUSES = [name for name in NAMES if boards.has_boards(session(name))]
SESSIONS = [name for name in NAMES if name not in BUSES]


def refused(text):
    """The messages of a text's bad lines."""
    return [str(error) for error in texts.read_session(text).bad]


def run_tool(name, arguments, given):
    found = subprocess.run([sys.executable, os.path.join(HERE, name)] + arguments, input=given, capture_output=True, check=False)
    assert b"Traceback" not in found.stderr, found.stderr
    return found.returncode, found.stdout, found.stderr


def put(folder, name, data):
    path = os.path.join(folder, name)
    with open(path, "wb") as file:
        file.write(data)
    return path


# --- tape.py --------------------------------------------------------------------------------


def test_sheet_tape():
    assert texts.tape_of(SHEET_TEXT) == SHEET_TAPE
    assert tape.text_of(SHEET_TAPE) == SHEET_TEXT


def random_record(dice, tick):
    kind = dice.randrange(10)
    if kind < 6:
        return records.Character(tick, dice.randrange(256), dice.random() < 0.1)
    if kind == 6:
        return records.Poll(tick)
    if kind == 7:
        return records.Measured(dice.randrange(1 << 32))
    return records.Fault(dice.randrange(256)) if kind == 8 else records.PowerOn()


def random_tape(dice):
    plate = records.Plate(dice.randrange(1, 113), dice.randrange(1, 33), dice.randrange(32), 1 << dice.randrange(7), dice.choice((22, 55)))
    tick = dice.randrange(1 << 32)
    bytes_so_far = records.encode(plate)
    for _ in range(dice.randrange(40)):
        bytes_so_far += records.encode(random_record(dice, tick))
        tick = (tick + dice.choice((0, 1, 44, 44, 44, 44, 219, 220, 5000, (1 << 32) - 1))) % (1 << 32)
    return bytes_so_far


def damaged(dice, good):
    """The tape with a byte changed, cut off or put in."""
    place = dice.randrange(len(good))
    way = dice.randrange(3)
    if way == 0:
        return good[:place] + bytes([dice.randrange(256)]) + good[place + 1 :]
    return good[:place] if way == 1 else good[:place] + bytes([dice.randrange(4)]) + good[place:]


def test_round_trip():
    dice = random.Random(1)
    for _ in range(2000):
        good = random_tape(dice)
        found, bad = records.split(good)
        assert bad is None and b"".join(map(records.encode, found)) == good
        assert texts.tape_of(tape.text_of(good)) == good
        torn = damaged(dice, good)
        assert texts.tape_of(tape.text_of(torn)) == torn


def test_frames_are_gathered():
    text = tape.text_of(texts.tape_of(PLATE_LINE + "frame at 4294967290 every 3: 01 02 03\nframe at 500 every 219: 04 05\n"))
    assert text == PLATE_LINE + "frame at 4294967290 every 3: 01 02 03\nframe at 500 every 219: 04 05\n"
    apart = tape.text_of(texts.tape_of(PLATE_LINE + "frame at 0 every 220: 04 05\n"))
    assert apart == PLATE_LINE + "character at 0: 04\ncharacter at 220: 05\n"


def test_bad_tapes():
    plate = records.encode(records.Plate(8, 24, 0, 4, 55))
    poll = records.encode(records.Poll(7))
    cases = (
        (b"\x07", 0, "a lone last byte"),
        (poll, 0, "the first record is not a plate"),
        (plate + plate, 9, "a second plate"),
        (records.encode(records.Plate(113, 24, 0, 4, 55)), 0, "the plate is refused: total is 113, not 1 to 112"),
        (records.encode(records.Plate(8, 24, 0, 3, 55)), 0, "the plate is refused: ticks is 3, not 1, 2, 4, 8, 16, 32 or 64"),
        (plate + poll + poll[:-1], 17, "cut short: 6 bytes announced, 5 there"),
        (plate + b"\x01\x00\x06", 9, "a length of 1, which has no room for the kind"),
        (plate + b"\x02\x00\x07\x00", 9, "kind 7 is unknown"),
        (plate + b"\x02\x00\x06\x01", 9, "kind 262 is unknown"),
        (plate + b"\x03\x00\x06\x00\x00", 9, "kind 6 has 1 bytes, not 0"),
        (plate + b"\x08\x00\x02\x00\x00\x00\x00\x00\x40\x02", 9, "a parity fault of 2, not 0 or 1"),
    )
    for bytes_of_tape, place, reason in cases:
        _, bad = records.split(bytes_of_tape)
        assert (bad.place, bad.reason) == (place, reason), bad
        assert f"# bad {place}: {reason}\n" in tape.text_of(bytes_of_tape)
        assert texts.tape_of(tape.text_of(bytes_of_tape)) == bytes_of_tape
    assert records.split(b"") == ([], None) and tape.text_of(b"") == ""


def test_text_left_out():
    text = PLATE_LINE + 'frame: 40 4E sum\npoll\nframe: 40 4B 00 00 03 55 "A#" 0C sum # the rest\nframe every 1: FF FF\n'
    expected = (
        PLATE_LINE + "frame at 0 every 44: 40 4E 0E\npoll 308\n"
        "frame at 352 every 44: 40 4B 00 00 03 55 41 23 0C 33\nframe at 968 every 1: FF FF\n"
    )
    assert tape.text_of(texts.tape_of(text)) == expected


def test_text_errors():
    cases = (
        ("poll 3\n", "line 1: the plate comes first"),
        ("\n# only a comment\nplate total 8\n", "line 3: not of the shape `plate total T bits P address A ticks N pause N`: plate total 8"),
        ("plate total 0 bits 24 address 0 ticks 4 pause 55", "line 1: the plate would be refused: total is 0, not 1 to 112"),
        ("plate total 256 bits 24 address 0 ticks 4 pause 55", "line 1: total 256 is over 255"),
        (PLATE_LINE + PLATE_LINE, "line 2: a second plate"),
        (PLATE_LINE + "poll\n", "line 2: a poll without a tick needs a character before it"),
        (PLATE_LINE + "poll 4294967296\n", "line 2: tick 4294967296 is over 4294967295"),
        (PLATE_LINE + "frame: 40 4\n", "line 2: no byte, quoted text or sum: 4"),
        (PLATE_LINE + "frame:\n", "line 2: a frame without bytes"),
        (PLATE_LINE + "\nframes: 40\n", "line 3: no event starts like this: frames: 40"),
        (PLATE_LINE + "frame: 00*100001\n", "line 2: a byte's number of times 100001 is over 100000"),
        (PLATE_LINE + "frame: 00*\n", "line 2: no byte, quoted text or sum: 00*"),
        (PLATE_LINE + 'frame: "Ä"\n', 'line 2: only ASCII text has bytes here: "Ä"'),
    )
    for text, message in cases:
        try:
            texts.tape_of(text)
        except texts.TextError as error:
            assert str(error) == message, str(error)
        else:
            raise AssertionError(f"taken: {text!r}")


def test_answers_to_come():
    frame = 'frame at 7: 40 42 00*3 "# reply 1" sum # the rest\n'
    assert texts.tape_of(PLATE_LINE + frame) == texts.tape_of(PLATE_LINE + 'frame at 7: 40 42 00 00 00 "# reply 1" sum\n')
    text = PLATE_LINE + frame + "character at 9: 40 # reply 01 02\npoll 12 # none\n# reply 03\nframe at 30: 40 4E # reply 04\n"
    assert texts.answers_to_come(text) == "tick reply\n9 01 02\n30 04\n"
    try:
        texts.answers_to_come(PLATE_LINE + "fault 22 # reply 40\n")
    except texts.TextError as error:
        assert str(error) == "line 2: only a character or a poll brings a reply"
    else:
        raise AssertionError("a fault with a reply is taken")


# --- ask, expect and bytes as people write them ----------------------------------------------


def test_bytes_are_taken_in_every_form():
    forms = ("40 4E 0E", "404E0E", "0x40,0x4E,0x0E", "0x404E0E", "40h 4eh 0Eh", "40,4E, 0E", "404E sum", ' 40 "N" sum ', "40,4E,sum", "0x40 0x4E 0xE")
    for form in forms:
        assert written.bytes_of(form) == b"\x40\x4E\x0E", form
        assert texts.tape_of(PLATE_LINE + f"frame: {form}\npoll\n") == texts.tape_of(PLATE_LINE + "frame: 40 4E 0E\npoll\n"), form
        assert texts.tape_of(f"raw: {form}\n") == b"\x40\x4E\x0E", form
        text = PLATE_LINE + f"frame: 40 4E 0E\npoll # reply {form}\n"
        assert texts.answers_to_come(text) == "tick reply\n308 40 4E 0E\n", form
        assert texts.answers_to_come(PLATE_LINE + f"ask 40 4E\nexpect reply {form}\n") == "tick reply\n308 40 4E 0E\n", form
    for form in ("404", "4", "40 4G", "0x", "40*", '40"A"', "40;4E", "-1", "0x404", "sum0"):
        try:
            assert not written.bytes_of(form), form
        except written.WrittenError:
            continue
    single = texts.tape_of(PLATE_LINE + "character at 3: 4E parity\nfault 22\nfault 22\n")
    assert texts.tape_of(PLATE_LINE + "character at 3: 0x4E parity\nfault 0x22\nfault 22h\n") == single


def test_ask_is_frame_sum_and_poll():
    written_out = PLATE_LINE + "frame at 0: 40 4E 0E\npoll 308\nframe at 352: 40 4E 0E\npoll 660\nframe at 1000 every 50: FF 4E B1\npoll 1320\n"
    for ask in ("ask 40 4E", "ask: 404E", "ask 40 4E sum", "ask memory-status", "ask to 0 memory-status", "ask at 352: 0x40,0x4E", "ask 40,4E,sum"):
        text = PLATE_LINE + f"ask memory-status\n{ask}\nask at 1000 every 50 to all memory-status\n"
        assert texts.tape_of(text) == texts.tape_of(written_out), ask
    assert texts.tape_of(PLATE_LINE + "frame: 40 4E 0E\nask 40 4E\n") == texts.tape_of(PLATE_LINE + "frame: 40 4E 0E\nframe at 308: 40 4E 0E\npoll\n")


# Each command by name, beside the bytes that its row in docs/COMMANDS.md gives it, written by hand.
ASKED = (
    ("read-position", "40 42 02"),
    ("set-position position 2 code 55", "40 43 00 00 00 02 55 54"),
    ("set-position code 0x55 position 0xFFFFFFFF", "40 43 FF FF FF FF 55 56"),
    ("read-counter", "40 46 06"),
    ("increment-counter", "40 47 07"),
    ("reset-counter code 55h", "40 49 55 5C"),
    ("read-data field 0 offset 0 count 8 code 55", "40 4A 00 00 08 55 57"),
    ("read-data code 66 count 0x80 offset 255 field 1", "40 4A 01 FF 80 66 12"),
    ("store-data field 1 offset 5 count 2 code 66 data 08 15", "40 4B 01 05 02 66 08 15 76"),
    ("store-data field 1 offset 5 code 66 data 0x08,0x15", "40 4B 01 05 02 66 08 15 76"),
    ('store-data field 0 offset 0 code 55 data "A  #B"', "40 4B 00 00 05 55 41 20 20 23 42 7B"),
    ("data-field-status field 255", "40 4C FF F3"),
    ("create-data-field field 0 status C9 code 55", "40 4D 00 C9 55 91"),
    ("memory-status", "40 4E 0E"),
    ("set-access-code code-number 2 old-code 55 new-code 66", "40 4F 02 55 66 3E"),
    ("read-encoder-status", "40 50 10"),
    ("read-type-label", "40 52 12"),
    ("encoder-reset", "40 53 13"),
    ("set-encoder-address address 5 code 55", "40 55 45 55 05"),
    ("set-encoder-address code 0x66 address 0x1F", "40 55 5F 66 2C"),
    ("to 31 set-encoder-address address 0 code 55", "5F 55 40 55 1F"),
    ("to all set-encoder-address address 0 code 55", "FF 55 40 55 BF"),
    ("read-version", "40 56 16"),
    ("to 31 encoder-reset", "5F 53 0C"),
    ("to all memory-status", "FF 4E B1"),
)


def test_named_commands():
    for named, values in ASKED:
        assert texts.tape_of(PLATE_LINE + f"ask {named}\n") == texts.tape_of(PLATE_LINE + f"frame: {values}\npoll\n"), named
    assert {commands.BY_NAME[named.split()[2 if named.startswith("to ") else 0]] for named, _ in ASKED} == set(commands.COMMANDS)
    other = "plate total 8 bits 24 address 3 ticks 4 pause 55\n"
    assert texts.tape_of(other + "ask memory-status\n") == texts.tape_of(other + "frame: 43 4E 0D\npoll\n")


def test_ask_goes_to_the_plates_address():
    """Also behind a new address: whether the board took it is not the text's to know."""
    moved = PLATE_LINE + "ask set-encoder-address address 5 code 55\n"
    assert texts.tape_of(moved + "ask memory-status\n") == texts.tape_of(moved + "ask 40 4E\n")
    assert texts.tape_of(moved + "ask to 5 memory-status\n") == texts.tape_of(moved + "ask 45 4E\n")
    # In bytes this request to the own address ends in its checksum by chance, so `sum` is needed.
    by_name = texts.tape_of(PLATE_LINE + "ask set-encoder-address address 0 code 55\n")
    assert by_name == texts.tape_of(PLATE_LINE + "ask 40 55 40 55 sum\n") != texts.tape_of(PLATE_LINE + "ask 40 55 40 55\n")


def test_ask_takes_a_whole_frame():
    """Bytes that end in their checksum are sent as they are; `sum` behind them adds another."""
    for whole in ("40 4E 0E", "404E0E", "0x40,0x4E,0x0E", "404E sum"):
        assert texts.tape_of(PLATE_LINE + f"ask {whole}\n") == texts.tape_of(PLATE_LINE + "frame: 40 4E 0E\npoll\n"), whole
    assert texts.tape_of(PLATE_LINE + "ask 404E0E sum\n") == texts.tape_of(PLATE_LINE + "frame: 40 4E 0E 00\npoll\n")


def test_ask_and_expect_errors():
    cases = (
        ("ask", "not of the shape `ask [at TICK] [every TICKS] [to ADDRESS] NAME [ARGUMENT VALUE].. or ask BYTES`: ask"),
        ("ask read-data field 0 offset 0 count 8", "read-data wants field, offset, count, code; not there: code"),
        ("ask read-data field 0 field 1", "field stands twice"),
        ("ask read-data field", "field has no value"),
        ("ask read-data field 256 offset 0 count 8 code 55", "field 256 is over 255"),
        ("ask read-data field x offset 0 count 8 code 55", "field is no number: x"),
        ("ask read-data field -1 offset 0 count 8 code 55", "field -1 is over 255"),
        ("ask reset-counter code 155", "code is no byte in hex: 155"),
        ("ask read-position code 55", "no argument of this command: code; it takes none"),
        ("ask to 32 read-position", "address 32 is over 31"),
        ("ask set-encoder-address address 32 code 55", "address 32 is over 31"),
        ("ask set-encoder-address address 45h code 55", "address is no number: 45h"),
        ("ask set-encoder-address address 5", "set-encoder-address wants address, code; not there: code"),
        ("ask read-version field 0", "no argument of this command: field; it takes none"),
        ("ask set-position position 4294967296 code 55", "position 4294967296 is over 4294967295"),
        ("expect done", "expect speaks of the last ask or frame, and there is none"),
        ("ask 40 4E\nexpect reply", "a reply without bytes; write `expect silence`"),
        ("ask 40 4E\nexpect well", "nothing that can be expected: well"),
        ("ask 40 4E\nexpect refused B7", "nothing that can be expected: refused B7"),
        ("ask 40 4E\nexpect refused B1 with warning", "nothing that can be expected: refused B1 with warning"),
        ("ask 40 4E\nexpect silence with warning", "nothing that can be expected: silence with warning"),
        ("poll " + "9" * 5000, "tick of 5000 digits is over 4294967295"),
    )
    for lines, message in cases:
        found = refused(PLATE_LINE + lines + "\n")
        assert found == [f"line {lines.count(chr(10)) + 2}: {message}"], found
    assert "no command has the name read-label; there are read-position," in refused(PLATE_LINE + "ask read-label\n")[0]
    assert "nor a command's name: read-position," in refused(PLATE_LINE + "ask memory\n")[0]
    assert "no error code, by name or in hex: oops; there are" in refused(PLATE_LINE + "ask 40 4E\nexpect error oops\n")[0]
    assert len(refused(PLATE_LINE + "poll\nask\nask memory-status\nframes\n")) == 3 and len(refused("plate\nask memory-status\n")) == 1


def test_expectations_become_answers():
    text = PLATE_LINE + "ask memory-status\nexpect done\nexpect reply 40 4E 08 00 sum\nask 40 44\nexpect error unknown-command\n"
    text += "ask to 1 memory-status\nexpect silence\n"
    assert texts.answers_to_come(text) == "tick reply\n308 40 4E 08 00 06\n660 40 50 0B 1B\n"
    assert texts.answers_to_come(PLATE_LINE + "fault 08\nask 40 44\nexpect error 0B with warning\n") == "tick reply\n308 40 D0 0B 9B\n"
    moved = PLATE_LINE + "ask 40 55 45 55\nexpect {}\nask 45 44\nexpect error 0B\n"
    assert texts.answers_to_come(moved.format("reply 45 55 10")) == "tick reply\n396 45 55 10\n748 45 50 0B 1E\n"
    assert texts.answers_to_come(moved.format("error 0F")) == "tick reply\n396 40 50 0F 1F\n748 40 50 0B 1B\n"
    by_comment = PLATE_LINE + "frame: 40 55 45 55 05\npoll # reply 45 55 10\nask 45 44\nexpect error 0B\n"
    assert texts.answers_to_come(by_comment) == "tick reply\n396 45 55 10\n748 45 50 0B 1E\n"
    cases = (
        ("ask memory-status\nexpect done\n", "line 3: no bytes are named for this reply: a stored session needs `expect reply`"),
        ("frame: 40 4E 0E\nexpect silence\n", "line 3: nothing closes the frame that this speaks of"),
        ("ask memory-status # reply 01\nexpect reply 02\n", "line 3: another reply is named already: 01"),
        ("ask memory-status # reply 01\nexpect silence\n", "line 3: another reply is named already: 01"),
    )
    for lines, message in cases:
        try:
            texts.answers_to_come(PLATE_LINE + lines)
        except texts.TextError as error:
            assert str(error) == message, str(error)
        else:
            raise AssertionError(f"taken: {lines!r}")
