"""Tests of label.py and status.py: label texts and label tapes, there and back, and what is wrong with a bad one."""

import os
import random
import subprocess
import sys
import tempfile

import label
import status
import written
from test_tape import HERE, damaged, put, run_tool

SPINDLE = os.path.join(HERE, "labels", "spindle.txt")
CODES = "codes 55 66 77 88\n"
SIZE = "a field has 1 to 8 blocks, or 16 to 128 bytes in steps of 16"
WORDS = (
    "words, with commas between them, are N blocks, N bytes, code N wanted, code number N, code wanted, no code wanted, "
    "read-only, write-enabled"
)
MISSING = "the codes are missing: `codes 55 55 55 55` comes first"

# A text, and its tape by hand: 99h is read-only, code wanted, code number 1, two blocks; F0h write-enabled, code number 3, one block.
TEXT = (
    "# a comment\n\ncodes 55 66 77 88 # Code0 first\n"
    'field 2 blocks, code 1 wanted, read-only\n  text "A\\"#\\\\\\x00" # it holds "\n  hex 0x01,FFh 00*2 0203\n\n'
    "field 16 bytes, code number 3\n"
)
TAPE = bytes.fromhex("0600 2000 55667788 2300 2100 99 41 22 23 5C 00 01 FF 00 00 02 03" + "00" * 21 + "1300 2100 F0" + "00" * 16)


def made(text):
    """The tape of a text that has no bad line."""
    found, bad = label.read_label(text)
    assert bad == [], [str(error) for error in bad]
    return label.tape_of(found)


def bad_lines(text):
    return [str(error) for error in label.read_label(text)[1]]


def fault(tape):
    """What is wrong with a tape."""
    try:
        label.label_of(tape)
    except written.WrittenError as error:
        return str(error)
    return ""


def record(kind, body, length=None):
    """A record; its length counts kind and body unless another one is given."""
    return (2 + len(body) if length is None else length).to_bytes(2, "little") + kind.to_bytes(2, "little") + body


FIRST = record(0x20, b"\x55\x66\x77\x88")
SMALL = record(0x21, b"\xC0" + bytes(16))


# --- a status in words ------------------------------------------------------------------------


def test_status_words_are_taken_back():
    for byte in range(0x80, 0x100):
        words = status.status_words(byte)
        parts = words[words.index("(") + 1 : -1].split(", ")
        assert parts[0] == "exists" and status.status_said(", ".join(reversed(parts[1:]))) == byte, words
        assert status.size_of(byte) == 16 * (byte % 8 + 1) and status.blocks_of(byte) == byte % 8 + 1
    assert status.status_words(0x43).startswith("status 43h (does not exist, write-enabled, ")


def test_status_said():
    for words, byte in (
        ("1 block", 0xC0),
        ("1 blocks", 0xC0),
        ("16 bytes", 0xC0),
        ("8 blocks", 0xC7),
        ("128 bytes", 0xC7),
        ("write-enabled,2  blocks", 0xC1),
        ("read-only, 48 bytes", 0x82),
        ("2 blocks, code 1 wanted, read-only", 0x99),
        ("code wanted, 2 blocks, code number 1, read-only", 0x99),
        ("2 blocks, code wanted", 0xC9),
        ("2 blocks, code 0 wanted", 0xC9),
        ("2 blocks, code number 3", 0xF1),
        ("2 blocks, no code wanted, code number 3", 0xF1),
    ):
        assert status.status_said(words) == byte, words


# --- tapes ------------------------------------------------------------------------------------


def test_tape_by_hand():
    assert made(TEXT) == TAPE and fault(TAPE) == ""
    assert label.label_of(TAPE) == label.Label(b"\x55\x66\x77\x88", [label.Field(0x99, TAPE[13:45]), label.Field(0xF0, bytes(16))])
    assert made(CODES) == FIRST and label.label_of(FIRST).fields == []
    assert made(CODES.replace("55 66 77 88", "0x55,66h 7788") + "field 1 block\n") == FIRST + SMALL


def test_shown_by_hand():
    shown = (
        "codes 55 66 77 88\n\n# field 0, status 99h\nfield 2 blocks, code number 1, code wanted, read-only\n"
        '  text "A\\"#\\\\"\n  hex 00 01 FF 00 00 02 03\n\n'
        "# field 1, status F0h\nfield 1 block, code number 3, no code wanted, write-enabled\n"
    )
    assert label.text_of(label.label_of(TAPE)) == shown and made(shown) == TAPE
    for content, lines in (
        (b"M12", ['  text "M12"']),
        (b"\x00M12", ["  hex 00 4D 31 32"]),
        (b"\x00M12x\x7f", ["  hex 00", '  text "M12x"', "  hex 7F"]),
        (bytes(range(20)), ["  hex 00 01 02 03 04 05 06 07 08 09 0A 0B 0C 0D 0E 0F", "  hex 10 11 12 13"]),
        (b" ~ \n\x00\x00", ["  hex 20 7E 20 0A"]),
        (bytes(16), []),
    ):
        assert label.content_lines(content) == lines, content


def random_tape(dice):
    """A good tape, its bytes rather printable in some fields and rather 00h in others."""
    tape = record(0x20, bytes(dice.randrange(256) for _ in range(4)))
    for _ in range(dice.randrange(8)):
        byte = 0x80 + dice.randrange(128)
        values = dice.choice((range(256), range(32, 127), (0, 0, 0, 255), b'\x00\\"# Ab'))
        tape += record(0x21, bytes([byte]) + bytes(dice.choice(values) for _ in range(16 * (byte % 8 + 1))))
    return tape


def test_round_trip():
    dice = random.Random(5)
    for _ in range(1000):
        tape = random_tape(dice)
        assert made(label.text_of(label.label_of(tape))) == tape


def test_damaged_tapes():
    """One byte changed, cut off or put in: the tape is still good and comes back, or one line names a place on it."""
    dice = random.Random(6)
    for _ in range(1000):
        tape = damaged(dice, random_tape(dice))
        said = fault(tape)
        if said:
            assert said.startswith(("bad record at place ", "wrong size at place ")), said
            assert 0 <= int(said.split(":")[0].split()[-1]) <= len(tape)
        else:
            assert made(label.text_of(label.label_of(tape))) == tape


def test_extremes():
    largest = FIRST + record(0x21, b"\xFF" + bytes(range(128))) * 256
    assert fault(largest) == "" and made(label.text_of(label.label_of(largest))) == largest
    assert label.label_of(largest).summary() == "summary: 256 fields, 2048 blocks needed"
    assert label.label_of(FIRST + SMALL).summary() == "summary: 1 field, 1 block needed"
    assert label.label_of(FIRST).summary() == "summary: 0 fields, 0 blocks needed"
    place = len(FIRST) + 256 * len(SMALL)
    assert fault(FIRST + SMALL * 256) == ""
    assert fault(FIRST + SMALL * 257) == f"bad record at place {place}: over 256 fields: a number is one byte"
    assert fault(FIRST + record(0x21, b"\xC0") + SMALL * 256) == f"bad record at place {place - 16}: over 256 fields: a number is one byte"


def test_bad_tapes():
    second = f"bad record at place {len(FIRST)}: "
    for tape, said in (
        (b"", "bad record at place 0: an empty tape has no codes"),
        (b"\x06", "bad record at place 0: a lone last byte"),
        (b"\x00\x00", "bad record at place 0: a length of 0, which has no room for the kind"),
        (b"\x01\x00\x20", "bad record at place 0: a length of 1, which has no room for the kind"),
        (FIRST[:-1], "bad record at place 0: cut short: 6 bytes announced, 5 there"),
        (SMALL, "bad record at place 0: the first record is not the codes"),
        (record(0x20, b"\x55" * 3), "bad record at place 0: 3 codes, not 4"),
        (record(0x20, b"\x55" * 5), "bad record at place 0: 5 codes, not 4"),
        (record(0x20, b""), "bad record at place 0: 0 codes, not 4"),
        (record(0x20, b"\x55"), "bad record at place 0: 1 code, not 4"),
        (record(0x120, b"\x55" * 4), "bad record at place 0: kind 0120h is unknown"),
        (record(0x22, b""), "bad record at place 0: kind 0022h is unknown"),
        (b"codes 55 55 55 55\n", "bad record at place 0: a text, not a tape"),
        (FIRST + FIRST, second + "a second record of codes"),
        (FIRST + b"\x00", second + "a lone last byte"),
        (FIRST + b"\x01\x00\x21", second + "a length of 1, which has no room for the kind"),
        (FIRST + SMALL[:-1], second + "cut short: 19 bytes announced, 18 there"),
        (FIRST + record(0x21, b"\xC0" + bytes(16), 65535), second + "cut short: 65535 bytes announced, 19 there"),
        (FIRST + record(0x121, SMALL[4:]), second + "kind 0121h is unknown"),
        (FIRST + record(0x01, bytes(5)), second + "kind 0001h is unknown"),
        (FIRST + record(0x21, b""), second + "a field without its status"),
        (FIRST + record(0x21, b"\x40" + bytes(16)), second + "a field of status 40h, which has bit 7 clear"),
        (FIRST + record(0x21, b"\xC0" + bytes(15)), "wrong size at place 8: 15 bytes for a field of 16"),
        (FIRST + record(0x21, b"\xC0" + bytes(17)), "wrong size at place 8: 17 bytes for a field of 16"),
        (FIRST + record(0x21, b"\x87"), "wrong size at place 8: 0 bytes for a field of 128"),
        (FIRST + SMALL + record(0x21, b"\xC1\x00"), "wrong size at place 29: 1 byte for a field of 32"),
    ):
        assert fault(tape) == said, (tape, fault(tape))


def test_a_bad_record_comes_before_a_wrong_size():
    short = record(0x21, b"\xC0" + bytes(15))
    for behind, said in ((FIRST, "a second record of codes"), (b"\x05", "a lone last byte"), (record(7, b""), "kind 0007h is unknown")):
        assert fault(FIRST + short + behind) == f"bad record at place 28: {said}"
    assert fault(FIRST + short + short) == "wrong size at place 8: 15 bytes for a field of 16"


# --- texts ------------------------------------------------------------------------------------


# Lines that are bad by themselves, behind the codes and a field of 16 bytes.
BAD_LINES = (
    ("codes 55 55 55 55", "a second line of codes"),
    ("fields 2 blocks", "no line of a label starts like this: fields 2 blocks"),
    ("2 blocks", "no line of a label starts like this: 2 blocks"),
    ('text"A"', 'no line of a label starts like this: text"A"'),
    ("field", f"nothing: {WORDS}"),
    ("field 1 block,", f"nothing: {WORDS}"),
    ("field read-only", f"no size: {SIZE}"),
    ("field 0 blocks", f"0 blocks: {SIZE}"),
    ("field 9 blocks", f"9 blocks: {SIZE}"),
    ("field -1 blocks", f"-1 blocks: {SIZE}"),
    ("field two blocks", f"two blocks: {SIZE}"),
    ("field 0 bytes", f"0 bytes: {SIZE}"),
    ("field 17 bytes", f"17 bytes: {SIZE}"),
    ("field 144 bytes", f"144 bytes: {SIZE}"),
    ("field 1 byte", f"1 byte: {SIZE}"),
    ("field 1 block, 16 bytes", "16 bytes: a word before it speaks of the same"),
    ("field 1 block, code number 4", "code number 4: a code number is 0 to 3"),
    ("field 1 block, code 4 wanted", "code 4 wanted: a code number is 0 to 3"),
    ("field 1 block, code x wanted", "code x wanted: a code number is 0 to 3"),
    ("field 1 block, code 1 wanted, code number 1", "code number 1: a word before it speaks of the same"),
    ("field 1 block, code 1 wanted, no code wanted", "no code wanted: a word before it speaks of the same"),
    ("field 1 block, code wanted, code 1 wanted", "code 1 wanted: a word before it speaks of the same"),
    ("field 1 block, code number 1, code 1 wanted", "code 1 wanted: a word before it speaks of the same"),
    ("field 1 block, read-only, write-enabled", "write-enabled: a word before it speaks of the same"),
    ("field 1 block, locked", f"locked: {WORDS}"),
    ("field 1 block read-only", f"1 block read-only: {WORDS}"),
    ("field 1 block, exists", f"exists: {WORDS}"),
    ("hex 4G", "no byte in hex: 4G"),
    ("hex 40 4", "no byte in hex: 4"),
    ('hex 40 "A"', 'no byte in hex: "A"'),
    ("hex 40 sum", "no byte in hex: sum"),
    ("hex", "no bytes"),
    ("hex # 40", "no bytes"),
    ('text ""', "no bytes"),
    ("hex 00*17", "too long: 17 bytes for a field of 16"),
    ('text "seventeen letters"', "too long: 17 bytes for a field of 16"),
    ("text", "no text in quotation marks: "),
    ("text SERVO", "no text in quotation marks: SERVO"),
    ('text "SERVO # 4711', 'a text without its end: "SERVO # 4711'),
    ('text "SERVO\\"', 'a text without its end: "SERVO\\"'),
    ('text "SERVO\\', 'a text without its end: "SERVO\\'),
    ('text "A" "B"', 'behind the text\'s end: "B"'),
    ('text "A"B', "behind the text's end: B"),
    ('text "\\n"', '\\n is no letter; there are \\" and \\\\ and \\xNN'),
    ('text "\\x4"', '\\x is no letter; there are \\" and \\\\ and \\xNN'),
    ('text "\\x4G"', '\\x is no letter; there are \\" and \\\\ and \\xNN'),
    ('text "180 °C"', "no printable ASCII: '°'; \\xNN says any byte"),
    ('text "A\tB"', "no printable ASCII: '\\t'; \\xNN says any byte"),
    ('text "\x7f"', "no printable ASCII: '\\x7f'; \\xNN says any byte"),
)


def test_bad_lines():
    for line, said in BAD_LINES:
        found = bad_lines(CODES + "field 1 block\n" + line + "\n")
        assert found == [f"line 3: {said}"], (line, found)


def test_bad_lines_by_their_place():
    for text, said in (
        ("", [f"line 1: {MISSING}"]),
        ("\n# nothing\n", [f"line 1: {MISSING}"]),
        ("\nfield 1 block\n  hex 00\nfield 1 block\n", [f"line 2: {MISSING}"]),
        ("field 1 block\ncodes 55 55 55 55\n", ["line 2: the codes come before the fields"]),
        ("hex 00\n" + CODES, ["line 1: no field stands before it"]),
        (CODES + 'text "A"\nfield 1 block\n', ["line 2: no field stands before it"]),
        ("codes 55 55 55\nfield 1 block\n", ["line 1: 3 codes, not 4: Code0 to Code3 in hex"]),
        ("codes 55 55 55 55 55\n", ["line 1: 5 codes, not 4: Code0 to Code3 in hex"]),
        ("codes\n", ["line 1: 0 codes, not 4: Code0 to Code3 in hex"]),
        ("codes 55 55 55 5G\n", ["line 1: no byte in hex: 5G"]),
        (CODES + CODES + CODES, ["line 2: a second line of codes", "line 3: a second line of codes"]),
        (CODES + "field 1 block\n" * 256, []),
        (CODES + "field 1 block\n" * 257, ["line 258: over 256 fields: a number is one byte"]),
        (CODES + "field 1 block\nhex 00*9\nhex 00*8\nhex 00*7\n", ["line 4: too long: 17 bytes for a field of 16"]),
        (CODES + "field 9 blocks\nhex 00*128\nhex 00\n", [f"line 2: 9 blocks: {SIZE}", "line 4: too long: 129 bytes for a field of 128"]),
        ("oops\nhex 1\n", [f"line 1: {MISSING}", "line 1: no line of a label starts like this: oops", "line 2: no byte in hex: 1"]),
    ):
        assert bad_lines(text) == said, (text, bad_lines(text))


def test_texts_with_every_letter():
    printable = "".join(map(chr, range(32, 127)))
    escaped = printable.replace("\\", "\\\\").replace('"', '\\"')
    assert made(f'{CODES}field 8 blocks\ntext "{escaped}"#"\n') == FIRST + record(0x21, b"\xC7" + printable.encode().ljust(128, b"\x00"))
    assert made(f'{CODES}field 1 block\ntext "\\\\" # behind it "\n') == FIRST + record(0x21, b"\xC0\\" + bytes(15))
    for start in range(0, 256, 128):
        pairs = "".join(f"\\x{byte:02x}" for byte in range(start, start + 128))
        assert made(f'{CODES}field 8 blocks\ntext "{pairs}"\n') == FIRST + record(0x21, b"\xC7" + bytes(range(start, start + 128)))


def spindle():
    with open(SPINDLE, encoding="utf-8") as file:
        return file.read()


def test_spindle():
    found = label.label_of(made(spindle()))
    assert [field.status for field in found.fields] == [0xC3, 0xD9, 0x80, 0xE1] and found.codes == b"\x55" * 4
    assert found.summary() == "summary: 4 fields, 9 blocks needed"
    assert found.fields[1].content == b'order "20815": bearings new\x07\xE8\x03\x0F\x00' and found.fields[2].content == b"SN 4711-0815".ljust(16, b"\x00")


# --- the command line -------------------------------------------------------------------------


SUM = b"summary: 2 fields, 3 blocks needed\n"


def test_command_line():
    saved = b"\xef\xbb\xbf" + TEXT.replace("\n", "\r\n").encode()
    two_bad = b"label.py: -: line 1: no field stands before it\nlabel.py: -: line 2: no line of a label starts like this: oops\n"
    for arguments, given, status_wanted, printed, said in (
        (["-", "-"], TEXT.encode(), 0, TAPE, SUM),
        (["-", "-"], saved, 0, TAPE, SUM),
        (["--show", "-"], FIRST, 0, CODES.encode(), b""),
        (["--show", "-"], b"", 1, b"", b"label.py: -: bad record at place 0: an empty tape has no codes\n"),
        (["--show", "-"], FIRST + SMALL[:5], 1, b"", b"label.py: -: bad record at place 8: cut short: 19 bytes announced, 3 there\n"),
        (["--show", "-"], FIRST + record(0x21, b"\xC0"), 1, b"", b"label.py: -: wrong size at place 8: 0 bytes for a field of 16\n"),
        (["-", "-"], b"hex 00\noops\n" + CODES.encode(), 1, b"", two_bad),
        (["-", "-"], TAPE, 1, b"", b"label.py: -: what a tape is made of is text, and this is not\n"),
        (["-", "-"], b"# caf\xe9\n", 1, b"", b"label.py: -: line 1: not UTF-8 text (byte E9h)\n"),
        (["--help"], b"", 0, label.__doc__.encode(), b""),
    ):
        assert run_tool("label.py", arguments, given) == (status_wanted, printed, said), (arguments, given)
    for arguments in ([], ["one"], ["one", "two", "three"], ["--show"], ["--show", "one", "two"], ["--other", "one"], ["one", "--show"]):
        assert run_tool("label.py", arguments, b"")[::2] == (2, label.__doc__.encode() + b"\n"), arguments


def test_files():
    with tempfile.TemporaryDirectory() as folder:
        text, tape = put(folder, "label.txt", TEXT.encode()), os.path.join(folder, "label.tape")
        assert run_tool("label.py", [text, tape], b"") == (0, b"", SUM)
        assert contents(tape) == TAPE and run_tool("label.py", ["--show", tape], b"")[0] == 0
        # A text with a bad line leaves an older tape as it is.
        bad = put(folder, "bad.txt", TEXT.encode() + b"oops\n")
        assert run_tool("label.py", [bad, tape], b"")[::2] == (1, f"label.py: {bad}: line 9: no line of a label starts like this: oops\n".encode())
        assert contents(tape) == TAPE
        # No name leads to the text itself.
        os.symlink(text, os.path.join(folder, "linked"))
        os.link(text, os.path.join(folder, "twice"))
        for name in ("label.txt", "linked", "twice"):
            over = os.path.join(folder, name)
            assert run_tool("label.py", [text, over], b"") == (1, b"", f"label.py: {over}: the tape would be written over its text\n".encode())
        with open(text, "rb") as file:
            found = subprocess.run([sys.executable, os.path.join(HERE, "label.py"), "-", text], stdin=file, capture_output=True, check=False)
        assert found.returncode == 1 and found.stderr.endswith(b": the tape would be written over its text\n")
        assert contents(text) == TEXT.encode()


def contents(name):
    with open(name, "rb") as file:
        return file.read()


def test_files_that_cannot_be_used():
    with tempfile.TemporaryDirectory() as folder:
        text, missing = put(folder, "label.txt", TEXT.encode()), os.path.join(folder, "missing")
        for arguments in ([missing, "-"], [folder, "-"], ["--show", missing], ["--show", folder], [text, folder], [text, os.path.join(missing, "tape")]):
            status_found, printed, said = run_tool("label.py", arguments, b"")
            assert (status_found, printed, said.count(b"\n")) == (1, b"", 1) and said.startswith(b"label.py: [Errno "), (arguments, said)
        noise = put(folder, "noise", bytes(random.Random(7).randrange(256) for _ in range(4000)))
        assert run_tool("label.py", ["--show", noise], b"")[2].startswith(f"label.py: {noise}: bad record at place 0: ".encode())
        wide = put(folder, "wide", TEXT.encode("utf-16"))
        assert run_tool("label.py", [wide, "-"], b"")[2] == f"label.py: {wide}: this text is UTF-16; save it as UTF-8\n".encode()
