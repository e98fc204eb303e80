#!/usr/bin/env python3
"""Writes the stored tapes of this folder: NAME.tape, and NAME.out, the text that the answer program must print of it.

Each expected text is written by hand from document 01 ("The answer program", "Frames on the bench sheet") and stands beside its reason, here or in the
session's text; no program made it. Places are counted by hand too: a plate takes 9 bytes, a character 10, a poll and a measured position 8, a fault 5,
a power-on 4."""
import pathlib
import struct
import sys

HERE = pathlib.Path(__file__).resolve().parent
TOOLS = HERE.parent / "tools"
sys.path.append(str(TOOLS))
from boards import has_boards, stored  # noqa: E402
from texts import TextError, answers_to_come, tape_of  # noqa: E402

FIRST = "tick reply\n"


def record(kind, body=b"", length=None):
    """A record; its length counts kind and body unless another one is given."""
    return struct.pack("<HH", 2 + len(body) if length is None else length, kind) + body


def plate(total=112, bits=24, address=0, ticks=4, pause=55):
    return record(1, bytes([total, bits, address, ticks, pause]))


def character(tick, value, parity=0):
    return record(2, struct.pack("<IBB", tick, value, parity))


def poll(tick):
    return record(3, struct.pack("<I", tick))


def measured(position):
    return record(4, struct.pack("<I", position))


def fault(code):
    return record(5, bytes([code]))


def power_on():
    return record(6)


def frame(start, text, parity=0):
    """The bytes of a frame as characters, 44 ticks (11 bits of 4 ticks) apart."""
    return b"".join(character((start + 44 * i) % 2**32, b, parity) for i, b in enumerate(bytes.fromhex(text)))


# The tape of document 01, word for word.
DOCUMENT = bytes.fromhex(
    "07 00 01 00 70 18 00 04 37 08 00 02 00 00 00 00 00 40 00 08 00 02 00 2C 00 00 00 4E 00"
    "08 00 02 00 58 00 00 00 0E 00 06 00 03 00 34 01 00 00"
)

TAPES = {}


def tape(name, why, data, text):
    assert name not in TAPES and why
    TAPES[name] = (data, FIRST + text)


# ---- good tapes

tape("document", "01's own tape", DOCUMENT, "308 40 4E 70 00 7E\n")
tape("empty", "'an empty tape prints no other' line", b"", "")
tape("plate_alone", "no event, no line", plate(), "")
tape("open_at_the_end", "a frame still open at the end is not closed", plate() + frame(0, "40 4E 0E"), "")
tape("closed_by_a_character", "the tick is that of the character that closed the frame", plate() + frame(0, "40 4E 0E") + character(308, 0x40), "308 40 4E 70 00 7E\n")
tape("gap_of_219", "219 ticks after the last character keep the frame open, 220 close it", plate() + frame(0, "40 4E 0E") + poll(307) + poll(308), "308 40 4E 70 00 7E\n")
tape("ticks_wrap", "the last character at 2^32 - 208, the poll 220 ticks later at 12", plate() + frame(4294967000, "40 4E 0E") + poll(12), "12 40 4E 70 00 7E\n")
tape("largest_tick", "ten digits; the tick 0, a gap of 1 after it, closes nothing", plate() + frame(1, "40 4E 0E") + poll(4294967295) + frame(4294967295, "40") + poll(0), "4294967295 40 4E 70 00 7E\n")
tape("tick_of_0", "a gap of exactly 220 up to tick 0 prints the digit 0", plate() + frame(4294966988, "40 4E 0E") + poll(0), "0 40 4E 70 00 7E\n")
tape("parity_of_1", "a character with a parity fault: error 09h, whose checksum is 40 ^ 50 ^ 09", plate() + frame(0, "40 4E") + character(88, 0x0E, 1) + poll(308), "308 40 50 09 19\n")
tape("other_address", "41h is another board's address: silence, no line", plate() + frame(0, "41 4E 0F") + poll(308), "")
tape("measured", "the sheet's lines: measured 5, 43h sets position 2; measured 9, 42h reads 6", plate() + measured(5) + frame(0, "40 43 00 00 00 02 55 54") + poll(528) + measured(9) + frame(1000, "40 42 02") + poll(2000), "528 40 43 03\n2000 40 42 00 00 00 06 04\n")
tape("judged_when_closed", "measured 9 comes before the frame is closed: 43h sets position 2 there", plate() + measured(5) + frame(0, "40 43 00 00 00 02 55 54") + measured(9) + frame(1000, "40 42 02") + poll(2000), "1000 40 43 03\n2000 40 42 00 00 00 02 00\n")
tape("fault_and_power_on", "a waiting code sets bit 7 of the reply's command; power-on empties the queue", plate() + fault(0x1C) + frame(0, "40 4E 0E") + poll(308) + power_on() + frame(1000, "40 4E 0E") + poll(2000), "308 40 CE 70 00 FE\n2000 40 4E 70 00 7E\n")
tape("power_on_drops", "power-on drops the open frame unjudged", plate() + frame(0, "40 4E 0E") + power_on() + poll(308), "")
tape("smallest_plate", "T 1, P 1, address 31, 1 tick a bit, pause 22: own byte 5Fh, closed after 22 ticks", plate(1, 1, 31, 1, 22) + character(0, 0x5F) + character(11, 0x4E) + character(22, 0x11) + poll(43) + poll(44), "44 5F 4E 01 00 10\n")

# ---- a first record that is not a plate, a second plate, a refused plate

tape("first_a_character", "the plate comes first", character(0, 0x40), "bad 0\n")
tape("first_a_power_on", "the plate comes first", power_on() + plate(), "bad 0\n")
tape("second_plate", "the plate comes once", plate() + plate(), "bad 9\n")
tape("second_plate_late", "the lines before a bad record stay; nothing after it is read", DOCUMENT + plate() + frame(400, "40 4E 0E") + poll(900), "308 40 4E 70 00 7E\nbad 47\n")
for name, numbers in {
    "total_0": (0, 24, 0, 4, 55),
    "total_113": (113, 24, 0, 4, 55),
    "bits_0": (112, 0, 0, 4, 55),
    "bits_33": (112, 33, 0, 4, 55),
    "address_32": (112, 24, 32, 4, 55),
    "ticks_0": (112, 24, 0, 0, 55),
    "ticks_3": (112, 24, 0, 3, 55),
    "pause_44": (112, 24, 0, 4, 44),
}.items():
    tape("refused_" + name, "a plate number beyond its limit", plate(*numbers) + frame(0, "40 4E 0E") + poll(308), "bad 0\n")

# ---- an unknown kind, a body of another length, a length of no record, a tape that is cut, a parity byte over 1

tape("kind_0", "an unknown kind", plate() + record(0), "bad 9\n")
tape("kind_7", "an unknown kind", plate() + record(7, b"\x00\x00\x00\x00"), "bad 9\n")
tape("kind_0102h", "both bytes of the kind count", plate() + record(0x0102, struct.pack("<IBB", 0, 0x40, 0)), "bad 9\n")
tape("plate_short", "a plate of four bytes", record(1, b"\x70\x18\x00\x04"), "bad 0\n")
tape("plate_long", "a plate of six bytes", record(1, b"\x70\x18\x00\x04\x37\x00"), "bad 0\n")
tape("character_short", "a character without its parity byte", plate() + record(2, b"\x00\x00\x00\x00\x40"), "bad 9\n")
tape("character_long", "a character with a byte too many", plate() + record(2, b"\x00\x00\x00\x00\x40\x00\x00"), "bad 9\n")
tape("poll_long", "a poll of five bytes", plate() + record(3, b"\x00" * 5), "bad 9\n")
tape("measured_short", "a measured position of three bytes", plate() + record(4, b"\x00" * 3), "bad 9\n")
tape("fault_empty", "a fault without a code", plate() + record(5), "bad 9\n")
tape("power_on_long", "a power-on with a body", plate() + record(6, b"\x00"), "bad 9\n")
tape("length_0", "a length of 0 has no room for a kind", plate() + fault(1) + b"\x00\x00\x06\x00", "bad 14\n")
tape("length_1", "a length of 1 has no room for a kind", plate() + fault(1) + b"\x01\x00\x06\x00", "bad 14\n")
tape("length_past_the_end", "the tape ends before the record does", DOCUMENT[:-1], "bad 39\n")
tape("length_65535", "the longest length there is, and a short tape", plate() + record(2, b"\x00" * 6, 65535), "bad 9\n")
tape("cut_in_the_kind", "length and one byte of the kind", DOCUMENT + b"\x06\x00\x03", "308 40 4E 70 00 7E\nbad 47\n")
tape("lone_last_byte", "one byte of a length", plate() + b"\x06", "bad 9\n")
tape("parity_of_2", "the parity byte is 0 or 1", plate() + character(0, 0x40, 2), "bad 9\n")
tape("parity_of_255", "the frame before it is closed by the poll, not by the bad record", DOCUMENT + character(400, 0x40, 255), "308 40 4E 70 00 7E\nbad 47\n")
tape("bad_closes_nothing", "a bad record long after the last character closes no frame", plate() + frame(0, "40 4E 0E") + character(100000, 0x40, 2), "bad 39\n")


# ---- the sessions: each text of tools/sessions, which names its replies; of several boards one tape each, NAME-BOARD


def tapes_of(name, session):
    """The tapes of a session by name, each with the text that must be printed."""
    if has_boards(session):
        return {f"{name}-{board}": told for board, told in stored(session).items()}
    return {name: (tape_of(session), answers_to_come(session))}


for path in sorted(TOOLS.glob("sessions/*.txt")):
    try:
        for stored_name, (data, text) in tapes_of(path.stem, path.read_text(encoding="utf-8")).items():
            tape(stored_name, "it stands in the text", data, text[len(FIRST):])
    except TextError as error:
        sys.exit(f"{path.name}: {error}")


def main():
    for name, (data, text) in TAPES.items():
        (HERE / f"{name}.tape").write_bytes(data)
        (HERE / f"{name}.out").write_text(text)
    print(f"{len(TAPES)} tapes written")


if __name__ == "__main__":
    main()
