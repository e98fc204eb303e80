#!/usr/bin/env python3
"""Sessions as text that a person writes, made into tapes of the answer program, and tapes told as text.

    tape.py write < text > tape
    tape.py write NAME < text > tape    of a text of several boards the tape of this one
    tape.py read  < tape > text

A text has one event a line; what follows # is a comment. The plate comes first and once:

    plate total 112 bits 24 address 0 ticks 4 pause 55
    ask memory-status                 a request by name: frame, checksum and poll in one
    ask read-data field 0 offset 0 count 8 code 55
    ask to all memory-status          to every board; `to 3` is address 3, left out it is the plate's, whatever 55h did
    ask 40 4E                         the same in bytes; the checksum is added, unless they end in theirs (404E0E)
    expect reply 40 4E 70 00 sum      what must come to the last ask or frame: these bytes,
    expect silence                    no reply,
    expect done with warning          the bench's verdict (done, error CODE, refused B0 to B6),
    expect error out-of-memory        an error code by its name, or in hex: `expect error 10`
    frame at 0 every 44: 40 4E 0E     characters, stamped 0, 44 and 88
    frame: 40 4E sum                  as soon as the line is free; sum is the checksum so far
    frame: 40 4B 00 00 03 55 "ABC" sum
    frame: 40 44 00*133 sum           a byte so many times
    character at 352: 40 parity       one character, here with a parity fault
    poll 308                          a poll at that tick
    poll                              a poll when the open frame's pause is over
    measured 5                        the measured position
    fault 22                          a fault code, in hex
    power-on
    raw: 07 00 01                     bytes of the tape as they are, to write a bad one

Bytes are hex pairs (40 4E, 404E, 0x40, 40h, blanks or commas between them) or text in quotation
marks; codes and status are hex, other numbers decimal or 0x...
`ask` takes `at` and `every` as `frame` does. Left out, `every` is a character's eleven bits. Left
out, `at` is one pause after the last character, or one character after a poll that came later; 0 on
an idle line.
`tape.py read` prints plate, frame, character, poll, measured, fault, power-on and raw; writing its
text gives the tape back byte for byte. What follows the first bad record is printed as raw bytes,
with the reason. `expect` puts nothing on the tape: explain.py holds the replies to it.

A comment `# reply 40 4E 70 00 7E` behind an event names the reply that its first character, or
the poll, is to bring. Every text of tools/sessions names all of its replies, so or by `expect`.

Several boards on one line, each with a name, have their plates first. All hear every ask, and each
hears the others' replies. What belongs to one board has its name in front:

    board left: plate total 112 bits 24 address 0 ticks 4 pause 55
    board right: plate total 8 bits 24 address 1 ticks 4 pause 55
    ask to 1 memory-status            `to` is needed here; in bytes: ask 41 4E
    board right: expect reply 41 4E 08 00 sum
    ask to 2 memory-status
    expect silence                    of all boards
    board right: power-on             so too measured and fault

Such a text has plate, ask, expect, measured, fault and power-on, and no others. Its tapes have the
replies that it names.
docs/TOOLS.md has the commands' names and arguments, and the codes' names.
"""

import sys
from typing import List

from boards import has_boards, stored
from records import Character, Fault, Measured, Plate, Poll, Record, encode, gap, hex_of, split, xor_of  # encode and xor_of: for perf/run.py
from texts import TextError, tape_of
from written import WrittenError, complain, put_out, read_file, text_of_bytes

RAW_BYTES_A_LINE = 32


# --- tape to text --------------------------------------------------------------------------


def frame_end(records: List[Record], start: int, closing_gap: int) -> int:
    """Behind the last of the characters from `start` on that one `frame` line can say."""
    spacing = None
    end = start + 1
    while end < len(records):
        character, last = records[end], records[end - 1]
        if not isinstance(character, Character) or character.parity:
            break
        found = gap(last.tick, character.tick)
        if found >= closing_gap or spacing not in (None, found):
            break
        spacing = found
        end += 1
    return end


def line_of(record: Record) -> str:
    """One record as one line."""
    if isinstance(record, Plate):
        return "plate " + " ".join(f"{name} {value}" for name, value in record._asdict().items())
    if isinstance(record, Character):
        return f"character at {record.tick}: {record.value:02X}" + " parity" * record.parity
    if isinstance(record, Poll):
        return f"poll {record.tick}"
    if isinstance(record, Measured):
        return f"measured {record.position}"
    if isinstance(record, Fault):
        return f"fault {record.code:02X}"
    return "power-on"


def frame_line(characters: List[Character]) -> str:
    first = characters[0].tick
    spacing = gap(first, characters[1].tick)
    return f"frame at {first} every {spacing}: {hex_of(c.value for c in characters)}"


def text_of(tape: bytes) -> str:
    """The tape as text; `tape_of` gives it back byte for byte."""
    records, bad = split(tape)
    closing_gap = records[0].closing_gap() if records else 0
    lines = []
    place = 0
    while place < len(records):
        end = place + 1
        record = records[place]
        if isinstance(record, Character) and not record.parity:
            end = frame_end(records, place, closing_gap)
        alone = end == place + 1
        lines.append(line_of(record) if alone else frame_line(records[place:end]))
        place = end
    if bad:
        lines.append(f"# bad {bad.place}: {bad.reason}")
        for start in range(0, len(bad.rest), RAW_BYTES_A_LINE):
            lines.append("raw: " + hex_of(bad.rest[start : start + RAW_BYTES_A_LINE]))
    return "".join(line + "\n" for line in lines)


# --- the command line -----------------------------------------------------------------------


def written(text: str, board: str) -> bytes:
    """The tape that a text says; of a text of several boards that of the board."""
    if not has_boards(text):
        if board:
            raise WrittenError(f"a text of one board, which has no name: {board}")
        return tape_of(text)
    tapes = stored(text)
    if board not in tapes:
        raise WrittenError(f"whose tape? `tape.py write NAME`; there are {', '.join(tapes)}")
    return tapes[board][0]


def run(arguments: List[str]) -> int:
    if arguments == ["read"]:
        put_out(text_of(read_file("-")).encode())
        return 0
    if arguments[:1] == ["write"] and len(arguments) < 3:
        put_out(written(text_of_bytes(read_file("-")), "".join(arguments[1:])))
        return 0
    if arguments in (["help"], ["-h"], ["--help"]):
        put_out(__doc__.encode())
        return 0
    complain(__doc__)
    return 2


def main(arguments: List[str]) -> int:
    try:
        return run(arguments)
    except (OSError, TextError, WrittenError) as error:
        complain(f"tape.py: {error}")
        return 1


if __name__ == "__main__":
    sys.exit(main(sys.argv[1:]))
