#!/usr/bin/env python3
"""Labels: what a motor shop wants on a board, as text that a person writes and as the tape that the programmer takes (02, Req 04).

    label.py TEXT TAPE       makes the tape of a text
    label.py --show TAPE     tells a tape as a text; made again it gives the same bytes

A file named - is standard input or output. In a text what follows # is a comment; the codes come first and once:

    codes 55 55 55 55                             the four access codes in hex, Code0 first
    field 2 blocks, code 1 wanted, read-only      a field; the first one has number 0, the next one 1
      text "SERVO 4711"                           what it holds, line after line
      hex 00 01 02 03 FF*12
    field 16 bytes, code number 2                 the rest of a field is filled up with 00h

The words behind `field` stand in any order, with commas between them:

    N blocks, N bytes        its size: 1 to 8 blocks, or 16 to 128 bytes in steps of 16
    code number N            creating, changing and deleting the field want code N, 0 to 3
    code N wanted            reading and storing want it too; short for code number N, code wanted
    code wanted, no code wanted, read-only, write-enabled

Left out they are code number 0, no code wanted, write-enabled. A text is printable ASCII in quotation
marks, with \\" and \\\\ for these two letters and \\xNN for any byte. Hex is as in a session: 40 4E, 404E,
0x40, 40h, 00*8.

Of a text with bad lines each is told, and nothing is written. Of a bad tape the first fault is told with
the place of its record's first byte: a bad record anywhere, else a body that is not its field's size.
How many fields and blocks a label needs is told on standard error. Exit status: 0 if all is well; 1 for
a bad text or tape, and for a file that cannot be used; 2 for a command line that is none of these.
"""

import os
import re
import sys
from typing import List, NamedTuple, Tuple

from records import RawRecord, cut, hex_of, record_bytes
from status import BLOCKS, CODE_NUMBERS, EXISTS, blocks_of, counted, size_of, status_parts, status_said
from texts import TextError
from written import WrittenError, complain, event_and_comment, hex_bytes_of, is_text, put_out, read_file, read_text, write_file

CODES_KIND = 0x0020
FIELD_KIND = 0x0021
NUMBER_OF_CODES = len(CODE_NUMBERS)
MOST_FIELDS = 256
ESCAPE = "\\"
QUOTED = re.compile(r'"((?:[^"\\]|\\.)*)"')
LETTER = re.compile(r'\\x([0-9a-fA-F]{2})|\\(["\\])|([ -\[\]-~])|(\\?.)')
CONTENT = re.compile(rb"(\A[ -~]+\Z|[ -~]{4,})|((?:(?![ -~]{4}).){1,16})", re.DOTALL)


class Field(NamedTuple):
    """A wanted field: its status, and its bytes up to those that are filled up with 00h."""

    status: int
    content: bytes


class Label(NamedTuple):
    """The access codes, Code0 first, and the wanted fields in number order."""

    codes: bytes
    fields: List[Field]

    def summary(self) -> str:
        blocks = sum(blocks_of(field.status) for field in self.fields)
        return f"summary: {counted(len(self.fields), 'field')}, {counted(blocks, 'block')} needed"


# --- tapes ----------------------------------------------------------------------------------


def tape_of(label: Label) -> bytes:
    """The tape that says a label."""
    bodies = [bytes([status]) + content.ljust(size_of(status), b"\x00") for status, content in label.fields]
    return record_bytes(CODES_KIND, label.codes) + b"".join(record_bytes(FIELD_KIND, body) for body in bodies)


def codes_misfit(raw: RawRecord) -> str:
    """Why a record may not be the tape's first."""
    if raw.kind != CODES_KIND:
        return "the first record is not the codes"
    return "" if len(raw.body) == NUMBER_OF_CODES else f"{counted(len(raw.body), 'code')}, not {NUMBER_OF_CODES}"


def misfit(raw: RawRecord, number: int) -> str:
    """Why a record may not be the tape's record of this number, counted from 0: first and once the codes, then the fields."""
    if raw.kind not in (CODES_KIND, FIELD_KIND):
        return f"kind {raw.kind:04X}h is unknown"
    if number == 0:
        return codes_misfit(raw)
    if raw.kind == CODES_KIND:
        return "a second record of codes"
    if not raw.body:
        return "a field without its status"
    if not raw.body[0] & EXISTS:
        return f"a field of status {raw.body[0]:02X}h, which has bit 7 clear"
    return f"over {MOST_FIELDS} fields: a number is one byte" if number > MOST_FIELDS else ""


def bad_record(place: int, reason: str) -> WrittenError:
    return WrittenError(f"bad record at place {place}: {reason}")


def label_of(tape: bytes) -> Label:
    """What a tape says; WrittenError with its first bad record, else with its first field of another size."""
    if not tape:
        raise bad_record(0, "an empty tape has no codes")
    if is_text(tape):
        raise bad_record(0, "a text, not a tape")
    raws, bad = cut(tape)
    for number, raw in enumerate(raws):
        reason = misfit(raw, number)
        if reason:
            raise bad_record(raw.place, reason)
    if bad:
        raise bad_record(bad.place, bad.reason)
    for raw in raws[1:]:
        size = size_of(raw.body[0])
        if len(raw.body) - 1 != size:
            raise WrittenError(f"wrong size at place {raw.place}: {counted(len(raw.body) - 1, 'byte')} for a field of {size}")
    return Label(raws[0].body, [Field(raw.body[0], raw.body[1:]) for raw in raws[1:]])


# --- tape to text ---------------------------------------------------------------------------


def content_lines(content: bytes) -> List[str]:
    """Text where all is printable, else four letters or more as text and what is between them in hex; nothing for the 00h at the end."""
    lines = []
    for letters, others in CONTENT.findall(content.rstrip(b"\x00")):
        text = letters.decode().replace(ESCAPE, ESCAPE * 2).replace('"', ESCAPE + '"')
        lines.append(f'  text "{text}"' if letters else f"  hex {hex_of(others)}")
    return lines


def text_of(label: Label) -> str:
    """A label as a person writes it."""
    lines = [f"codes {hex_of(label.codes)}"]
    for number, (status, content) in enumerate(label.fields):
        words = ", ".join(reversed(status_parts(status)))
        lines += ["", f"# field {number}, status {status:02X}h", f"field {words}"] + content_lines(content)
    return "".join(line + "\n" for line in lines)


# --- text to tape ---------------------------------------------------------------------------


def quoted_bytes(said: str) -> bytes:
    """The bytes of a text in quotation marks."""
    quoted = QUOTED.match(said)
    if not quoted:
        raise WrittenError(f"a text without its end: {said}" if said.startswith('"') else f"no text in quotation marks: {said}")
    if quoted.end() < len(said):
        raise WrittenError(f"behind the text's end: {said[quoted.end() :].strip()}")
    found = bytearray()
    for pair, escaped, plain, wrong in LETTER.findall(quoted.group(1)):
        if wrong.startswith(ESCAPE):
            raise WrittenError(f'{wrong} is no letter; there are \\" and \\\\ and \\xNN')
        if wrong:
            raise WrittenError(f"no printable ASCII: {wrong!r}; \\xNN says any byte")
        found.append(int(pair, 16) if pair else ord(escaped or plain))
    return bytes(found)


class Reader:
    """The codes and fields so far."""

    def __init__(self):
        self.has_codes = False
        self.codes = b""
        self.fields: List[Field] = []

    def take_codes(self, said: str):
        if self.has_codes:
            raise WrittenError("a second line of codes")
        self.has_codes = True
        if self.fields:
            raise WrittenError("the codes come before the fields")
        self.codes = hex_bytes_of(said)
        if len(self.codes) != NUMBER_OF_CODES:
            raise WrittenError(f"{counted(len(self.codes), 'code')}, not {NUMBER_OF_CODES}: Code0 to Code3 in hex")

    def take_field(self, said: str):
        """A bad line of a field counts as one of the largest size, so that the lines behind it have a field."""
        self.fields.append(Field(EXISTS | BLOCKS, b""))
        if len(self.fields) > MOST_FIELDS:
            raise WrittenError(f"over {MOST_FIELDS} fields: a number is one byte")
        self.fields[-1] = Field(status_said(said), b"")

    def take_text(self, said: str):
        self.add(quoted_bytes(said))

    def take_hex(self, said: str):
        self.add(hex_bytes_of(said))

    def add(self, more: bytes):
        """Puts bytes behind those that the last field has."""
        if not self.fields:
            raise WrittenError("no field stands before it")
        if not more:
            raise WrittenError("no bytes")
        status, content = self.fields[-1]
        if len(content + more) > size_of(status):
            raise WrittenError(f"too long: {len(content + more)} bytes for a field of {size_of(status)}")
        self.fields[-1] = Field(status, content + more)

    def take(self, line: str):
        """One line of text without its comment; WrittenError if it says nothing that can be here."""
        word, said = (line.split(None, 1) + [""])[:2]
        if word not in TAKE:
            raise WrittenError(f"no line of a label starts like this: {line}")
        TAKE[word](self, said)


# What a line does, by its first word.
TAKE = {
    "codes": Reader.take_codes,
    "field": Reader.take_field,
    "text": Reader.take_text,
    "hex": Reader.take_hex,
}


def read_label(text: str) -> Tuple[Label, List[TextError]]:
    """The label that a text says, and its bad lines."""
    reader = Reader()
    bad: List[TextError] = []
    lines = [event_and_comment(line, ESCAPE)[0] for line in text.splitlines()]
    said = [(number, line) for number, line in enumerate(lines, start=1) if line]
    for number, line in said:
        try:
            reader.take(line)
        except WrittenError as error:
            bad.append(TextError(number, str(error)))
    if not reader.has_codes:
        bad.insert(0, TextError(said[0][0] if said else 1, "the codes are missing: `codes 55 55 55 55` comes first"))
    return Label(reader.codes, reader.fields), bad


# --- the command line -----------------------------------------------------------------------


def is_input(text: str, tape: str) -> bool:
    """Whether the tape would be written over its text."""
    standard_input = 0
    return os.path.isfile(tape) and os.path.samefile(standard_input if text == "-" else text, tape)


def make(text: str, tape: str) -> int:
    if is_input(text, tape):
        raise WrittenError(f"{tape}: the tape would be written over its text")
    label, bad = read_label(read_text(text, "what a tape is made of"))
    for error in bad:
        complain(f"label.py: {text}: {error}")
    if bad:
        return 1
    write_file(tape, tape_of(label))
    complain(label.summary())
    return 0


def show(tape: str) -> int:
    data = read_file(tape)
    try:
        put_out(text_of(label_of(data)).encode())
    except WrittenError as error:
        raise WrittenError(f"{tape}: {error}") from None
    return 0


def run(arguments: List[str]) -> int:
    if arguments in (["help"], ["-h"], ["--help"]):
        put_out(__doc__.encode())
        return 0
    if len(arguments) == 2 and arguments[0] == "--show":
        return show(arguments[1])
    if len(arguments) == 2 and not any(name.startswith("--") for name in arguments):
        return make(*arguments)
    complain(__doc__)
    return 2


def main(arguments: List[str]) -> int:
    try:
        return run(arguments)
    except (OSError, WrittenError) as error:
        complain(f"label.py: {error}")
        return 1


if __name__ == "__main__":
    sys.exit(main(sys.argv[1:]))
