"""Bytes, numbers and files as people write them, and output that bears a closed pipe."""

import os
import re
import sys
from typing import Iterator, Match, Pattern, Tuple

from records import xor_of

MOST_TIMES = 100_000
LONGEST_NUMBER = 20
UTF_16 = (b"\xff\xfe", b"\xfe\xff")

HEX_PAIRS = r"(?:0[xX]([0-9a-fA-F]|(?:[0-9a-fA-F]{2})+)|((?:[0-9a-fA-F]{2})+)[hH]?)(?:\*([0-9]+))?"
HEX_WORD = re.compile(rf"[\s,]*{HEX_PAIRS}(?=[\s,]|$)")
BYTE_WORD = re.compile(rf'[\s,]*(?:{HEX_PAIRS}|"([^"]*)"|(sum))(?=[\s,]|$)')
HEX_BYTE = re.compile(r"(?:0[xX])?([0-9a-fA-F]{1,2})[hH]?")


class WrittenError(Exception):
    """Something written that says no byte or number, in words."""


def number_of(text: str, below: int, what: str) -> int:
    """A decimal number, or 0x and hex digits."""
    digits = text.lstrip("0") or "0"
    if len(digits) > LONGEST_NUMBER:
        raise WrittenError(f"{what} of {len(digits)} digits is over {below - 1}")
    try:
        value = int(text, 16) if text[:2].lower() == "0x" else int(text)
    except ValueError:
        raise WrittenError(f"{what} is no number: {text}") from None
    if not 0 <= value < below:
        raise WrittenError(f"{what} {text} is over {below - 1}")
    return value


def hex_byte(text: str, what: str) -> int:
    """One byte in hex: 55, 0x55 or 55h."""
    found = HEX_BYTE.fullmatch(text)
    if not found:
        raise WrittenError(f"{what} is no byte in hex: {text}")
    return int(found.group(1), 16)


def words_of(text: str, form: Pattern, what: str) -> Iterator[Match]:
    """The words of a list, all of one form, with commas or blanks between them."""
    place = 0
    while text[place:].strip(" \t\r\n,"):
        word = form.match(text, place)
        if not word:
            raise WrittenError(f"no {what}: {text[place:].strip()}")
        yield word
        place = word.end()


def bytes_of(text: str) -> bytes:
    """The bytes that a list says: hex pairs (40 4E, 404E, 0x40, 40h), quoted text, `sum`, a byte so many times."""
    found = bytearray()
    for word in words_of(text, BYTE_WORD, "byte, quoted text or sum"):
        found += one_word(word, found)
    return bytes(found)


def hex_bytes_of(text: str) -> bytes:
    """The bytes that a list says in hex alone."""
    return b"".join(hex_pairs(word) for word in words_of(text, HEX_WORD, "byte in hex"))


def hex_pairs(word: Match) -> bytes:
    prefixed, pairs, times = word.groups()[:3]
    digits = prefixed or pairs
    return bytes.fromhex("0" * (len(digits) % 2) + digits) * number_of(times or "1", MOST_TIMES + 1, "a byte's number of times")


def one_word(word: Match, before: bytearray) -> bytes:
    quoted, total = word.groups()[3:]
    if total:
        return bytes([xor_of(before)])
    if quoted is None:
        return hex_pairs(word)
    if not quoted.isascii():
        raise WrittenError(f'only ASCII text has bytes here: "{quoted}"')
    return quoted.encode("ascii")


def event_and_comment(line: str, escape: str = "") -> Tuple[str, str]:
    """The line up to its first # that stands outside quotation marks, and what is behind it. A quotation mark behind an `escape` is none."""
    quoted = escaped = False
    for place, letter in enumerate(line):
        if letter == '"' and not escaped:
            quoted = not quoted
        if letter == "#" and not quoted:
            return line[:place].strip(), line[place + 1 :].strip()
        escaped = letter == escape and not escaped
    return line.strip(), ""


def text_of_bytes(data: bytes) -> str:
    """A file's bytes as UTF-8 text, with or without a byte order mark."""
    if data.startswith(UTF_16):
        raise WrittenError("this text is UTF-16; save it as UTF-8")
    try:
        return data.decode("utf-8-sig")
    except UnicodeDecodeError as error:
        line = data[: error.start].count(b"\n") + 1
        raise WrittenError(f"line {line}: not UTF-8 text (byte {data[error.start]:02X}h)") from None


def is_text(data: bytes) -> bool:
    """Text has no control characters but tab and line ends; every record of a tape has one."""
    return data.startswith(UTF_16) or not any(byte < 32 and byte not in b"\t\n\r" for byte in data)


def read_file(name: str) -> bytes:
    """A file's bytes; those of standard input for the name -."""
    if name != "-":
        with open(name, "rb") as file:
            return file.read()
    if sys.stdin is None:
        raise OSError("standard input is closed")
    return sys.stdin.buffer.read()


def text_in(name: str, data: bytes) -> str:
    """The text that a file has."""
    try:
        return text_of_bytes(data)
    except WrittenError as error:
        raise WrittenError(f"{name}: {error}") from None


def read_text(name: str, what: str) -> str:
    """The text of a file that is to be `what`."""
    data = read_file(name)
    if not is_text(data):
        raise WrittenError(f"{name}: {what} is text, and this is not")
    return text_in(name, data)


def put_out(data: bytes):
    """Writes to standard output. If nobody reads it any more, the rest is left unsaid."""
    if sys.stdout is None:
        raise OSError("standard output is closed")
    try:
        sys.stdout.buffer.write(data)
        sys.stdout.flush()
    except OSError as error:
        os.dup2(os.open(os.devnull, os.O_WRONLY), sys.stdout.fileno())
        if not isinstance(error, BrokenPipeError):
            raise


def write_file(name: str, data: bytes):
    """Writes a file; standard output for the name -."""
    if name == "-":
        put_out(data)
        return
    with open(name, "wb") as file:
        file.write(data)


def complain(text: str):
    """Writes a line to standard error, if there is one."""
    try:
        if sys.stderr is not None:
            sys.stderr.write(text + "\n")
    except OSError:
        pass
