"""A field's status byte, told in words and read from the same words (01, "Status byte")."""

import re
from typing import List, Tuple

from written import WrittenError

EXISTS = 0x80
WRITE_ENABLED = 0x40
CODE_NUMBER = 0x30
CODE_WANTED = 0x08
BLOCKS = 0x07
# The parts beside bit 7.
PARTS = {"blocks": BLOCKS, "code wanted": CODE_WANTED, "code number": CODE_NUMBER, "write-enabled": WRITE_ENABLED}

BLOCK = 16  # bytes
CODE_NUMBERS = range(4)
SIZES = range(1, 9)  # blocks


def counted(number: int, what: str) -> str:
    """As people count: `1 block`, `2 blocks`."""
    return f"{number} {what}" + "s" * (number != 1)


# How each part is told: the bits of which a word speaks, and their value.
TOLD = {
    "write-enabled": (WRITE_ENABLED, WRITE_ENABLED),
    "read-only": (WRITE_ENABLED, 0),
    "code wanted": (CODE_WANTED, CODE_WANTED),
    "no code wanted": (CODE_WANTED, 0),
    **{f"code number {number}": (CODE_NUMBER, number << 4) for number in CODE_NUMBERS},
    **{counted(blocks, "block"): (BLOCKS, blocks - 1) for blocks in SIZES},
}
# What people may write too.
SAID = {
    **TOLD,
    **{f"code {number} wanted": (CODE_NUMBER | CODE_WANTED, number << 4 | CODE_WANTED) for number in CODE_NUMBERS},
    **{f"{blocks} blocks": (BLOCKS, blocks - 1) for blocks in SIZES},
    **{f"{blocks * BLOCK} bytes": (BLOCKS, blocks - 1) for blocks in SIZES},
}
SIZE_WORDS = "1 to 8 blocks, or 16 to 128 bytes in steps of 16"
FIELD_WORDS = "N blocks, N bytes, code N wanted, code number N, code wanted, no code wanted, read-only, write-enabled"
# What is like such a word and none, and why.
NEAR = (
    (re.compile(r"\S+ (?:block|byte)s?"), f"a field has {SIZE_WORDS}"),
    (re.compile(r"code (?:number \S+|\S+ wanted)"), "a code number is 0 to 3"),
    (re.compile(r".*"), f"words, with commas between them, are {FIELD_WORDS}"),
)


def blocks_of(status: int) -> int:
    return (status & BLOCKS) + 1


def size_of(status: int) -> int:
    """How many bytes a field of this status has."""
    return blocks_of(status) * BLOCK


def status_parts(status: int) -> List[str]:
    """The parts beside bit 7 in words."""
    return [word for word, (bits, value) in TOLD.items() if status & bits == value]


def status_words(status: int) -> str:
    """A status byte taken apart."""
    exists = "exists" if status & EXISTS else "does not exist"
    return f"status {status:02X}h ({', '.join([exists] + status_parts(status))})"


def part_said(word: str) -> Tuple[int, int]:
    """Of which bits a word speaks, and their value."""
    if word not in SAID:
        reason = next(reason for form, reason in NEAR if form.fullmatch(word))
        raise WrittenError(f"{word or 'nothing'}: {reason}")
    return SAID[word]


def status_said(text: str) -> int:
    """The status of a field that exists, by words with commas between them; left out they are write-enabled, no code wanted, code number 0."""
    status, said = EXISTS | WRITE_ENABLED, 0
    for part in text.split(","):
        word = " ".join(part.split())
        bits, value = part_said(word)
        if said & bits:
            raise WrittenError(f"{word}: a word before it speaks of the same")
        status, said = status & ~bits | value, said | bits
    if not said & BLOCKS:
        raise WrittenError(f"no size: a field has {SIZE_WORDS}")
    return status
