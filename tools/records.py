"""Tapes as raw records, those of the answer program as what they say, and the small numbers that all tools share: ticks, checksums, hex."""

from functools import reduce
from operator import xor
from typing import List, NamedTuple, Optional, Tuple, Union

TICKS = 1 << 32
TICKS_A_SECOND = 38400
CHARACTER_BITS = 11


def xor_of(data) -> int:
    return reduce(xor, data, 0)


def hex_of(data) -> str:
    return " ".join(f"{byte:02X}" for byte in data)


def gap(earlier: int, later: int) -> int:
    return (later - earlier) % TICKS


def milliseconds(ticks: float) -> str:
    return f"{ticks * 1000 / TICKS_A_SECOND:.3f} ms"


class Plate(NamedTuple):
    total: int
    bits: int
    address: int
    ticks: int
    pause: int

    def fault(self) -> Optional[str]:
        """Which number is beyond its limit, in words; None for a good plate (01, "Plate")."""
        limits = (
            ("total", self.total, range(1, 113), "1 to 112"),
            ("bits", self.bits, range(1, 33), "1 to 32"),
            ("address", self.address, range(0, 32), "0 to 31"),
            ("ticks", self.ticks, (1, 2, 4, 8, 16, 32, 64), "1, 2, 4, 8, 16, 32 or 64"),
            ("pause", self.pause, (22, 55), "22 or 55"),
        )
        for name, value, allowed, words in limits:
            if value not in allowed:
                return f"{name} is {value}, not {words}"
        return None

    def closing_gap(self) -> int:
        return self.pause * self.ticks

    def character_ticks(self) -> int:
        return CHARACTER_BITS * self.ticks

    def own_byte(self) -> int:
        return 0x40 + self.address


class Character(NamedTuple):
    tick: int
    value: int
    parity: bool


class Poll(NamedTuple):
    tick: int


class Measured(NamedTuple):
    position: int


class Fault(NamedTuple):
    code: int


class PowerOn(NamedTuple):
    pass


Record = Union[Plate, Character, Poll, Measured, Fault, PowerOn]


# --- any tape -------------------------------------------------------------------------------


class Bad(NamedTuple):
    """The place of the first record that fits nothing, why, and all bytes from there on."""

    place: int
    reason: str
    rest: bytes


class RawRecord(NamedTuple):
    """A whole record, whatever its kind: the place of its first byte, its kind and its body."""

    place: int
    kind: int
    body: bytes

    def end(self) -> int:
        return self.place + 4 + len(self.body)


def record_bytes(kind: int, body: bytes) -> bytes:
    """A record as it stands on a tape: length, kind, body (01, "The answer program")."""
    return (2 + len(body)).to_bytes(2, "little") + kind.to_bytes(2, "little") + body


def raw_record(tape: bytes, place: int) -> Tuple[Optional[RawRecord], str]:
    """The whole record at a place; or none, and why."""
    if len(tape) - place < 2:
        return None, "a lone last byte"
    length = int.from_bytes(tape[place : place + 2], "little")
    end = place + 2 + length
    if length < 2:
        return None, f"a length of {length}, which has no room for the kind"
    if end > len(tape):
        return None, f"cut short: {length} bytes announced, {len(tape) - place - 2} there"
    return RawRecord(place, int.from_bytes(tape[place + 2 : place + 4], "little"), tape[place + 4 : end]), ""


def cut(tape: bytes) -> Tuple[List[RawRecord], Optional[Bad]]:
    """All whole records from the tape's front, and what follows them that is none, if anything does."""
    found: List[RawRecord] = []
    place = 0
    while place < len(tape):
        raw, reason = raw_record(tape, place)
        if raw is None:
            return found, Bad(place, reason, tape[place:])
        found.append(raw)
        place = raw.end()
    return found, None


# --- the answer program's -------------------------------------------------------------------


def four_bytes(number: int) -> bytes:
    return number.to_bytes(4, "little")


def encode(record: Record) -> bytes:
    """A record's bytes."""
    if isinstance(record, Plate):
        kind, body = 1, bytes(record)
    elif isinstance(record, Character):
        kind, body = 2, four_bytes(record.tick) + bytes([record.value, int(record.parity)])
    elif isinstance(record, Poll):
        kind, body = 3, four_bytes(record.tick)
    elif isinstance(record, Measured):
        kind, body = 4, four_bytes(record.position)
    elif isinstance(record, Fault):
        kind, body = 5, bytes([record.code])
    else:
        kind, body = 6, b""
    return record_bytes(kind, body)


BODY_LENGTHS = {1: 5, 2: 6, 3: 4, 4: 4, 5: 1, 6: 0}


def decode_body(kind: int, body: bytes) -> Record:
    """The record of a kind whose body has the right length."""
    if kind == 1:
        return Plate(*body)
    if kind == 2:
        return Character(int.from_bytes(body[:4], "little"), body[4], body[5] == 1)
    if kind == 3:
        return Poll(int.from_bytes(body, "little"))
    if kind == 4:
        return Measured(int.from_bytes(body, "little"))
    if kind == 5:
        return Fault(body[0])
    return PowerOn()


def decode(raw: RawRecord) -> Tuple[Optional[Record], str]:
    """What a raw record says; or nothing, and why."""
    kind, body = raw.kind, raw.body
    if kind not in BODY_LENGTHS:
        return None, f"kind {kind} is unknown"
    if len(body) != BODY_LENGTHS[kind]:
        return None, f"kind {kind} has {len(body)} bytes, not {BODY_LENGTHS[kind]}"
    if kind == 2 and body[5] > 1:
        return None, f"a parity fault of {body[5]}, not 0 or 1"
    return decode_body(kind, body), ""


def record_at(tape: bytes, place: int) -> Optional[Record]:
    """The record at a place, if there is a good one."""
    raw, _ = raw_record(tape, place)
    return decode(raw)[0] if raw else None


def split(tape: bytes) -> Tuple[List[Record], Optional[Bad]]:
    """All good records from the tape's front, and the bad one that ends them, if any."""
    raws, bad = cut(tape)
    records: List[Record] = []
    for raw in raws:
        record, reason = decode(raw)
        if record is not None:
            reason = misplaced(record, first=not records)
        if record is None or reason:
            return records, Bad(raw.place, reason, tape[raw.place :])
        records.append(record)
    return records, bad


def misplaced(record: Record, first: bool) -> str:
    """Why a record may not stand here: the plate is good, first and once."""
    if not isinstance(record, Plate):
        return "the first record is not a plate" if first else ""
    if not first:
        return "a second plate"
    fault = record.fault()
    return f"the plate is refused: {fault}" if fault else ""
