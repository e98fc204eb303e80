"""A tape's records cut into frames, each where it closes, by the plate's closing gap."""

from bisect import bisect_right
from typing import Iterator, List, NamedTuple, Optional

from commands import ADDRESS_BYTES, BROADCAST, RESET, SET_ADDRESS, WARNING, layout_fits
from records import Character, Plate, Poll, PowerOn, Record, encode, gap, xor_of

SHORTEST = 3
KEPT_BYTES = 135


class Frame(NamedTuple):
    """A frame, the tick and the place of the record that closed it (None where none did), and the places of its first and last character.

    Its pause counts from `last_tick`; `early_polls` came before it was over, and `by_poll` tells whether a poll closed the frame.
    """

    start: int
    values: bytes
    parity: bool
    first: int
    last: int
    closed: Optional[int] = None
    closed_at: Optional[int] = None
    last_tick: int = 0
    early_polls: int = 0
    by_poll: bool = False


def is_good(values: bytes, command: int) -> bool:
    """Whether these are a frame of this command, its checksum right and its data of the command's length."""
    return len(values) >= SHORTEST and xor_of(values) == 0 and values[1] == command and layout_fits(command, values[2:-1])


def is_reset(values: bytes) -> bool:
    """Whether these are a good Encoder Reset, to which no board answers (000, table 29)."""
    return is_good(values, RESET)


def silence_due(own: int, frame: Frame) -> bool:
    """Whether a board of this address byte must keep silent: too short, another's, or a good Encoder Reset (01, step 1; 53h)."""
    if len(frame.values) < SHORTEST or frame.values[0] not in (own, BROADCAST):
        return True
    return is_reset(frame.values) and not frame.parity


def address_after(own: int, request: bytes, reply: bytes) -> int:
    """The board's address byte after a request and its reply, if any: an accepted 55h gives the new one, and the reply has it already (000, table 30)."""
    if not is_good(request, SET_ADDRESS) or request[0] not in (own, BROADCAST):
        return own
    new = request[2]
    accepted = len(reply) == SHORTEST and xor_of(reply) == 0 and reply[0] == new and reply[1] % WARNING == SET_ADDRESS
    return new if accepted and new in ADDRESS_BYTES else own


class Cutter:
    """The frame that is open, and the tick of its last character."""

    def __init__(self, plate: Plate):
        self.closing_gap = plate.closing_gap()
        self.open: Optional[Frame] = None
        self.values = bytearray()
        self.last = 0

    def close(self, tick: int, place: int) -> Optional[Frame]:
        if self.open is None or gap(self.last, tick) < self.closing_gap:
            return None
        return self.drop()._replace(closed=tick, closed_at=place)

    def drop(self) -> Optional[Frame]:
        frame, self.open = self.open, None
        return frame and frame._replace(values=bytes(self.values))

    def add(self, character: Character, place: int):
        if self.open is None:
            self.open = Frame(character.tick, b"", False, place, place)
            self.values = bytearray()
        self.values.append(character.value)
        self.open = self.open._replace(parity=self.open.parity or character.parity, last=place, last_tick=character.tick, early_polls=0)
        self.last = character.tick

    def poll_early(self):
        """A poll that closed nothing."""
        if self.open is not None:
            self.open = self.open._replace(early_polls=self.open.early_polls + 1)


def happenings(records: List[Record]) -> Iterator[object]:
    """What a person wants to see, in order: frames where they close, and the host's other calls."""
    cutter = Cutter(records[0])
    place = len(encode(records[0]))
    for record in records[1:]:
        if isinstance(record, (Character, Poll)):
            frame = cutter.close(record.tick, place)
            if frame:
                yield frame._replace(by_poll=isinstance(record, Poll))
            if isinstance(record, Character):
                cutter.add(record, place)
            else:
                cutter.poll_early()
        else:
            yield record
            dropped = cutter.drop() if isinstance(record, PowerOn) else None
            if dropped:
                yield dropped
        place += len(encode(record))
    left = cutter.drop()
    if left:
        yield left


def frames_of(records: List[Record]) -> List[Frame]:
    return [happening for happening in happenings(records) if isinstance(happening, Frame)] if records else []


def frame_at(frames: List[Frame], place: int) -> Optional[Frame]:
    """The frame to which the character at a place of the tape belongs."""
    number = bisect_right([frame.first for frame in frames], place) - 1
    return frames[number] if number >= 0 and place <= frames[number].last else None
