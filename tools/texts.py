"""A session's text read: the tape that it says, what it expects, and the replies that it names (tape.py --help has its words)."""

import re
from typing import Dict, List, Match, NamedTuple, Optional, Tuple

from asking import Wanted, asked, wanted_of
from bench import Verdict
from commands import ERROR, WARNING
from frames import Frame, address_after, frame_at, frames_of
from records import TICKS, Character, Fault, Measured, Plate, Poll, PowerOn, Record, encode, hex_of, record_at, split, xor_of
from written import WrittenError, bytes_of, event_and_comment, hex_byte, number_of


class TextError(Exception):
    """A line of text that says no event."""

    def __init__(self, line: int, message: str):
        super().__init__(f"line {line}: {message}")
        self.line = line


# --- one line -------------------------------------------------------------------------------

NUMBER = r"([0-9]+|0[xX][0-9a-fA-F]+)"
TIMES = rf"(?:\s+at\s+{NUMBER})?(?:\s+every\s+{NUMBER})?"
CALLS = ("measured", "fault", "power-on")
REPLY_WORD = "reply "

# Each word that starts a line: how such a line looks, to a person and to us.
SHAPES = {
    "plate": (
        "plate total T bits P address A ticks N pause N",
        re.compile(r"plate\s+" + r"\s+".join(f"{name}\\s+{NUMBER}" for name in Plate._fields)),
    ),
    "ask": (
        "ask [at TICK] [every TICKS] [to ADDRESS] NAME [ARGUMENT VALUE].. or ask BYTES",
        re.compile(rf"ask{TIMES}(?:\s*:\s*|\s+)(.+)"),
    ),
    "expect": ("expect reply BYTES, silence, done, error CODE or refused B0", re.compile(r"expect\s+(.+)")),
    "frame": ("frame [at TICK] [every TICKS]: BYTES", re.compile(rf"frame{TIMES}\s*:\s*(.*)")),
    "character": (
        "character at TICK: BYTE [parity]",
        re.compile(rf"character\s+at\s+{NUMBER}\s*:\s*((?:0[xX])?[0-9a-fA-F]{{2}}[hH]?)(\s+parity)?"),
    ),
    "poll": ("poll [TICK]", re.compile(rf"poll(?:\s+{NUMBER})?")),
    "measured": ("measured NUMBER", re.compile(rf"measured\s+{NUMBER}")),
    "fault": ("fault BYTE", re.compile(r"fault\s+((?:0[xX])?[0-9a-fA-F]{2}[hH]?)")),
    "power-on": ("power-on", re.compile(r"power-on")),
    "raw": ("raw: BYTES", re.compile(r"raw\s*:\s*(.*)")),
}


def said(line: str) -> Tuple[str, Match]:
    """The word that starts a line, and what stands in its shape; WrittenError if it says no event."""
    word = re.match(r"[a-z-]*", line).group()
    if word not in SHAPES:
        raise WrittenError(f"no event starts like this: {line}")
    shape, form = SHAPES[word]
    found = form.fullmatch(line)
    if not found:
        raise WrittenError(f"not of the shape `{shape}`: {line}")
    return word, found


def plate_of(found: Match) -> Plate:
    plate = Plate(*(number_of(text, 256, name) for name, text in zip(Plate._fields, found.groups())))
    if plate.fault():
        raise WrittenError(f"the plate would be refused: {plate.fault()}")
    return plate


def call_of(word: str, found: Match) -> Record:
    """One of the host's other calls."""
    if word == "measured":
        return Measured(number_of(found.group(1), TICKS, "position"))
    return Fault(hex_byte(found.group(1), "fault")) if word == "fault" else PowerOn()


# --- line by line ---------------------------------------------------------------------------


class Expectation(NamedTuple):
    """What must come to the frame whose last written character stands at a place of the tape."""

    line: int
    text: str
    place: int
    wanted: Wanted


class Writer:
    """The tape so far, where on it the line is free, and what is expected."""

    def __init__(self):
        self.tape = bytearray()
        self.plate: Optional[Plate] = None
        self.last_character: Optional[int] = None
        self.last_poll: Optional[int] = None
        self.last_place: Optional[int] = None
        self.expectations: List[Expectation] = []
        self.line = 0

    def put(self, record: Record):
        if isinstance(record, Character):
            self.last_character = record.tick
            self.last_poll = None
            self.last_place = len(self.tape)
        if isinstance(record, Poll):
            self.last_poll = record.tick
        if isinstance(record, PowerOn):
            self.last_character = None
        self.tape += encode(record)

    def free_tick(self) -> int:
        """The tick of a frame's first character where the text leaves it out."""
        if self.last_poll is not None:
            return (self.last_poll + self.plate.character_ticks()) % TICKS
        if self.last_character is not None:
            return (self.last_character + self.plate.closing_gap()) % TICKS
        return 0

    def put_plate(self, found):
        if self.plate:
            raise WrittenError("a second plate")
        self.plate = plate_of(found)
        self.put(self.plate)

    def put_characters(self, at: Optional[str], every: Optional[str], values: bytes):
        tick = self.free_tick() if at is None else number_of(at, TICKS, "tick")
        spacing = self.plate.character_ticks() if every is None else number_of(every, TICKS, "spacing")
        if not values:
            raise WrittenError("a frame without bytes")
        for place, value in enumerate(values):
            self.put(Character((tick + place * spacing) % TICKS, value, False))

    def put_frame(self, found):
        at, every, text = found.groups()
        self.put_characters(at, every, bytes_of(text))

    def put_ask(self, found):
        at, every, text = found.groups()
        self.put_characters(at, every, asked(self.plate.own_byte(), text.strip()))
        self.put(self.closing_poll())

    def put_expect(self, found):
        if self.last_place is None:
            raise WrittenError("expect speaks of the last ask or frame, and there is none")
        self.expectations.append(Expectation(self.line, found.group(1), self.last_place, wanted_of(found.group(1))))

    def put_character(self, found):
        at, value, parity = found.groups()
        self.put(Character(number_of(at, TICKS, "tick"), hex_byte(value, "character"), parity is not None))

    def closing_poll(self) -> Poll:
        return Poll((self.last_character + self.plate.closing_gap()) % TICKS)

    def put_poll(self, found):
        at = found.group(1)
        if at is None and self.last_character is None:
            raise WrittenError("a poll without a tick needs a character before it")
        self.put(self.closing_poll() if at is None else Poll(number_of(at, TICKS, "tick")))

    def put_raw(self, found):
        self.tape += bytes_of(found.group(1))

    def put_line(self, line: str):
        """One line of text without its comment; WrittenError if it says no event."""
        word, found = said(line)
        if self.plate is None and word not in ("plate", "raw"):
            raise WrittenError("the plate comes first")
        if word in CALLS:
            self.put(call_of(word, found))
        else:
            PUT[word](self, found)


# What a line does that is not one of the host's other calls.
PUT = {
    "plate": Writer.put_plate,
    "ask": Writer.put_ask,
    "expect": Writer.put_expect,
    "frame": Writer.put_frame,
    "character": Writer.put_character,
    "poll": Writer.put_poll,
    "raw": Writer.put_raw,
}


# --- a whole session ------------------------------------------------------------------------


class NamedReply(NamedTuple):
    """A reply that a comment names, and the place of the record that is to bring it."""

    line: int
    place: int
    values: bytes


class Session(NamedTuple):
    """A text read: its tape, what it expects, the replies its comments name, and its bad lines."""

    tape: bytes
    expectations: List[Expectation]
    replies: List[NamedReply]
    bad: List[TextError]


def named_reply(writer: Writer, start: int, event: str, comment: str) -> NamedReply:
    """The reply that a comment names: brought by the event's first character, by its poll, or by the poll of an ask."""
    if not isinstance(record_at(writer.tape, start), (Character, Poll)):
        raise WrittenError("only a character or a poll brings a reply")
    place = len(writer.tape) - len(encode(Poll(0))) if event.startswith("ask") else start
    return NamedReply(writer.line, place, bytes_of(comment[len(REPLY_WORD) :]))


def read_session(text: str) -> Session:
    """The whole text. A bad line is told and left out; a bad plate ends it."""
    writer = Writer()
    replies: List[NamedReply] = []
    bad: List[TextError] = []
    for number, line in enumerate(text.splitlines(), start=1):
        event, comment = event_and_comment(line)
        if not event:
            continue
        writer.line, start = number, len(writer.tape)
        try:
            writer.put_line(event)
            if comment.startswith(REPLY_WORD):
                replies.append(named_reply(writer, start, event, comment))
        except WrittenError as error:
            bad.append(TextError(number, str(error)))
            if writer.plate is None:
                break
    return Session(bytes(writer.tape), writer.expectations, replies, bad)


def good_session(text: str) -> Session:
    """The whole text, or the TextError of its first bad line."""
    session = read_session(text)
    if session.bad:
        raise session.bad[0]
    return session


def tape_of(text: str) -> bytes:
    """The tape that a text says."""
    return good_session(text).tape


def expected_bytes(own: int, wanted: Wanted) -> Optional[bytes]:
    """The reply of a board of this address byte that an expectation comes to, no bytes for silence; None where it leaves bytes open."""
    if not isinstance(wanted, Verdict):
        return wanted or b""
    if wanted.kind != "error":
        return None
    reply = bytes([own, ERROR + WARNING * wanted.warning, wanted.number])
    return reply + bytes([xor_of(reply)])


def one_reply(own: int, named: Optional[bytes], expectations: List[Expectation]) -> Optional[bytes]:
    """The one reply that a comment, if there is one, and all expectations of a frame come to; None where there is neither."""
    expected = [(expected_bytes(own, expectation.wanted), expectation) for expectation in expectations]
    for values, expectation in sorted(expected, key=lambda pair: pair[0] is None):
        if values is None and named is None:
            raise TextError(expectation.line, "no bytes are named for this reply: a stored session needs `expect reply`")
        if values is not None and named not in (None, values):
            raise TextError(expectation.line, f"another reply is named already: {hex_of(named) or 'silence'}")
        named = values if named is None else named
    return named


def by_closing(frames: List[Frame], expectations: List[Expectation]) -> Dict[int, List[Expectation]]:
    """Expectations by the place of the record that closes their frame."""
    found: Dict[int, List[Expectation]] = {}
    for expectation in expectations:
        frame = frame_at(frames, expectation.place)
        if frame is None or frame.closed_at is None:
            raise TextError(expectation.line, "nothing closes the frame that this speaks of")
        found.setdefault(frame.closed_at, []).append(expectation)
    return found


def replies_to_come(session: Session) -> Dict[int, bytes]:
    """Each reply that a text names, by comment or by expect, at the place of the record that is to bring it; no bytes for silence."""
    records, _ = split(session.tape)
    frames = [frame for frame in frames_of(records) if frame.closed_at is not None]
    expected = by_closing(frames, session.expectations)
    replies = {reply.place: reply.values for reply in session.replies}
    own = records[0].own_byte() if frames else 0
    for frame in frames:
        reply = one_reply(own, replies.get(frame.closed_at), expected.get(frame.closed_at, []))
        if reply is not None:
            replies[frame.closed_at] = reply
        own = address_after(own, frame.values, reply or b"")
    return replies


def answers_to_come(text: str) -> str:
    """What an answer program is to print of a text that names every reply (01, "The answer program")."""
    session = good_session(text)
    replies = replies_to_come(session)
    ticks = {place: record_at(session.tape, place).tick for place in replies}
    return "tick reply\n" + "".join(f"{ticks[place]} {hex_of(replies[place])}\n" for place in sorted(replies) if replies[place])
