"""Several boards on one line, from one text: its asks played one after another, and each board's tape, on which it hears the others' replies too."""

import re
from typing import Callable, Dict, List, Match, NamedTuple, Optional, Tuple, Union

from asking import Wanted, asked, wanted_of
from frames import Frame, address_after
from printed import Reply
from records import TICKS, Character, Plate, Poll, Record, encode, hex_of
from texts import CALLS, TextError, call_of, one_reply, plate_of, said
from written import WrittenError, event_and_comment, number_of

BOARD_LINE = re.compile(r"board\s+([a-z0-9-]{1,8})\s*:\s*(.+)")
PLATE_LINE = re.compile(r"board\b.*\bplate\b")


# --- the text -------------------------------------------------------------------------------


class Wish(NamedTuple):
    """What is expected of a board; of every board where it names none."""

    line: int
    text: str
    board: str
    wanted: Wanted


class Ask(NamedTuple):
    """A request of the master, the tick of its first character if the text gives one, and what is expected."""

    line: int
    at: Optional[int]
    request: bytes
    wishes: List[Wish]

    def wishes_of(self, board: str) -> List[Wish]:
        return [wish for wish in self.wishes if wish.board in ("", board)]


class Call(NamedTuple):
    """One of the other calls of a board's host."""

    board: str
    record: Record


class Script(NamedTuple):
    """A text of several boards read: their plates, what happens, and its bad lines."""

    plates: Dict[str, Plate]
    steps: List[Union[Ask, Call]]
    bad: List[TextError]


class Reader:
    """The plates and steps so far, and the number of the line."""

    def __init__(self):
        self.plates: Dict[str, Plate] = {}
        self.steps: List[Union[Ask, Call]] = []
        self.line = 0

    def take(self, line: str):
        """One line of text without its comment; WrittenError if it says nothing that can be here."""
        found = BOARD_LINE.fullmatch(line)
        if not found and re.match(r"board\b", line):
            raise WrittenError(f"not of the shape `board NAME: EVENT`, the name of at most 8 small letters or digits: {line}")
        board, event = found.groups() if found else ("", line)
        word, parts = said(event)
        fault = self.misplaced(board, word)
        if fault:
            raise WrittenError(fault)
        if word == "plate":
            self.take_plate(board, parts)
        elif word == "ask":
            self.take_ask(parts)
        elif word == "expect":
            self.take_expect(board, parts.group(1))
        else:
            self.steps.append(Call(board, call_of(word, parts)))

    def misplaced(self, board: str, word: str) -> str:
        """Why an event cannot be here, with or without a board's name in front of it."""
        if word not in ("plate", "ask", "expect") + CALLS:
            return f"{word} is for a text of one board; on a line of several the master only asks"
        if word == "ask" and board:
            return "every board hears an ask: no board's name stands in front of it"
        if word not in ("ask", "expect") and not board:
            return f"several boards are on the line, so whose: `board NAME: {word}`"
        if word != "plate" and board and board not in self.plates:
            return f"no board {board}; there are {', '.join(self.plates) or 'none'}"
        return ""

    def take_plate(self, board: str, parts: Match):
        plate = plate_of(parts)
        if self.steps or board in self.plates:
            raise WrittenError(f"a second plate for board {board}" if board in self.plates else "the plates come first")
        for other in self.plates.values():
            if (other.ticks, other.pause) != (plate.ticks, plate.pause):
                raise WrittenError("boards on one line have the same ticks and pause")
        self.plates[board] = plate

    def take_ask(self, parts: Match):
        at, every, text = parts.groups()
        if every is not None:
            raise WrittenError("every is for a text of one board")
        tick = None if at is None else number_of(at, TICKS, "tick")
        self.steps.append(Ask(self.line, tick, asked(None, text.strip()), []))

    def take_expect(self, board: str, text: str):
        asks = [step for step in self.steps if isinstance(step, Ask)]
        if not asks:
            raise WrittenError("expect speaks of the last ask, and there is none")
        wanted = wanted_of(text)
        if not board and wanted is not None:
            raise WrittenError("several boards are on the line: `board NAME: expect ..`; only `expect silence` speaks of all")
        asks[-1].wishes.append(Wish(self.line, text, board, wanted))


def has_boards(text: str) -> bool:
    """Whether a text is one of several boards: its first event names one."""
    events = (event_and_comment(line)[0] for line in text.splitlines())
    return re.match(r"board\b", next(filter(None, events), "")) is not None


def read_script(text: str) -> Script:
    """The whole text. A bad line is told and left out; a bad plate ends it."""
    reader = Reader()
    bad: List[TextError] = []
    for number, line in enumerate(text.splitlines(), start=1):
        event, _ = event_and_comment(line)
        if not event:
            continue
        reader.line = number
        try:
            reader.take(event)
        except WrittenError as error:
            bad.append(TextError(number, str(error)))
            if PLATE_LINE.match(event) or not reader.plates:
                break
    return Script(reader.plates, reader.steps, bad)


# --- the line -------------------------------------------------------------------------------


class Board:
    """A board on the line: its name, its tape so far, and the address byte in force."""

    def __init__(self, name: str, plate: Plate):
        self.name = name
        self.own = plate.own_byte()
        self.tape = bytearray(encode(plate))

    def put(self, record: Record):
        self.tape += encode(record)


class Exchange(NamedTuple):
    """An ask with its ticks, the address bytes in force when it closed, each board's reply, and what boards replied to another's reply."""

    ask: Ask
    start: int
    closed: int
    own: Dict[str, int]
    replies: Dict[str, Reply]
    to_replies: Dict[str, Reply]

    def frame(self) -> Frame:
        return Frame(self.start, self.ask.request, False, 0, 0, self.closed)


# What a board replies at a tick to an ask, or to what it heard from another board; no bytes for silence.
Replies = Callable[[Board, int, Optional[Ask]], bytes]


class Line:
    """The boards on a line, what they reply, and the tick from which on the line is free."""

    def __init__(self, plates: Dict[str, Plate], replies: Replies):
        self.boards = [Board(name, plate) for name, plate in plates.items()]
        self.timing = next(iter(plates.values()))
        self.replies = replies
        self.free = 0

    def send(self, hearers: List[Board], start: int, values: bytes) -> int:
        """Puts characters onto the tapes of those who hear them; the tick of the last one."""
        spacing = self.timing.character_ticks()
        ticks = [(start + place * spacing) % TICKS for place in range(len(values))]
        for board in hearers:
            for tick, value in zip(ticks, values):
                board.put(Character(tick, value, False))
        return ticks[-1]

    def pause(self, last: int) -> int:
        """Polls every board when the pause after a character is over; the tick of that."""
        tick = (last + self.timing.closing_gap()) % TICKS
        for board in self.boards:
            board.put(Poll(tick))
        self.free = (tick + self.timing.character_ticks()) % TICKS
        return tick

    def said_at(self, tick: int, boards: List[Board], ask: Optional[Ask]) -> Dict[str, Reply]:
        found = {board.name: Reply(tick, self.replies(board, tick, ask)) for board in boards}
        return {name: reply for name, reply in found.items() if reply.values}

    def hand_on(self, replies: Dict[str, Reply]) -> Dict[str, Reply]:
        """A reply as the other boards hear it, one character after another, and what they reply to it, which none should.

        Where several boards talk at once nobody can say what is heard: no board is handed any of it, and the line is free after the longest.
        """
        if not replies:
            return {}
        hearers = [board for board in self.boards if board.name not in replies] if len(replies) == 1 else []
        longest = max(replies.values(), key=lambda reply: len(reply.values))
        last = self.send(hearers, longest.tick + self.timing.character_ticks(), longest.values)
        return self.said_at(self.pause(last), hearers, None)

    def exchange(self, ask: Ask) -> Exchange:
        """An ask, the pause that closes it at every board, and what comes of it."""
        start = self.free if ask.at is None else ask.at
        if start < self.free:
            raise TextError(ask.line, f"the line is free from tick {self.free} on")
        own = {board.name: board.own for board in self.boards}
        closed = self.pause(self.send(self.boards, start, ask.request))
        replies = self.said_at(closed, self.boards, ask)
        for board in self.boards:
            if board.name in replies:
                board.own = address_after(board.own, ask.request, replies[board.name].values)
        return Exchange(ask, start, closed, own, replies, self.hand_on(replies))


def play(script: Script, replies: Replies) -> Tuple[List[Union[Exchange, Call]], List[Board]]:
    """All that happens, and the boards with their whole tapes."""
    line = Line(script.plates, replies)
    by_name = {board.name: board for board in line.boards}
    happened: List[Union[Exchange, Call]] = []
    for step in script.steps:
        if isinstance(step, Ask):
            happened.append(line.exchange(step))
        else:
            by_name[step.board].put(step.record)
            happened.append(step)
    return happened, line.boards


# --- stored tapes ---------------------------------------------------------------------------


def named(board: Board, _tick: int, ask: Optional[Ask]) -> bytes:
    """The reply that the text names; to what it hears from another a board replies nothing."""
    if ask is None:
        return b""
    return one_reply(board.own, None, ask.wishes_of(board.name)) or b""


def stored(text: str) -> Dict[str, Tuple[bytes, str]]:
    """Each board's tape, and what an answer program is to print of it, by the replies that the text names."""
    script = read_script(text)
    if script.bad:
        raise script.bad[0]
    happened, boards = play(script, named)
    found = {}
    for board in boards:
        replies = [exchange.replies[board.name] for exchange in happened if isinstance(exchange, Exchange) and board.name in exchange.replies]
        lines = [f"{reply.tick} {hex_of(reply.values)}\n" for reply in replies]
        found[board.name] = (bytes(board.tape), "tick reply\n" + "".join(lines))
    return found
