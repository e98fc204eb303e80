"""A session of several boards as a page: what was asked, which board answered, and where boards talked at once."""

from collections import defaultdict
from typing import Callable, Dict, List, Optional, Tuple, Union

from bench import Judge
from boards import Ask, Board, Call, Exchange, Script, Wish, play
from commands import BROADCAST
from fields import Fields
from frames import silence_due
from printed import holds, read_answers
from words import Summary, call_words, entry, error_code, hex_lines, page_of, plate_line, reply_words, request_words


def listed(names: List[str]) -> str:
    """`board a`, `boards a and b`, `no board`."""
    if len(names) < 2:
        return f"board {names[0]}" if names else "no board"
    return f"boards {', '.join(names[:-1])} and {names[-1]}"


def by_board(name: str, values: bytes) -> List[str]:
    """A reply's bytes, with the board in front of the first."""
    first, *others = hex_lines(values) or ["no bytes"]
    return [f"board {name}: {first}"] + others


class BusTeller:
    """What tells an exchange: the judge, each board's fields as told, and the sums so far."""

    def __init__(self, judge: Judge):
        self.judge = judge
        self.fields: Dict[str, Fields] = defaultdict(Fields)
        self.summary = Summary()

    def count(self, **counted: int):
        self.summary = self.summary.plus(Summary(**counted))

    def request(self, exchange: Exchange) -> List[str]:
        """The request, and which boards it is for."""
        values = exchange.ask.request
        asked = [name for name, own in exchange.own.items() if values[0] in (own, BROADCAST)]
        self.count(frames=1)
        return entry(exchange.start, "request", hex_lines(values) + [f"for {listed(asked)}: {request_words(values, False, None)}"])

    def reply(self, exchange: Exchange, name: str) -> List[str]:
        """What a board replied, or its silence where a reply was due."""
        reply = exchange.replies.get(name)
        due = not silence_due(exchange.own[name], exchange.frame())
        if reply is None:
            self.count(wrong=int(due))
            return entry(exchange.closed, "silence", [f"board {name}: though a reply was due"]) if due else []
        verdict = self.judge(exchange.ask.request, reply.values)
        is_error = error_code(verdict, reply.values) is not None
        self.count(replies=1, errors=int(is_error), wrong=int(not due or verdict.is_wrong()))
        lines = by_board(name, reply.values) + reply_words(exchange.ask.request, reply.values, verdict, self.fields[name])
        self.fields[name].hear(exchange.ask.request, reply.values, verdict)
        return entry(reply.tick, "reply", lines + ["a reply, though silence was due"] * (not due))

    def clash(self, exchange: Exchange) -> List[str]:
        """Boards that talked at once: to a request for several, or one board to another's reply."""
        page = []
        if len(exchange.replies) > 1:
            self.count(wrong=1)
            page += entry(None, "clash", [f"{listed(list(exchange.replies))} answer at once: their replies run into each other"])
        for name, reply in exchange.to_replies.items():
            self.count(replies=1, wrong=1)
            heard = f"to the reply of {listed(list(exchange.replies))}, which it took for a request; what follows is not played"
            page += entry(reply.tick, "reply", by_board(name, reply.values) + [heard])
        return page

    def wish_holds(self, exchange: Exchange, wish: Wish) -> bool:
        if not wish.board:
            return not exchange.replies
        reply = exchange.replies.get(wish.board)
        return holds(wish.wanted, reply, reply and self.judge(exchange.ask.request, reply.values))

    def wishes(self, exchange: Exchange) -> List[str]:
        """The expectations, each with whether it holds."""
        lines = []
        for wish in exchange.ask.wishes:
            held = self.wish_holds(exchange, wish)
            whose = f"board {wish.board}: " if wish.board else ""
            lines.append(f"line {wish.line}: {whose}expect {wish.text}: " + ("holds" if held else "FAILED"))
            self.count(failed=int(not held))
        return entry(None, "", lines) if lines else []

    def happening(self, happening: Union[Exchange, Call]) -> List[str]:
        if isinstance(happening, Call):
            return entry(None, "host", [f"board {happening.board}: {call_words(happening.record)}"])
        page = self.request(happening)
        replies = [line for name in happening.own for line in self.reply(happening, name)]
        self.count(silences=int(not happening.replies))
        page += replies or entry(happening.closed, "silence", [""])
        return page + self.clash(happening) + self.wishes(happening)


def strays(board: Board, happened: List[Union[Exchange, Call]], answers: str) -> Tuple[List[str], Summary]:
    """Replies that the program printed of a board's tape at a tick where it was asked nothing, and its word that the tape is bad."""
    left, bad = read_answers(answers)
    for exchange in happened:
        said = [exchange.replies.get(board.name), exchange.to_replies.get(board.name)] if isinstance(exchange, Exchange) else []
        for reply in said:
            if reply in left:
                left.remove(reply)
    lines = [line for reply in left for line in entry(reply.tick, "reply", by_board(board.name, reply.values) + ["to no request"])]
    if bad is not None:
        lines.append(f"The answer program calls the tape of board {board.name} bad at place {bad}.")
    return lines, Summary(replies=len(left), wrong=len(left), bad=int(bad is not None))


def explain_bus(script: Script, answers: Callable[[bytes], str], judge: Judge) -> Tuple[str, Summary]:
    """The whole session as a page, and what there was; `answers` is what an answer program prints of a board's tape."""

    def reply_at(board: Board, tick: int, _ask: Optional[Ask]) -> bytes:
        replies, _ = read_answers(answers(bytes(board.tape)))
        return next((reply.values for reply in replies if reply.tick == tick), b"")

    happened, boards = play(script, reply_at)
    teller = BusTeller(judge)
    parts = [[f"{name}: {plate_line(plate)}" for name, plate in script.plates.items()]]
    parts += [teller.happening(happening) for happening in happened]
    summary = teller.summary
    for board in boards:
        lines, counted = strays(board, happened, answers(bytes(board.tape)))
        parts.append(lines)
        summary = summary.plus(counted)
    return page_of(parts + [[summary.line()]]), summary
