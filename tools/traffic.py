"""A log of both directions of a line, read and judged: each reply against the request before it."""

import re
from collections import defaultdict
from typing import Dict, Iterator, List, NamedTuple, Optional, Tuple, Union

from bench import Judge, Verdict
from commands import BROADCAST, SET_ADDRESS
from fields import Fields
from frames import is_reset
from records import TICKS_A_SECOND, milliseconds
from words import Summary, entry, error_code, hex_lines, page_of, reply_words, request_words
from written import WrittenError, bytes_of, event_and_comment

LOG_LINE = re.compile(r"([0-9]{1,15}(?:\.[0-9]{1,9})?)\s*(ms|ticks?)?\s*([<>])\s*(.*)")
SHAPE = "TIME [ms|ticks] > BYTES for a request, < BYTES for a reply"


class Logged(NamedTuple):
    """A frame of a log, with its time in ticks."""

    line: int
    ticks: float
    is_reply: bool
    values: bytes


class BadLine(NamedTuple):
    line: int
    reason: str


def logged(number: int, text: str) -> Union[Logged, BadLine]:
    """One line of a log without its comment."""
    found = LOG_LINE.fullmatch(text)
    if not found:
        return BadLine(number, f"not of the shape `{SHAPE}`: {text}")
    time, unit, direction, listed = found.groups()
    try:
        values = bytes_of(listed)
    except WrittenError as error:
        return BadLine(number, str(error))
    if not values:
        return BadLine(number, "a frame without bytes")
    ticks = float(time) if (unit or "").startswith("tick") else float(time) * TICKS_A_SECOND / 1000
    return Logged(number, ticks, direction == "<", values)


def read_log(text: str) -> Iterator[Union[Logged, BadLine]]:
    for number, line in enumerate(text.splitlines(), start=1):
        said, _ = event_and_comment(line)
        if said:
            yield logged(number, said)


class Listener:
    """The request that was heard last, how many replies came to it, and the fields of each board, by its address byte."""

    def __init__(self, judge: Judge):
        self.judge = judge
        self.fields: Dict[int, Fields] = defaultdict(Fields)
        self.request: Optional[Logged] = None
        self.replies = 0

    def silence(self) -> Tuple[List[str], Summary]:
        """The end of a request: whether it was left without a reply."""
        if self.request is None or self.replies:
            return [], Summary()
        words = "as it must be: 53h has no reply" if is_reset(self.request.values) else "no reply is logged"
        return entry(None, "silence", [words]), Summary(silences=1)

    def hear_request(self, frame: Logged) -> Tuple[List[str], Summary]:
        self.request, self.replies = frame, 0
        return entry(frame.ticks, "request", hex_lines(frame.values) + [request_words(frame.values, False, None)]), Summary(frames=1)

    def hear_reply(self, frame: Logged) -> Tuple[List[str], Summary]:
        """A reply belongs to the request before it; only a request to all boards may have several."""
        several = self.request is not None and self.request.values[0] == BROADCAST
        if self.request is None or (self.replies and not several):
            return entry(frame.ticks, "reply", hex_lines(frame.values) + ["to no request"]), Summary(replies=1, wrong=1)
        self.replies += 1
        verdict = self.judge(self.request.values, frame.values)
        later = frame.ticks - self.request.ticks
        time = f"{milliseconds(later)} after the request" if later >= 0 else "the time goes back"
        lines = hex_lines(frame.values) + reply_words(self.request.values, frame.values, verdict, self.fields[frame.values[0]]) + [time]
        self.learn(frame.values, verdict)
        is_error = error_code(verdict, frame.values) is not None
        return entry(frame.ticks, "reply", lines), Summary(replies=1, errors=int(is_error), wrong=int(verdict.is_wrong()))

    def learn(self, reply: bytes, verdict: Verdict):
        """What a reply tells of its board's fields. After a good 55h they are at the new address; who answers a broadcast was at none that is known."""
        request = self.request.values
        if verdict.kind == "done" and request[1] == SET_ADDRESS:
            self.fields[reply[0]] = Fields() if request[0] == BROADCAST else self.fields.pop(request[0], Fields())
        else:
            self.fields[reply[0]].hear(request, reply, verdict)

    def hear(self, heard: Union[Logged, BadLine]) -> Tuple[List[str], Summary]:
        if isinstance(heard, BadLine):
            return entry(None, "bad", [f"line {heard.line}: {heard.reason}"]), Summary(bad=1)
        return self.hear_reply(heard) if heard.is_reply else self.hear_request(heard)


def explain_log(text: str, judge: Judge) -> Tuple[str, Summary]:
    """The whole log as a page, and what there was. A log without a single frame is a bad one."""
    listener = Listener(judge)
    parts: List[List[str]] = [[]]
    summary = Summary()
    for heard in read_log(text):
        if isinstance(heard, Logged) and not heard.is_reply:
            lines, counted = listener.silence()
            parts[-1] += lines
            parts.append([])
            summary = summary.plus(counted)
        lines, counted = listener.hear(heard)
        parts[-1] += lines
        summary = summary.plus(counted)
    lines, counted = listener.silence()
    parts[-1] += lines
    summary = summary.plus(counted)
    if summary == Summary():
        parts.append(["No line of this log has a frame."])
        summary = Summary(bad=1)
    return page_of(parts + [[summary.line()]]), summary
