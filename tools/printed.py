"""What an answer program printed: its replies, and whether they are what was expected."""

from typing import List, NamedTuple, Optional, Tuple

from asking import Wanted
from bench import Verdict
from commands import WARNING
from words import error_code
from written import WrittenError


class Reply(NamedTuple):
    tick: int
    values: bytes


def read_answers(text: str) -> Tuple[List[Reply], Optional[int]]:
    """The answer program's lines: its replies and the place after `bad`, if it says so."""
    lines = text.splitlines()
    if not lines or lines[0] != "tick reply":
        raise WrittenError("the answers do not start with the line `tick reply`")
    replies = []
    for number, line in enumerate(lines[1:], start=2):
        words = line.split(" ")
        try:
            if words[0] == "bad" and len(words) == 2 and number == len(lines):
                return replies, int(words[1])
            replies.append(Reply(int(words[0]), bytes.fromhex("".join(words[1:]))))
        except ValueError:
            raise WrittenError(f"line {number} of the answers is no reply: {line}") from None
    return replies, None


def holds(wanted: Wanted, reply: Optional[Reply], verdict: Optional[Verdict]) -> bool:
    """Whether what came is what was expected."""
    if wanted is None or reply is None:
        return wanted is None and reply is None
    if isinstance(wanted, bytes):
        return reply.values == wanted
    if wanted.kind == "error":
        return error_code(verdict, reply.values) == wanted.number and (reply.values[1] >= WARNING) == wanted.warning
    return verdict == wanted
