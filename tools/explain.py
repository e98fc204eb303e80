#!/usr/bin/env python3
"""A session as a person reads it: what was asked, what came back, what the bench says of it.

    explain.py FILE                 runs target/here/answer on FILE, a session text or a tape
    explain.py --run PROGRAM FILE   runs this answer program on FILE
    explain.py FILE ANSWERS         ANSWERS is what an answer program printed for FILE
    explain.py --log LOG            tells a log of both directions of a real line
    --library OBJECT in front       takes the judge from there, not from target/libquicksetter.so
    --sleep in front                tells of each frame how long the board lets its host sleep after the
                                    last character, and when it was closed; for one board
    --writes in front               tells of each accepted 4Bh and 4Dh how many cells of memory the board
                                    wrote, of how many that were named, and at the end their sum; for one
                                    board, whose memory is blank at the plate

A file named - is standard input. The time in front of a request is that of its first character,
in front of a reply that of the character or poll that closed the request, in ticks of 1/38400 s and
in milliseconds. Polls that close nothing are left out. Verdicts are those of the proved library.

A session text is what tape.py takes (tape.py --help). Its `expect` lines are held to the replies. In a
text of several boards each is run by itself and hears the others' replies; boards that talk at once
are told as a clash.

A log has one frame a line, its time, its direction and its bytes; what follows # is a comment:

    0 > 40 4E 0E                    > from the master; the time is in milliseconds
    12.4 ms < 40 4E 70 00 7E        < from a board: the reply to the request before it
    480 ticks > FF4EB1              or in ticks; bytes as in a session: 404E, 0x40, commas

Only a request to all boards (FFh) may have several replies.

The last line sums up. Exit status: 0 if all is well; 1 for a bad line, log or tape, a failed
expectation, a reply that the bench refuses (B1 to B6), that is missing or out of place, a clash, and
where a file or program cannot be used; 2 for a command line that is none of these.
"""

import os
import subprocess
import sys
from collections import Counter
from typing import Callable, Dict, List, NamedTuple, Optional, Tuple

import bench
from bench import Judge, Verdict
from boards import has_boards, read_script
from bus import explain_bus
from cells import Wear
from fields import Fields
from frames import Frame, address_after, frame_at, frames_of, happenings, silence_due
from printed import Reply, holds, read_answers
from records import Bad, Plate, split
from texts import Expectation, Session, TextError, read_session
from traffic import explain_log
from words import Summary, call_words, entry, error_code, hex_lines, page_of, plate_line, reply_words, request_words, sleep_words
from written import WrittenError, complain, is_text, put_out, read_file, read_text, text_in

ANSWER = os.path.join("target", "here", "answer")


# --- which reply answers which frame --------------------------------------------------------


def in_order(frames: int, replies: int, score: Callable[[int, int], int]) -> List[int]:
    """The frame of each reply, rising, so that the scores add up to the most; there are at least as many frames as replies."""
    never = -1
    rows = [[0] * (frames + 1)]
    for reply in range(replies):
        row = [never] * (frames + 1)
        for frame in range(reply, frames):
            row[frame + 1] = max(row[frame], rows[reply][frame] + score(frame, reply))
        rows.append(row)
    chosen, frame = [], frames
    for reply in range(replies, 0, -1):
        while rows[reply][frame] == rows[reply][frame - 1]:
            frame -= 1
        frame -= 1
        chosen.append(frame)
    return chosen[::-1]


def runs_of(frames: List[Frame]) -> List[List[Frame]]:
    """Closed frames, those together that close one after the other at one tick."""
    runs: List[List[Frame]] = []
    for frame in frames:
        if frame.closed is None:
            continue
        if runs and runs[-1][0].closed == frame.closed:
            runs[-1].append(frame)
        else:
            runs.append([frame])
    return runs


def shared_out(own: int, run: List[Frame], replies: List[Reply], judge: Judge) -> List[int]:
    """Which of the frames that close at one tick each reply answers: rather one that is to be answered, and rather one that it fits."""

    def score(frame: int, reply: int) -> int:
        fits = judge(run[frame].values, replies[reply].values).kind != "refused"
        return 2 * (not silence_due(own, run[frame])) + fits

    return in_order(len(run), len(replies), score)


def matched(plate: Plate, frames: List[Frame], replies: List[Reply], judge: Judge) -> Tuple[Dict[int, Reply], List[Reply]]:
    """As `paired`, where replies are missing or too many: tick by tick, and a reply at a tick at which no frame closes hides none behind it."""
    found: Dict[int, Reply] = {}
    strays: List[Reply] = []
    own = plate.own_byte()
    waiting = list(reversed(replies))
    to_close = Counter(frame.closed for frame in frames)
    for run in runs_of(frames):
        while waiting and not to_close[waiting[-1].tick]:
            strays.append(waiting.pop())
        here: List[Reply] = []
        while waiting and waiting[-1].tick == run[0].closed and len(here) < len(run):
            here.append(waiting.pop())
        for reply, frame in zip(here, shared_out(own, run, here, judge)):
            found[run[frame].first] = reply
            own = address_after(own, run[frame].values, reply.values)
        to_close[run[0].closed] -= len(run)
    return found, strays + waiting[::-1]


def one_by_one(plate: Plate, frames: List[Frame], replies: List[Reply]) -> Optional[Dict[int, Reply]]:
    """The next reply to each frame that is to be answered, by the address in force when it closes; None where ticks or numbers differ."""
    found: Dict[int, Reply] = {}
    own = plate.own_byte()
    for frame in frames:
        if frame.closed is None or silence_due(own, frame):
            continue
        if len(found) == len(replies) or replies[len(found)].tick != frame.closed:
            return None
        reply = found[frame.first] = replies[len(found)]
        own = address_after(own, frame.values, reply.values)
    return found if len(found) == len(replies) else None


def paired(plate: Plate, frames: List[Frame], replies: List[Reply], judge: Judge) -> Tuple[Dict[int, Reply], List[Reply]]:
    """The reply to each frame, by the place of its first character, and the replies that answer none.

    A board answers each frame that is to be answered, at the tick at which it closes, and no other: then the replies are theirs, one by one.
    """
    found = one_by_one(plate, frames, replies)
    return matched(plate, frames, replies, judge) if found is None else (found, [])


# --- the page -------------------------------------------------------------------------------


class Options(NamedTuple):
    """What the page tells beside each exchange: how long the host might sleep, how many cells the board wrote."""

    sleep: bool = False
    writes: bool = False


class Teller:
    """What tells a tape: the address byte in force, the fields as told, which reply answers which frame, what is expected, the judge, and the sums so far."""

    def __init__(self, plate: Plate, replies: Dict[int, Reply], expectations: Dict[int, List[Expectation]], judge: Judge, options: Options):
        self.own = plate.own_byte()
        self.slept = plate.closing_gap() if options.sleep else 0
        self.wear = Wear(plate.total) if options.writes else None
        self.fields = Fields()
        self.replies = replies
        self.expectations = expectations
        self.judge = judge
        self.summary = Summary()

    def expected(self, frame: Frame, verdict: Optional[Verdict]) -> List[str]:
        """The expectations of a frame, each with whether it holds."""
        lines = []
        for expectation in self.expectations.get(frame.first, []):
            held = holds(expectation.wanted, self.replies.get(frame.first), verdict)
            lines.append(f"line {expectation.line}: expect {expectation.text}: " + ("holds" if held else "FAILED"))
            self.summary = self.summary.plus(Summary(failed=int(not held)))
        return entry(None, "", lines) if lines else []

    def silence(self, frame: Frame) -> List[str]:
        """A frame that got no reply."""
        if frame.closed is None:
            self.summary = self.summary.plus(Summary(frames=1))
            return entry(None, "", ["never closed: no reply"])
        due = silence_due(self.own, frame)
        self.summary = self.summary.plus(Summary(frames=1, silences=1, wrong=int(not due)))
        return entry(frame.closed, "silence", ["" if due else "though a reply was due"])

    def reply(self, frame: Frame, reply: Reply, verdict: Verdict) -> List[str]:
        """A frame's reply, with the verdict."""
        undue = silence_due(self.own, frame)
        is_error = error_code(verdict, reply.values) is not None
        self.summary = self.summary.plus(Summary(frames=1, replies=1, errors=int(is_error), wrong=int(undue or verdict.is_wrong())))
        lines = hex_lines(reply.values) + reply_words(frame.values, reply.values, verdict, self.fields)
        if undue:
            return entry(reply.tick, "reply", lines + ["a reply, though silence was due"])
        return entry(reply.tick, "reply", lines + (self.wear.hear(frame.values, verdict) if self.wear else []))

    def frame(self, frame: Frame) -> List[str]:
        """A frame, what came to it, and whether that was expected. What a reply tells of address and fields holds for the frames behind it."""
        words = request_words(frame.values, frame.parity, self.own)
        slept = [sleep_words(frame, self.slept)] if self.slept else []
        page = entry(frame.start, "request", hex_lines(frame.values) + [words] + slept)
        reply = self.replies.get(frame.first)
        if reply is None:
            return page + self.silence(frame) + self.expected(frame, None)
        verdict = self.judge(frame.values, reply.values)
        page += self.reply(frame, reply, verdict) + self.expected(frame, verdict)
        self.own = address_after(self.own, frame.values, reply.values)
        self.fields.hear(frame.values, reply.values, verdict)
        return page

    def happening(self, happening: object) -> List[str]:
        return self.frame(happening) if isinstance(happening, Frame) else entry(None, "host", [call_words(happening)])

    def sums(self) -> List[str]:
        """What stands in front of the summary."""
        return [self.wear.line()] if self.wear else []


def bad_lines(bad: Optional[Bad], told: Optional[int]) -> List[str]:
    """The bad record that ends the tape, and whether the answer program said so."""
    lines = []
    if bad:
        lines.append(f"The tape is bad at place {bad.place}: {bad.reason}.")
    if told is not None and (bad is None or bad.place != told):
        lines.append(f"The answer program calls it bad at place {told}.")
    if bad and told is None:
        lines.append("The answer program does not say so.")
    return lines


def by_frame(frames: List[Frame], expectations: List[Expectation]) -> Tuple[Dict[int, List[Expectation]], List[str]]:
    """Expectations by the place of their frame's first character, and a line for each whose frame is not on the tape."""
    found: Dict[int, List[Expectation]] = {}
    lost = []
    for expectation in expectations:
        frame = frame_at(frames, expectation.place)
        if frame is None:
            lost.append(f"line {expectation.line}: expect {expectation.text}: FAILED, its frame is not on the tape")
        else:
            found.setdefault(frame.first, []).append(expectation)
    return found, lost


def explain_tape(session: Session, answers: str, judge: Judge, options: Options = Options()) -> Tuple[str, Summary]:
    """The whole session as a page, and what there was."""
    records, bad = split(session.tape)
    replies, told = read_answers(answers)
    frames = frames_of(records)
    expectations, lost = by_frame(frames, session.expectations)
    parts: List[List[str]] = []
    sums: List[str] = []
    summary = Summary(failed=len(lost))
    strays = replies
    if records:
        pairs, strays = paired(records[0], frames, replies, judge)
        teller = Teller(records[0], pairs, expectations, judge, options)
        parts = [[plate_line(records[0])]] + [teller.happening(happening) for happening in happenings(records)]
        sums = teller.sums()
        summary = summary.plus(teller.summary)
    parts.append([line for reply in strays for line in entry(reply.tick, "reply", hex_lines(reply.values) + ["to no frame of the tape"])])
    troubles = bad_lines(bad, told)
    summary = summary.plus(Summary(replies=len(strays), wrong=len(strays), bad=int(bool(troubles))))
    return page_of(parts + [lost, troubles, sums + [summary.line()]]), summary


# --- the command line -----------------------------------------------------------------------


def answers_of(program: str, tape: bytes) -> str:
    """What an answer program prints of a tape."""
    found = subprocess.run([program], input=tape, stdout=subprocess.PIPE, check=False)
    if found.returncode != 0:
        raise WrittenError(f"the answer program ended with status {found.returncode}")
    return found.stdout.decode("ascii", "replace")


def built_program() -> str:
    program = os.path.join(bench.ROOT, ANSWER)
    if not os.path.isfile(program):
        raise WrittenError(f"the answer program is not there ({ANSWER}); make it: make {ANSWER}")
    return program


def put_page(page: str, summary: Summary) -> int:
    put_out(page.encode("ascii", "backslashreplace"))
    return summary.status()


def tell_bad_lines(name: str, bad: List[TextError]) -> int:
    """Of a text with bad lines only these are told."""
    for error in bad:
        complain(f"explain.py: {name}: {error}")
    summary = Summary(bad=len(bad))
    return put_page(summary.line() + "\n", summary)


def tell_boards(name: str, text: str, answers: Callable[[bytes], str], judge: Judge) -> int:
    """Tells a session of several boards, each board's tape run by itself."""
    script = read_script(text)
    if script.bad:
        return tell_bad_lines(name, script.bad)
    try:
        return put_page(*explain_bus(script, answers, judge))
    except TextError as error:
        return tell_bad_lines(name, [error])


def tell_session(name: str, answers: Callable[[bytes], str], judge: Judge, options: Options, printed_before: bool = False) -> int:
    """Tells a session or tape. What was printed before is one board's, so that a session of several boards must be run."""
    data = read_file(name)
    text = text_in(name, data) if is_text(data) else None
    if text is not None and has_boards(text):
        if options.sleep:
            raise WrittenError(f"{name}: a text of several boards; --sleep tells of one board's host")
        if options.writes:
            raise WrittenError(f"{name}: a text of several boards; --writes tells of one board's memory")
        if printed_before:
            raise WrittenError(f"{name}: a text of several boards; tell each board's tape with its own answers")
        return tell_boards(name, text, answers, judge)
    session = Session(data, [], [], []) if text is None else read_session(text)
    return tell_bad_lines(name, session.bad) if session.bad else put_page(*explain_tape(session, answers(session.tape), judge, options))


def tell_log(name: str, judge: Judge) -> int:
    return put_page(*explain_log(read_text(name, "a log"), judge))


def run(arguments: List[str]) -> int:
    if arguments in (["help"], ["-h"], ["--help"]):
        put_out(__doc__.encode())
        return 0
    library, options = "", Options()
    while arguments[:1] in (["--sleep"], ["--writes"]) or arguments[:1] == ["--library"] and len(arguments) > 1:
        if arguments[0] == "--library":
            library, arguments = arguments[1], arguments[2:]
        else:
            options, arguments = options._replace(**{arguments[0][2:]: True}), arguments[1:]
    option, names = (arguments[0], arguments[1:]) if arguments and arguments[0].startswith("--") else ("", arguments)
    if option == "--log" and options.writes:
        complain("explain.py: --writes is not for a log, which does not say what the board's memory held before it")
        return 2
    if option == "--log" and len(names) == 1 and not options.sleep:
        return tell_log(names[0], bench.load(library))
    if option == "--run" and len(names) == 2:
        return tell_session(names[1], lambda tape: answers_of(names[0], tape), bench.load(library), options)
    if not option and len(names) == 1:
        return tell_session(names[0], lambda tape: answers_of(built_program(), tape), bench.load(library), options)
    if not option and len(names) == 2:
        return tell_session(names[0], lambda _: read_file(names[1]).decode("ascii", "replace"), bench.load(library), options, printed_before=True)
    complain(__doc__)
    return 2


def main(arguments: List[str]) -> int:
    try:
        return run(arguments)
    except (OSError, WrittenError, bench.Missing) as error:
        complain(f"explain.py: {error}")
        return 1


if __name__ == "__main__":
    sys.exit(main(sys.argv[1:]))
