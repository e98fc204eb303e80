"""Frames, replies and verdicts in words, and the page on which they stand: time, what it is, what it says."""

from typing import Callable, Dict, List, NamedTuple, Optional

from bench import NOT_A_REQUEST, REFUSALS, Verdict
from commands import ADDRESS_BYTES, BROADCAST, COMMANDS, CREATE_FIELD, ERROR, SET_ADDRESS, WARNING, WRONG_ARGUMENT
from commands import Part, code_words, error_words, fault_words, layout_fits, pieces
from fields import Fields, deletion_of, differing, is_deletion
from frames import KEPT_BYTES, SHORTEST, Frame
from records import Fault, Measured, Plate, Record, gap, hex_of, milliseconds, xor_of
from status import BLOCK, EXISTS, status_words

BYTES_A_LINE = 24
DATA_RATES = dict(enumerate((600, 1200, 2400, 4800, 9600, 19200, 38400)))
PARITIES = {0: "no parity", 2: "even parity", 3: "odd parity"}


# --- data -----------------------------------------------------------------------------------


def address_words(byte: int) -> str:
    """An address byte as people read it: `address 5 (45h)`."""
    if byte not in ADDRESS_BYTES:
        return f"address byte {byte:02X}h, which is not 40h to 5Fh"
    return f"address {ADDRESS_BYTES.index(byte)} ({byte:02X}h)"


def interface_words(settings: int) -> str:
    """The type label's first byte taken apart (000, table 28)."""
    rate, parity = settings % 8, settings >> 4 & 3
    parts = [
        f"{DATA_RATES[rate]} baud" if rate in DATA_RATES else "a data rate without a meaning",
        "8 data bits",
        PARITIES.get(parity, "a parity without a meaning"),
        f"timeout {55 if settings & 0x40 else 22} bit times",
        "standard slave" if settings & 0x80 else "bus slave",
    ]
    return f"interface {settings:02X}h ({', '.join(parts)})"


def type_words(encoder_type: int) -> str:
    return f"encoder type {encoder_type:02X}h" + (" (there is an extended type label)" if encoder_type == 0xFF else "")


def memory_words(blocks: int) -> str:
    return f"memory size {blocks} blocks ({blocks * BLOCK} bytes)"


def text_words(text: bytes) -> str:
    """Text as a session writes it, `"V1.0" 00*16`: in quotation marks where all of it is printable, else in hex, and how many 00h follow."""
    letters = text.rstrip(b"\x00")
    printable = all(32 <= byte < 127 and byte != ord('"') for byte in letters)
    shown = [f'"{letters.decode()}"' if printable else hex_of(letters)] if letters else []
    zeros = len(text) - len(letters)
    return " ".join(shown + ([f"00*{zeros}"] if zeros else []))


def data_words(data: bytes) -> str:
    text = "".join(chr(byte) if 32 <= byte < 127 else "." for byte in data)
    return f'data {hex_of(data)} "{text}"'


# What parts say that are more than a number.
SAID: Dict[str, Callable[[bytes], str]] = {
    "address": lambda data: f"new {address_words(data[0])}",
    "data": data_words,
    "status": lambda data: status_words(data[0]),
    "waiting": lambda data: f"oldest waiting code {code_words(data[0])}" if data[0] else "no code waits",
    "interface": lambda data: interface_words(data[0]),
    "encoder-type": lambda data: type_words(data[0]),
    "memory-size": lambda data: memory_words(data[0]),
    "serial-number": lambda data: f"serial number {text_words(data)}",
    "version": lambda data: f"version {text_words(data)}",
    "date": lambda data: f"date {text_words(data)}",
}


def part_words(part: Part, data: bytes) -> str:
    """One part of a request's or reply's data in words."""
    if part.name in SAID:
        return SAID[part.name](data)
    name = part.name.replace("-", " ")
    return f"{name} {data[0]:02X}h" if part.hexadecimal else f"{name} {int.from_bytes(data, 'big')}"


def parts_words(parts: List[Part], data: bytes) -> str:
    """Data in words; none where it does not have the parts' length."""
    cut = pieces(parts, data)
    return ", ".join(part_words(part, piece) for part, piece in zip(parts, cut)) if cut else ""


# --- requests -------------------------------------------------------------------------------


def request_words(values: bytes, parity: bool, own: Optional[int]) -> str:
    """A frame in words, in the order in which a board of the address byte `own` judges it; None for a board unknown."""
    if len(values) < SHORTEST:
        return f"too short: {len(values)} of at least {SHORTEST} bytes"
    if own is not None and values[0] not in (own, BROADCAST):
        return f"for address byte {values[0]:02X}h, not ours ({own:02X}h)"
    if parity:
        return "a character had a parity fault"
    if xor_of(values) != 0:
        return f"checksum wrong: {xor_of(values[:-1]):02X} would be right"
    if len(values) > KEPT_BYTES:
        return f"{len(values)} bytes, longer than {KEPT_BYTES}"
    return command_words(values[1], values[2:-1])


def command_words(command: int, data: bytes) -> str:
    if command not in COMMANDS:
        return f"command {command:02X}h is unknown"
    title = f"{command:02X}h {COMMANDS[command].title}"
    if not layout_fits(command, data):
        return f"{title}: {len(data)} bytes of data are not its length"
    words = parts_words(COMMANDS[command].request, data)
    if command == CREATE_FIELD:
        words = ("create or modify: " if data[1] & EXISTS else "delete: ") + words
    return title + (f": {words}" if words else "")


# --- replies --------------------------------------------------------------------------------


def error_code(verdict: Verdict, reply: bytes) -> Optional[int]:
    """The code of an error reply, by the verdict; by its bytes where the bench cannot judge since the request is none that it writes."""
    if verdict.kind == "error":
        return verdict.number
    if verdict == NOT_A_REQUEST and len(reply) == 4 and xor_of(reply) == 0 and reply[1] % WARNING == ERROR:
        return reply[2]
    return None


def verdict_words(verdict: Verdict) -> str:
    return f"bench: {verdict.words()}" + (f", {REFUSALS[verdict.number]}" if verdict.kind == "refused" else "")


def answer_words(request: bytes, reply: bytes, verdict: Verdict) -> str:
    """What a reply with a right checksum says, whether or not the bench takes it."""
    code = error_code(verdict, reply)
    if code is not None:
        return f"error {error_words(code, request[1] if len(request) >= SHORTEST else None)}"
    command = reply[1] % WARNING
    if len(request) < SHORTEST or command != request[1] or command not in COMMANDS:
        return ""
    if command == SET_ADDRESS and verdict.kind == "done":
        return f"the board has {address_words(reply[0])} from here on"
    return parts_words(COMMANDS[command].reply or [], reply[2:-1])


def misnamed_words(request: bytes, reply: bytes, verdict: Verdict, fields: Fields) -> str:
    """Why a deletion was answered with 0Dh, where the field's stored status was told before (02, Req 02)."""
    if not is_deletion(request) or error_code(verdict, reply) != WRONG_ARGUMENT:
        return ""
    field, named = request[2], request[3]
    stored = fields.stored(field)
    if stored is None:
        return ""
    parts = ", ".join(differing(stored, named)) or "nothing"
    return f"field {field} has {status_words(stored)} and is deleted by {deletion_of(stored):02X}h; {named:02X}h differs in {parts}"


def reply_words(request: bytes, reply: bytes, verdict: Verdict, fields: Fields) -> List[str]:
    """A reply of a board with these fields in words, then its warning, then the bench's verdict."""
    lines = []
    if len(reply) >= SHORTEST and xor_of(reply) == 0:
        lines += [answer_words(request, reply, verdict), misnamed_words(request, reply, verdict, fields)]
        if reply[1] >= WARNING:
            lines.append("warning bit: a fault code waits")
    lines.append(verdict_words(verdict))
    return [line for line in lines if line]


# --- the host -------------------------------------------------------------------------------


def plate_line(plate: Plate) -> str:
    return (
        f"Board of {plate.total} blocks, {plate.bits} position bits, {address_words(plate.own_byte())}, "
        f"{plate.ticks} ticks a bit; a gap of {plate.closing_gap()} ticks ({milliseconds(plate.closing_gap())}) closes a frame."
    )


def call_words(call: Record) -> str:
    """One of the host's other calls."""
    if isinstance(call, Measured):
        return f"measured position {call.position}"
    return f"notes fault {fault_words(call.code)}" if isinstance(call, Fault) else "power-on"


def closing_words(frame: Frame, due: int) -> str:
    """When a frame was closed, beside the tick at which its pause was over."""
    if frame.closed is None:
        return "nothing closed it"
    by = "a poll" if frame.by_poll else "the next character"
    if gap(frame.last_tick, frame.closed) >= 1 << 31:
        return f"{by} closed it, on a clock that stepped back"
    late = gap(due, frame.closed)
    return f"{by} closed it " + ("then" if late == 0 else f"{late} ticks later")


def sleep_words(frame: Frame, pause: int) -> str:
    """How long a host may sleep after the frame's last character, and what it did (02, Req 03)."""
    due = (frame.last_tick + pause) % (1 << 32)
    early = f"; polls before it closed nothing: {frame.early_polls}" if frame.early_polls else ""
    return f"sleep {pause} ticks from {frame.last_tick}, to {due}: {closing_words(frame, due)}{early}"


# --- the page -------------------------------------------------------------------------------


def entry(tick: Optional[float], what: str, lines: List[str]) -> List[str]:
    """Lines with the time, in ticks and milliseconds, and a word in front of the first."""
    ticks, time = ("", "") if tick is None else (f"{tick:.0f}", milliseconds(tick))
    front = [f"{ticks:>10} {time:>13}  {what:<8}"] + [" " * 34] * (len(lines) - 1)
    return [f"{place}  {line}".rstrip() for place, line in zip(front, lines)]


def hex_lines(values: bytes) -> List[str]:
    shown = values[: KEPT_BYTES + 1]
    lines = [hex_of(shown[i : i + BYTES_A_LINE]) for i in range(0, len(shown), BYTES_A_LINE)]
    if len(values) > len(shown):
        lines.append(f".. {len(values)} bytes in all")
    return lines


class Summary(NamedTuple):
    """What there was, for the line at the page's end."""

    frames: int = 0
    replies: int = 0
    errors: int = 0
    silences: int = 0
    wrong: int = 0
    bad: int = 0
    failed: int = 0

    def plus(self, other: "Summary") -> "Summary":
        return Summary(*(mine + its for mine, its in zip(self, other)))

    def line(self) -> str:
        names = (
            ("frame", "frames"),
            ("reply", "replies"),
            ("error", "errors"),
            ("silence", "silences"),
            ("wrong or missing reply", "wrong or missing replies"),
            ("bad line", "bad lines"),
            ("failed expectation", "failed expectations"),
        )
        return "summary: " + ", ".join(f"{count} {one if count == 1 else many}" for count, (one, many) in zip(self, names))

    def status(self) -> int:
        """The exit status: 1 if anything is not as it must be."""
        return 1 if self.wrong or self.bad or self.failed else 0


def page_of(parts: List[List[str]]) -> str:
    """Groups of lines with an empty line between them."""
    return "\n".join("".join(line + "\n" for line in part) for part in parts if part)
