"""The commands and codes by name: one table for asking and for telling (docs/COMMANDS.md has it in full), names after document 000."""

from typing import Dict, List, NamedTuple, Optional

STORE_DATA = 0x4B
FIELD_STATUS = 0x4C
CREATE_FIELD = 0x4D
READ_STATUS = 0x50
ERROR = 0x50  # the command byte of every error reply
RESET = 0x53
SET_ADDRESS = 0x55
WARNING = 0x80
BROADCAST = 0xFF
ADDRESS_BYTES = range(0x40, 0x60)  # of the addresses 0 to 31


class Part(NamedTuple):
    """One part of a frame's data: its name, its bytes (0: all that are left), and whether people write it in hex."""

    name: str
    size: int = 1
    hexadecimal: bool = False


FIELD, OFFSET, COUNT = Part("field"), Part("offset"), Part("count")
CODE, STATUS = Part("code", 1, True), Part("status", 1, True)
POSITION, DATA, NUMBER = Part("position", 4), Part("data", 0), Part("code-number")
ADDRESS = Part("address")  # people write the number, 0 to 31; the frame has its address byte
LABEL = [Part("interface", 1, True), Part("encoder-type", 1, True), Part("memory-size"), Part("option-code", 1, True)]
VERSION = [Part("serial-number", 9), Part("version", 20), Part("date", 8)]


class Command(NamedTuple):
    """Its title, the parts of its request, and those of its reply: None where it has no reply."""

    title: str
    request: List[Part]
    reply: Optional[List[Part]]

    def name(self) -> str:
        return hyphened(self.title)


def hyphened(words: str) -> str:
    return words.lower().replace(" ", "-")


COMMANDS: Dict[int, Command] = {
    0x42: Command("Read Position", [], [POSITION]),
    0x43: Command("Set Position", [POSITION, CODE], []),
    0x46: Command("Read Counter", [], [Part("counter", 3)]),
    0x47: Command("Increment Counter", [], []),
    0x49: Command("Reset Counter", [CODE], []),
    0x4A: Command("Read Data", [FIELD, OFFSET, COUNT, CODE], [FIELD, OFFSET, COUNT, DATA]),
    STORE_DATA: Command("Store Data", [FIELD, OFFSET, COUNT, CODE, DATA], [FIELD, OFFSET, COUNT]),
    FIELD_STATUS: Command("Data Field Status", [FIELD], [FIELD, STATUS]),
    CREATE_FIELD: Command("Create Data Field", [FIELD, STATUS, CODE], [FIELD, STATUS]),
    0x4E: Command("Memory Status", [], [Part("free-blocks"), Part("fields")]),
    0x4F: Command("Set Access Code", [NUMBER, Part("old-code", 1, True), Part("new-code", 1, True)], [NUMBER]),
    READ_STATUS: Command("Read Encoder Status", [], [Part("waiting", 1, True)]),
    0x52: Command("Read Type Label", [], LABEL),
    RESET: Command("Encoder Reset", [], None),
    SET_ADDRESS: Command("Set Encoder Address", [ADDRESS, CODE], []),
    0x56: Command("Read Version", [], VERSION),
}

BY_NAME = {command.name(): byte for byte, command in COMMANDS.items()}


class Code(NamedTuple):
    """A fault or error code: 000's name in our words, and what it means where this board answers with it."""

    name: str
    answered: str = ""


CODES: Dict[int, Code] = {
    0x01: Code("alignment or analog signals wrong"),
    0x02: Code("angular offset wrong", "the position is locked"),
    0x03: Code("field table destroyed", "the status table is unsound"),
    0x04: Code("analog limits missing"),
    0x05: Code("internal bus down"),
    0x06: Code("internal checksum error"),
    0x07: Code("watchdog fault"),
    0x08: Code("counter overflow"),
    0x09: Code("parity error", "a character had a parity fault"),
    0x0A: Code("checksum error", "the frame's last byte is not its checksum"),
    0x0B: Code("unknown command", "the board does not have this command"),
    0x0C: Code("wrong command length", "frame or data of the wrong length"),
    0x0D: Code("wrong argument", "an argument out of range"),
    0x0E: Code("read-only field", "the field may not be written"),
    0x0F: Code("wrong access code", "not the code that is wanted"),
    0x10: Code("out of memory", "the blocks are not there, or the field is not the last"),
    0x11: Code("wrong field offset", "offset + count exceeds the field"),
    0x12: Code("wrong field number", "no such field"),
    0x1C: Code("analog signals beyond limits"),
    0x1D: Code("transmitter current critical"),
    0x1E: Code("temperature critical"),
    0x1F: Code("speed too high"),
    0x20: Code("singleturn position or adjustment unsure"),
    0x21: Code("multiturn amplitude or sensor distance wrong"),
    0x22: Code("multiturn sync fault"),
    0x23: Code("multiturn vector or linear position wrong"),
    0x24: Code("multiturn counter fault"),
}

# What is wrong with an argument, by the request's command.
WRONG_ARGUMENT = 0x0D
WRONG_ARGUMENTS = {
    0x43: "the position is beyond the position bits",
    0x4A: "the count is 0 or over 128",
    CREATE_FIELD: "a deletion whose bits 0 to 6 are not those of the stored status",
    0x4F: "the code number is over 3",
    SET_ADDRESS: "the new address byte is not 40h to 5Fh",
}

LOCKING = (0x22, 0x24)
CODES_BY_NAME = {hyphened(code.name): byte for byte, code in CODES.items()}


def code_words(byte: int) -> str:
    """A code as people read it: `10h out of memory`."""
    return f"{byte:02X}h {CODES[byte].name}" if byte in CODES else f"{byte:02X}h, a code without a name"


def error_words(byte: int, command: Optional[int] = None) -> str:
    """A code that the board answers a command with: `10h out of memory (the blocks are not there, or the field is not the last)`."""
    answered = CODES[byte].answered if byte in CODES else ""
    if byte == WRONG_ARGUMENT:
        answered = WRONG_ARGUMENTS.get(command, answered)
    return code_words(byte) + (f" ({answered})" if answered else "")


def fault_words(byte: int) -> str:
    """A code that the host notes."""
    if byte == 0:
        return "00h, which is ignored"
    return code_words(byte) + (" (locks the position until power-on)" if byte in LOCKING else "")


def pieces(parts: List[Part], data: bytes) -> Optional[List[bytes]]:
    """The data cut into its parts, or None where it does not have their length."""
    found = []
    for part in parts:
        size = part.size or len(data)
        if len(data) < size:
            return None
        found.append(data[:size])
        data = data[size:]
    return None if data else found


def layout_fits(command: int, data: bytes) -> bool:
    """Whether a request's data has the length of its command (01, step 6): what the page says of a frame, and whether 53h stays unanswered."""
    cut = pieces(COMMANDS[command].request, data)
    if cut is None or DATA not in COMMANDS[command].request:
        return cut is not None
    count = cut[COMMANDS[command].request.index(COUNT)][0]
    return 1 <= count <= 128 and len(cut[-1]) == count
