"""What an `ask` and an `expect` of a session say: the request by name or in bytes, and the reply, silence or verdict that must come."""

import re
from typing import Dict, List, Optional, Union

from bench import REFUSALS, Verdict
from commands import ADDRESS, ADDRESS_BYTES, BROADCAST, BY_NAME, CODES_BY_NAME, COMMANDS, COUNT, DATA, Part
from records import xor_of
from written import WrittenError, bytes_of, hex_byte, number_of

NAMED_ASK = re.compile(r"(?:to\s+(\S+)\s+)?([a-z]+(?:-[a-z]+)+)(?:\s+(.*))?")
VERDICT_WORDS = re.compile(r"(done|error\s+(\S+)|refused\s+B([0-9]))(\s+with\s+warning)?")


def address_byte(text: str) -> int:
    return ADDRESS_BYTES[number_of(text, len(ADDRESS_BYTES), "address")]


def argument(part: Part, text: str) -> bytes:
    """One argument of a named ask."""
    if part == DATA:
        return bytes_of(text)
    if part == ADDRESS:
        return bytes([address_byte(text)])
    if part.hexadecimal:
        return bytes([hex_byte(text, part.name)])
    return number_of(text, 1 << (8 * part.size), part.name).to_bytes(part.size, "big")


def arguments_of(parts: List[Part], text: str) -> Dict[Part, bytes]:
    """What stands behind a command's name: names and values, in any order, `data` last."""
    known = {part.name: part for part in parts}
    found: Dict[Part, bytes] = {}
    words = text.split(None, 1)
    while words:
        name, rest = words[0], words[1:]
        if name not in known:
            raise WrittenError(f"no argument of this command: {name}; it takes {', '.join(known) or 'none'}")
        part = known[name]
        if part in found or not rest:
            raise WrittenError(f"{name} stands twice" if part in found else f"{name} has no value")
        words = rest if part == DATA else rest[0].split(None, 1)
        found[part] = argument(part, words[0])
        words = words[1].split(None, 1) if len(words) > 1 else []
    return found


def asked_byte(own: Optional[int], text: Optional[str]) -> int:
    """Whom a named ask speaks to: the board of the address byte `own` where it does not say; None where that is not one board."""
    if text is not None:
        return BROADCAST if text == "all" else address_byte(text)
    if own is None:
        raise WrittenError("several boards are on the line: `ask to ADDRESS ..` or `ask to all ..`")
    return own


def named_request(own: Optional[int], address: Optional[str], name: str, text: str) -> bytes:
    """The request that a named ask says, with its checksum."""
    if name not in BY_NAME:
        raise WrittenError(f"no command has the name {name}; there are {', '.join(BY_NAME)}")
    parts = COMMANDS[BY_NAME[name]].request
    found = arguments_of(parts, text)
    if DATA in found and COUNT not in found:
        found[COUNT] = argument(COUNT, str(len(found[DATA])))
    lacking = [part.name for part in parts if part not in found]
    if lacking:
        raise WrittenError(f"{name} wants {', '.join(part.name for part in parts)}; not there: {', '.join(lacking)}")
    request = bytes([asked_byte(own, address), BY_NAME[name]]) + b"".join(found[part] for part in parts)
    return request + bytes([xor_of(request)])


def asked(own: Optional[int], text: str) -> bytes:
    """The frame that an ask says, by name or in bytes, with its checksum."""
    named = NAMED_ASK.fullmatch(text)
    if named:
        return named_request(own, named.group(1), named.group(2), named.group(3) or "")
    try:
        values = bytes_of(text)
    except WrittenError as error:
        raise WrittenError(f"{error}; nor a command's name: {', '.join(BY_NAME)}") from None
    ends_in_its_sum = text.rstrip(", ").endswith("sum") or (len(values) >= 3 and xor_of(values) == 0)
    return values if ends_in_its_sum else values + bytes([xor_of(values)])


def code_of(text: str) -> int:
    """An error code by its name or in hex."""
    if text in CODES_BY_NAME:
        return CODES_BY_NAME[text]
    try:
        return hex_byte(text, "code")
    except WrittenError:
        raise WrittenError(f"no error code, by name or in hex: {text}; there are {', '.join(CODES_BY_NAME)}") from None


Wanted = Union[bytes, None, Verdict]


def wanted_of(text: str) -> Wanted:
    """What an expect line wants: the bytes of a reply, None for silence, or a verdict."""
    if text == "silence":
        return None
    if text.split()[0] == "reply":
        values = bytes_of(text[len("reply") :])
        if not values:
            raise WrittenError("a reply without bytes; write `expect silence`")
        return values
    found = VERDICT_WORDS.fullmatch(text)
    if not found or (found.group(3) and (found.group(4) or int(found.group(3)) >= len(REFUSALS))):
        raise WrittenError(f"nothing that can be expected: {text}")
    warning = found.group(4) is not None
    if found.group(2):
        return Verdict("error", code_of(found.group(2)), warning)
    return Verdict("refused", int(found.group(3))) if found.group(3) else Verdict("done", 0, warning)
