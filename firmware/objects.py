"""What compiled code is, by the kit's own readers: bytes of its sections, what it needs from outside, and the most stack that each function can take."""

import re
from typing import Dict, List, NamedTuple, Sequence, Set, Tuple

import arm
from arm import Failure

NOT_LOADED = (".ARM.exidx", ".ARM.extab", ".eh_frame")  # for unwinding, which no board does


# --- sections and symbols -------------------------------------------------------------------


class Sections(NamedTuple):
    """Bytes that a program has when it is loaded."""

    read_only: int
    data: int
    zeroed: int


SECTION = re.compile(r"^ +\[ *\d+\] (.*?) +([A-Z_0-9]+) +[0-9a-f]+ [0-9a-f]+ ([0-9a-f]+) [0-9a-f]{2} +([A-Za-z]*) +\d+ +\d+ +\d+$", re.M)


def section_sizes(file: str) -> Dict[Tuple[str, str, str], int]:
    """The loaded sections of an object, an archive or a program: name, type and flags, with their bytes."""
    sizes: Dict[Tuple[str, str, str], int] = {}
    for name, kind, size, flags in SECTION.findall(arm.text_by("llvm-readelf", "-SW", file)):
        if "A" in flags and not name.startswith(NOT_LOADED):
            sizes[name, kind, flags] = sizes.get((name, kind, flags), 0) + int(size, 16)
    if not sizes:
        raise Failure(f"{file} has no section that is loaded")
    return sizes


def sections_of(file: str, without: str = "") -> Sections:
    sizes = {key: size for key, size in section_sizes(file).items() if key[0] != without}
    common = sum(int(size, 16) for size in re.findall(r"^[0-9a-f]+ ([0-9a-f]+) C ", arm.text_by("llvm-nm", "-S", file), re.M))
    writable = {key: size for key, size in sizes.items() if "W" in key[2]}
    zeroed = sum(size for key, size in writable.items() if key[1] == "NOBITS")
    return Sections(sum(sizes.values()) - sum(writable.values()), sum(writable.values()) - zeroed, zeroed + common)


def symbols_of(file: str, letters: str) -> Set[str]:
    return set(re.findall(rf"^[0-9a-f ]+ [{letters}] (.+)$", arm.text_by("llvm-nm", file), re.M))


# --- the most stack, of a Cortex-M ----------------------------------------------------------


class Code(NamedTuple):
    """Functions: the stack that each takes itself, and which it calls."""

    frames: Dict[str, int]
    calls: Dict[str, Set[str]]

    def most(self, name: str, path: Sequence[str] = ()) -> int:
        """With all that it calls. A call at a function's end counts too, though its own frame is gone then; what is not among these functions counts as 0."""
        if name in path:
            raise Failure(f"stack: {' calls '.join((*path, name))}, which is a recursion")
        if name not in self.frames:
            return 0
        return self.frames[name] + max((self.most(called, (*path, name)) for called in self.calls[name]), default=0)

    def with_(self, other: "Code") -> "Code":
        return Code({**self.frames, **other.frames}, {**self.calls, **other.calls})


HEAD = re.compile(r"^[0-9a-f]+ <(.+)>:$")
RELOCATION = re.compile(r"^\s+[0-9a-f]+:\s+(R_ARM_\S+)\s+(\S.*)$")
INSTRUCTION = re.compile(r"^ *[0-9a-f]+: +\t(\S+)(?:\t([^@]*))?")
AIM = re.compile(r"<(.+?)(\+0x[0-9a-f]+)?>")
BRANCHES = ("R_ARM_THM_CALL", "R_ARM_THM_JUMP24", "R_ARM_THM_JUMP19", "R_ARM_THM_JUMP11", "R_ARM_THM_JUMP8", "R_ARM_THM_JUMP6")
RETURN = re.compile(r"(?:pop|ldm)\S*\t(?:sp!, )?\{.*pc\}|ldr\S*\tpc, \[sp\], #\S+|bx\S*\tlr")
TABLE_BRANCH = re.compile(r"tb[bh]\t\[pc, ")
BY_REGISTER = re.compile(r"(mov|add)\tpc, (r\d+)")
WRITES_PC = re.compile(r"bl?x\S*\t|(?!push|stm)\S+\t[^{]*\{.*\bpc\b|(?!str|cmp|cmn|tst|teq)\S+\tpc\b|tb[bh]\t")


def last_set(before: Sequence[str], register: str) -> int:
    """The place of the last instruction before that names a register first, or -1."""
    places = [place for place, text in enumerate(before) if re.match(rf"\S+\t{register}\b", text)]
    return places[-1] if places else -1


def is_table_jump(before: Sequence[str], how: str, register: str) -> bool:
    """A core without tbb reads the place from a table behind the code: bytes, doubled and added to pc, or whole addresses."""
    place = last_set(before, register)
    if how == "add":
        loaded = last_set(before[:max(place, 0)], register)
        return place > 0 and loaded >= 0 and before[place] == f"lsls\t{register}, {register}, #0x1" and before[loaded].startswith(("ldrb\t", "ldrh\t"))
    table = re.fullmatch(rf"ldr\t{register}, \[(r\d+), r\d+\]", before[place]) if place >= 0 else None
    written = last_set(before[:place], table[1]) if table else -1
    return written >= 0 and before[written].startswith("adr\t")


class Function:
    """One function, read instruction by instruction; each stands in a section of its own."""

    def __init__(self, name: str):
        self.name = name
        self.calls: Set[str] = set()
        self.read: List[str] = []

    def relocated(self, kind: str, aim: str):
        """A branch may leave the function; an address may be of its own jump table or of constants, so that no function is called by its address."""
        if kind in BRANCHES:
            self.calls.add(aim)
        elif aim != f".text.{self.name}" and not aim.startswith(".rodata"):
            raise Failure(f"stack: {self.name} takes the address of {aim}")

    def instruction(self, word: str, operands: str, is_relocated: bool):
        text = f"{word}\t{operands}".rstrip()
        aim = AIM.search(operands)
        if aim and not is_relocated and word.startswith(("b", "cb")):
            self.branches(text, aim[1], aim[2] is None and word.startswith("bl"))
        elif WRITES_PC.match(text) and not RETURN.match(text) and not TABLE_BRANCH.match(text):
            by_register = BY_REGISTER.fullmatch(text)
            if not by_register or not is_table_jump(self.read, *by_register.groups()):
                raise Failure(f"stack: {self.name} goes on at an address that is not known: {text}")
        self.read.append(text)

    def branches(self, text: str, aim: str, calls_itself: bool):
        if aim != self.name:
            raise Failure(f"stack: {self.name} branches into {aim}: {text}")
        if calls_itself:
            self.calls.add(aim)


def functions_in(listing: str) -> Dict[str, Function]:
    """The functions of a listing with relocations, of which each stands below its instruction."""
    functions: Dict[str, Function] = {}
    now = Function("")
    lines = listing.splitlines()
    for line, below in zip(lines, [*lines[1:], ""]):
        head, relocation, instruction = HEAD.match(line), RELOCATION.match(line), INSTRUCTION.match(line)
        if head:
            if head[1] in functions:
                raise Failure(f"stack: two functions have the name {head[1]}")
            functions[head[1]] = now = Function(head[1])
        elif relocation:
            now.relocated(relocation[1], relocation[2].strip())
        elif instruction and not instruction[1].startswith("."):
            now.instruction(instruction[1], (instruction[2] or "").strip(), RELOCATION.match(below) is not None)
    return functions


def code_of(file: str) -> Code:
    """An object or archive that was compiled with -fstack-size-section; a function without a size there, as one that takes stack as it goes, fails."""
    found = re.findall(r"Functions: \[(.+)\]\s+Size: (0x[0-9A-F]+)", arm.text_by("llvm-readobj", "--stack-sizes", file))
    frames = {name: int(size, 16) for names, size in found for name in names.split(", ")}
    functions = functions_in(arm.text_by("llvm-objdump", "-dr", "--no-show-raw-insn", file))
    calls = {name: functions[its].calls for names, _ in found for its in names.split(", ") if its in functions for name in names.split(", ")}
    if not frames or set(functions) - set(frames) or set(frames) - set(calls):
        raise Failure(f"stack: {file}: its functions and those whose stack is told are not the same: {sorted(set(functions) ^ set(frames))}")
    outside = symbols_of(file, "U")
    unknown = {aim for function in functions.values() for aim in function.calls} - set(frames) - outside
    if unknown:
        raise Failure(f"stack: {file}: calls of what is neither in it nor outside: {sorted(unknown)}")
    return Code(frames, calls)
