"""What the archive libquicksetter.a is and needs, by gcc's binutils: machine, symbols, sizes, and a bound of each entry's stack.

The bound is read from the machine code of x86-64. Every instruction of a function is followed from the first on, with the bytes that lie on the stack there,
the return address among them. All that is not understood fails: another change of the stack pointer, an indirect call, a function whose address is taken, a
recursion, an instruction that is reached with two depths.
"""

import re
from typing import Dict, List, NamedTuple, Set, Tuple

from machine import emulator, tool
from process import Failure, text_of

NEEDED: Set[str] = set()  # what host/quicksetter.h says the archive needs from outside: nothing
RETURN_ADDRESS = 8


# --- machine, symbols, sizes ----------------------------------------------------------------


class Library(NamedTuple):
    """The archive as a table tells it; sizes in bytes."""

    machine: str
    members: List[str]
    needed: Set[str]
    entries: List[str]
    code: int
    constants: int
    writable: int


class Stack(NamedTuple):
    """Bytes that an entry lays on the stack, and how many of them lie at most below the stack pointer, all as the machine code has it."""

    bound: int
    below: int


def machine_of(archive: str) -> str:
    """Format and machine, in which all members must agree."""
    head = text_of([tool("readelf"), "-hW", archive])
    found = [re.findall(rf"^ +{line}: +(.*?) *$", head, re.M) for line in ("Class", "Machine", "Data")]
    if any(len(set(values)) != 1 for values in found):
        raise Failure(f"the members of {archive} are not all of one machine and format:\n{head}")
    return ", ".join(values[0] for values in found)


def section_sizes(archive: str) -> Dict[str, int]:
    """Bytes of the sections that a linked program keeps, by kind: code, constants and writable, which a host's RAM would have to hold."""
    sizes = {"code": 0, "constants": 0, "writable": 0}
    row = re.compile(r"^ +\[ *\d+\] .* [0-9a-f]{16} [0-9a-f]+ ([0-9a-f]+) [0-9a-f]{2} +([A-Za-z]*) +\d+ +\d+ +\d+$", re.M)
    for size, flags in row.findall(text_of([tool("readelf"), "-SW", archive])):
        if "A" in flags:
            sizes["writable" if "W" in flags else "code" if "X" in flags else "constants"] += int(size, 16)
    return sizes


def library_of(archive: str) -> Library:
    symbols = re.findall(r"^([0-9a-f ]{16}) (\S) (.+)$", text_of([tool("nm"), archive]), re.M)
    defined = {name for _, letter, name in symbols if letter not in "Uvw"}
    needed = {name for _, letter, name in symbols if letter in "Uvw"} - defined
    members = re.findall(r"^File: .*\((.*)\)$", text_of([tool("readelf"), "-hW", archive]), re.M)
    sizes = section_sizes(archive)
    sizes["writable"] += sum(int(size, 16) for size, letter, _ in symbols if letter == "C")  # common data has no section yet
    return Library(machine_of(archive), members, needed, sorted(name for _, letter, name in symbols if letter == "T"), **sizes)


def broken_promises(library: Library) -> List[str]:
    """Where the archive is not what the header says of it: it needs nothing, and keeps nothing of its own."""
    wrong = [f"the archive needs {name}, and host/quicksetter.h does not say so" for name in sorted(library.needed - NEEDED)]
    wrong += [f"the archive no longer needs {name}, and host/quicksetter.h says so" for name in sorted(NEEDED - library.needed)]
    if library.writable:
        wrong.append(f"the archive has {library.writable} bytes of writable data, and host/quicksetter.h says that it keeps nothing of its own")
    return wrong


# --- a bound of the stack -------------------------------------------------------------------


class Instruction(NamedTuple):
    text: str  # as objdump writes it, its address and relocation taken off
    goes_to: str  # the function that its relocation names, or nothing
    next: int  # the address behind it


Function = Dict[int, Instruction]

UNDERSTOOD = re.compile(r"(push|pop) +(?!%rsp)(?:%r\w+|\$0x[0-9a-f]+)|(add|sub) +\$(0x[0-9a-f]+),%rsp")
TABLE_JUMP = re.compile(r"movslq (?:0x0)?\((%\w+),%\w+,4\),(%\w+)\n(?:.*\n)*?add +\1,\2\n(?:(?!.*,\2\n).*\n)*jmp +\*\2\Z")
READS_ONLY = re.compile(r"add +%rsp,%r(?!sp)\w+")  # a place on the stack is reckoned, as by lea
NOT_UNDERSTOOD = re.compile(r"\b(?:push|pop|call|ret|jmp|loop|leave|enter|syscall|sysenter|int|iret)[a-z]?\b|%e?spl?\b|(?<!\()%rsp")


def function_named(symbol: str) -> str:
    """The function at which a relocation aims, its section named or itself."""
    found = re.fullmatch(r"(?:\.text\.)?(.+)-0x4", symbol)
    if not found:
        raise Failure(f"stack bound: a relocation to the middle of something is not understood: {symbol}")
    return found.group(1)


def instructions_of(lines: List[str], names: Set[str]) -> Function:
    """One function; only a call or a jump may name another one."""
    cut = []
    for line in lines:
        address, text, *relocation = line.split("\t")
        aim = relocation[1] if len(relocation) == 2 else ""
        branches = re.match(r"call |j[a-z]+ ", text) is not None
        if aim and not branches and (aim.startswith(".text") or re.sub(r"[-+]0x.*", "", aim) in names):
            raise Failure(f"stack bound: the address of a function is taken: {line}")
        cut.append((int(address.strip(" :"), 16), re.sub(r" *(<.*)?(#.*)?$", "", text), function_named(aim) if aim and branches else ""))
    ends = [address for address, _, _ in cut[1:]] + [-1]
    return {address: Instruction(text, aim, end) for (address, text, aim), end in zip(cut, ends)}


def functions_of(archive: str) -> Dict[str, Function]:
    """Every function of the archive, each in a section of its own."""
    code = text_of([tool("objdump"), "-drw", "--no-show-raw-insn", archive])
    parts = re.findall(r"^([0-9a-f]{16}) <(.+)>:\n((?: +[0-9a-f]+:\t.*\n?)+)", code, re.M)
    names = {name for _, name, _ in parts}
    if len(names) != len(parts) or any(int(start, 16) != 0 for start, _, _ in parts):
        raise Failure("stack bound: two functions have one name, or one section")
    return {name: instructions_of(lines.rstrip("\n").split("\n"), names) for _, name, lines in parts}


def check_jump_tables(archive: str):
    """A table of constants may hold places of its own function only: then an indirect jump stays in its function. Code does not go by .eh_frame."""
    for section, entries in re.findall(r"^Relocation section '\.rela(\S+)'.*\n.*\n((?:[0-9a-f]{16} .*\n?)*)", text_of([tool("readelf"), "-rW", archive]), re.M):
        for symbol in re.findall(r"^(?:\S+ +){4}(\S+)", entries, re.M):
            if not section.startswith((".text", ".eh_frame")) and symbol != section.replace(".rodata", ".text", 1):
                raise Failure(f"stack bound: {section} holds an address of {symbol}")


class Walk:
    """One function followed along all its ways: the depth at every instruction, and what lies deepest."""

    def __init__(self, name: str, code: Function):
        self.name, self.code = name, code
        self.depths: Dict[int, int] = {}
        self.tables: Set[int] = set()  # depths at the jumps through a table
        self.deepest, self.below = RETURN_ADDRESS, 0  # the second: bytes below the stack pointer
        self.calls: Dict[str, int] = {}  # the depth at which another function begins
        self.follow(0, RETURN_ADDRESS)
        for address in sorted(code):
            if address not in self.depths and "nop" not in code[address].text and code[address].text != "xchg   %ax,%ax":
                self.follow(address, self.table_depth(address))

    def fail(self, address: int, why: str):
        raise Failure(f"stack bound: {self.name}+{address:#x}: {self.code[address].text}: {why}")

    def table_depth(self, address: int) -> int:
        """What no other way reaches is reached through a table, with the depth of the jumps through one."""
        if len(self.tables) != 1:
            self.fail(address, f"no way leads here, and the jumps through tables have the depths {sorted(self.tables)}")
        return next(iter(self.tables))

    def follow(self, address: int, depth: int):
        """All that is reached from an address, which has this depth before it."""
        waiting = [(address, depth)]
        while waiting:
            address, depth = waiting.pop()
            if address not in self.code:
                raise Failure(f"stack bound: {self.name}: a way leads to {address:#x}, outside")
            if self.depths.setdefault(address, depth) != depth:
                self.fail(address, f"reached with {depth} and with {self.depths[address]} bytes on the stack")
            waiting += [way for way in self.ways_on(address, depth) if self.depths.get(way[0]) != way[1]]

    def ways_on(self, address: int, depth: int) -> List[Tuple[int, int]]:
        """Where an instruction leads, with the depth there."""
        text, aim, behind = self.code[address]
        word, _, operand = text.partition(" ")
        onward = [(behind, depth)]
        if word == "ud2":
            return []
        if word == "ret" and not operand:
            return [] if depth == RETURN_ADDRESS else self.fail(address, f"returns with {depth} bytes on the stack")
        if word == "call" and aim:
            self.enter(aim, depth)
            return onward
        if word.startswith("j") and word != "jmp" or word == "jmp" and not operand.lstrip().startswith("*"):
            return self.jump(aim, int(operand, 16), depth) + (onward if word != "jmp" else [])
        if self.jumps_by_table(address):
            self.tables.add(depth)
            return []
        return [(behind, self.depth_behind(address, depth))]

    def jumps_by_table(self, address: int) -> bool:
        """Whether it jumps to what was made, shortly before, of a table's start and one of its distances."""
        before = [self.code[place].text for place in sorted(self.code) if place <= address][-8:]
        return TABLE_JUMP.search("\n".join(before)) is not None

    def jump(self, aim: str, target: int, depth: int) -> List[Tuple[int, int]]:
        if not aim:
            return [(target, depth)]
        self.enter(aim, depth - RETURN_ADDRESS)
        return []

    def enter(self, aim: str, depth: int):
        self.calls[aim] = max(depth, self.calls.get(aim, 0))

    def depth_behind(self, address: int, depth: int) -> int:
        """The depth behind an instruction that goes straight on, what it reaches below the stack pointer noted."""
        text = self.code[address].text
        change = UNDERSTOOD.fullmatch(text)
        if change:
            number = int(change.group(3) or "0x8", 16)
            number -= (number >> 63) << 64
            depth += number if text.startswith(("push", "sub")) else -number
        elif NOT_UNDERSTOOD.search(text) and not READS_ONLY.fullmatch(text):
            self.fail(address, "what this does to the stack is not understood")
        if depth < RETURN_ADDRESS:
            self.fail(address, "the return address is taken off the stack")
        below = [int(number, 16) for number in re.findall(r"-(0x[0-9a-f]+)\(%rsp", text)]
        self.below = max([self.below] + below)
        self.deepest = max([self.deepest, depth] + [depth + number for number in below])
        return depth


def stack_of(name: str, walks: Dict[str, Walk], above: Tuple[str, ...] = ()) -> Stack:
    """The most that a function and all it calls lay on the stack. Of a function from outside only its return address is known."""
    if name in above:
        raise Failure(f"stack bound: a recursion: {' '.join(above + (name,))}")
    if name in NEEDED:
        return Stack(RETURN_ADDRESS, 0)
    if name not in walks:
        raise Failure(f"stack bound: {name} is called, and is not in the archive")
    walk = walks[name]
    bound, below = walk.deepest, walk.below
    for called, depth in walk.calls.items():
        stack = stack_of(called, walks, above + (name,))
        bound, below = max(bound, depth + stack.bound), max(below, stack.below)
    return Stack(bound, below)


def stacks_of(archive: str, entries: List[str]) -> Dict[str, Stack]:
    """A bound for each entry, its return address among the bytes."""
    check_jump_tables(archive)
    walks = {name: Walk(name, code) for name, code in functions_of(archive).items()}
    return {entry: stack_of(entry, walks) for entry in entries}


# --- the page's rows ------------------------------------------------------------------------


LIBRARY_NOTE = """libquicksetter.a as a C host links it, by nm, readelf and objdump. It keeps no data of its own: it works on the host's buffers and the
stack. The gate holds it to needing nothing from outside and to 0 bytes of writable data."""
STACK_NOTE = """\
Bytes of stack from an entry's return address on. Arguments that lie on the stack are the caller's. The bound is read from the machine
code: the deepest chain of calls, in which there is no recursion and no indirect call. Measured is what perf/stack.c sees changed on a painted
stack, over all ways of perf/ways.h and their refusals; more than the bound fails. Bytes that an entry writes below the stack pointer are counted: an interrupt on the same stack must leave them alone, as the System V ABI wants it (its red zone of 128 bytes)."""


def library_rows(library: Library, stacks: Dict[str, Stack]) -> List[List[str]]:
    return [
        ["Machine and format", library.machine],
        ["Members", ", ".join(library.members)],
        ["Needed from outside", ", ".join(sorted(library.needed)) or "nothing"],
        ["Code", f"{library.code} bytes"],
        ["Read-only data", f"{library.constants} bytes"],
        ["Writable data", f"{library.writable} bytes"],
        ["Deepest stack of an entry", f"{max(stack.bound for stack in stacks.values())} bytes"],
        ["Reach below the stack pointer", f"{max(stack.below for stack in stacks.values())} bytes"],
    ]


def stack_rows(stacks: Dict[str, Stack], seen: Dict[str, int]) -> List[List[str]]:
    """Bound and measured bytes of each entry; what was seen must not be over the bound."""
    if set(seen) != set(stacks):
        raise Failure(f"stack: the archive exports {sorted(stacks)}, and perf/stack.c measures {sorted(seen)}")
    over = [f"{entry} was seen to use {seen[entry]} bytes, and its bound is {stack.bound}" for entry, stack in stacks.items() if seen[entry] > stack.bound]
    if over:
        raise Failure("stack: " + "; ".join(over))
    return [[entry, str(stacks[entry].bound), str(seen[entry])] for entry in seen]


def seen_stack(program: str) -> Dict[str, int]:
    """What perf/stack.c measures."""
    return {entry: int(used) for entry, used in (line.split() for line in text_of([*emulator(), program]).splitlines())}
