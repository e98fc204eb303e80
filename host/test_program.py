#!/usr/bin/env python3
"""test_program.py LIBRARY_FOLDER: the motor shop's host. Its own tape is that of tools/labels/spindle.txt; it puts tapes from files onto the board, tells each
way in which a request can fail, and each tape and file that it cannot use. libhandheld.a is what programmer.h says of it, and the headers' macros hold in C++ too,
where g++ is there. Ends with status 1 on any difference."""

import pathlib
import re
import shutil
import subprocess
import sys
import tempfile
from typing import List, NamedTuple

HOST = pathlib.Path(__file__).resolve().parent
ROOT = HOST.parent
SOURCE = (HOST / "program.c").read_text(encoding="ascii")
HEADER = (HOST / "programmer.h").read_text(encoding="ascii")
EXPECTED = (HOST / "program.out").read_text(encoding="ascii")
TIMEOUT = 20
DONE, FAILED, UNUSABLE = 0, 1, 2
NEEDED = {"memcpy"}  # all that programmer.h says the archive needs from outside

ONE_BLOCK = bytes([19, 0, 0x21, 0, 0xC0]) + bytes(16)
CODES = bytes([6, 0, 0x20, 0]) + b"\x55" * 4
ANY_RECORD = "cut short, an unknown kind, codes missing or twice, no bit 7, or a 257th field"
ANY_SIZE = "the field's bytes are not as many as its status says"

# Labels for the board of the example, which has 112 blocks and the codes 55h: how the host ends, and its last line that stands at the margin.
LABELS = (
    ("no field wanted", "codes 55 55 55 55", DONE, "done: the board holds 0 fields, and 112 of 112 blocks are free"),
    ("all blocks", "codes 55*4" + "\nfield 8 blocks, read-only" * 14, DONE, "done: the board holds 14 fields, and 0 of 112 blocks are free"),
    ("one of one block", "codes 55*4\nfield 1 block", DONE, "done: the board holds 1 field, and 111 of 112 blocks are free"),
    (
        "a block too many",
        "codes 55*4" + "\nfield 8 blocks" * 14 + "\nfield 1 block",
        FAILED,
        "failed after 47 of 50 requests: create field 14: the board has not blocks enough, or the field is not its last (10h)",
    ),
    ("Code0 not in force", "codes 54 55 55 55", FAILED, "failed after 4 of 5 requests: delete field 0: the tape's code is not the one in force (0Fh)"),
    ("Code1 not in force", "codes 55 54 55 55", FAILED, "failed after 2 of 5 requests: delete field 1: the tape's code is not the one in force (0Fh)"),
    (
        "Code3 not in force",
        "codes 55 55 55 54\nfield 1 block\nfield 1 block, code number 3",
        FAILED,
        "failed after 8 of 11 requests: create field 1: the tape's code is not the one in force (0Fh)",
    ),
)

# Tapes that cannot be used, and what the host has against them.
BAD_TAPES = (
    ("an empty file", b"", f"program: bad record at place 0: {ANY_RECORD}"),
    ("a text", b"codes 55 55 55 55\n", f"program: bad record at place 0: {ANY_RECORD}"),
    ("a field cut short", CODES + ONE_BLOCK + ONE_BLOCK[:-1], f"program: bad record at place 29: {ANY_RECORD}"),
    ("a body one long", CODES + b"\x14" + ONE_BLOCK[1:] + b"\x00", f"program: wrong size at place 8: {ANY_SIZE}"),
    ("257 fields", CODES + ONE_BLOCK * 257, f"program: bad record at place 5384: {ANY_RECORD}"),
)

# What happens to the reply of one request, and how the host tells it.
SEALED = "reply[replied - 1] ^= 1;"
SPOILED = (
    (1, "replied = 0;", "failed after 0 of 14 requests: count the fields: no reply came, or a scrap of one (B1)"),
    (2, "reply[2] ^= 1;", "failed after 1 of 18 requests: read the status of field 1: the reply's checksum is wrong (B2)"),
    (3, "reply[0] ^= 1;" + SEALED, "failed after 2 of 18 requests: delete field 1: the reply comes from another address (B3)"),
    (6, "reply[1] ^= 1;" + SEALED, "failed after 5 of 18 requests: create field 0: the reply answers another command (B4)"),
    (7, "reply[replied++] = 0;", "failed after 6 of 18 requests: store field 0: the reply is not as long as it should be (B5)"),
    (7, "reply[2] ^= 1;" + SEALED, "failed after 6 of 18 requests: store field 0: the reply names another field, offset, count or status (B6)"),
    (8, "reply[5] ^= 1;" + SEALED, "failed after 7 of 18 requests: read back field 0: what was read back is not what was stored"),
    (15, "replied = 1;", "failed after 14 of 18 requests: lock field 2: no reply came, or a scrap of one (B1)"),
    (
        18,
        'replied = 4; memcpy(reply, "\\x45\\x50\\xEE\\xFB", replied);',
        "failed after 17 of 18 requests: read back field 3: an error of which this host has no words (EEh)",
    ),
)
EXCHANGED = "    memcpy(reply, board.room, replied);\n"
OLD_MOTOR_REQUESTS = 3  # before the first request of the programmer

# A program that writes the tape which stands in the example.
OWN_TAPE = """#define main example
#include "program.c"
#undef main

int main(void) {
    return fwrite(SPINDLE, 1, sizeof SPINDLE, stdout) != sizeof SPINDLE;
}
"""

failures: List[str] = []


def check(good: bool, what: str):
    if not good:
        failures.append(what)


class Ran(NamedTuple):
    status: int
    out: str
    err: str

    def last(self) -> str:
        """The last line that stands at the margin."""
        return [line for line in self.out.splitlines() if not line.startswith(" ")][-1]


def run(program: pathlib.Path, *arguments: str) -> Ran:
    ran = subprocess.run([str(program), *arguments], capture_output=True, encoding="ascii", timeout=TIMEOUT, check=False)
    return Ran(ran.returncode, ran.stdout, ran.stderr)


class Bench:
    """A folder to work in, and the libraries."""

    def __init__(self, work: pathlib.Path, library: str):
        self.work = work
        self.library = library

    def compiled(self, name: str, source: str, *libraries: str) -> pathlib.Path:
        """A program of this source."""
        path = self.work / f"{name}.c"
        path.write_text(source, encoding="ascii")
        linked = [f"-l{library}" for library in libraries]
        command = ["gcc", "-std=c11", "-O1", "-I", str(HOST), str(path), "-L", self.library, *linked, "-o", str(self.work / name)]
        subprocess.run(command, check=True)
        return self.work / name

    def file(self, name: str, content: bytes) -> str:
        path = self.work / name
        path.write_bytes(content)
        return str(path)

    def label(self, name: str, text: str) -> str:
        """The tape that tools/label.py makes of a text."""
        tape = self.work / f"{name}.tape"
        written = self.file(f"{name}.txt", text.encode())
        subprocess.run([sys.executable, str(ROOT / "tools" / "label.py"), written, str(tape)], stderr=subprocess.DEVNULL, check=True)
        return str(tape)


# --- the example ----------------------------------------------------------------------------


def check_own_tape(bench: Bench, program: pathlib.Path):
    """The tape that stands in the example, as C has it."""
    own_tape = bench.compiled("own_tape", OWN_TAPE, "handheld", "quicksetter")
    own = subprocess.run([str(own_tape)], stdout=subprocess.PIPE, timeout=TIMEOUT, check=True).stdout
    spindle = bench.label("spindle", (ROOT / "tools" / "labels" / "spindle.txt").read_text(encoding="ascii"))
    check(own == pathlib.Path(spindle).read_bytes(), "the example's own tape is not that of tools/labels/spindle.txt")
    check(run(program) == (DONE, EXPECTED, ""), "the example does not print host/program.out")
    check(run(program, spindle) == (DONE, EXPECTED, ""), "the example does not print host/program.out for the tape of tools/labels/spindle.txt")


def check_labels(bench: Bench, program: pathlib.Path):
    for name, text, status, last in LABELS:
        ran = run(program, bench.label("label", text))
        check((ran.status, ran.last(), ran.err) == (status, last, ""), f"{name}: {ran}")


def check_unusable(bench: Bench, program: pathlib.Path):
    """Nothing is sent, and the reason is told."""
    for name, tape, told in BAD_TAPES:
        ran = run(program, bench.file("bad.tape", tape))
        check(ran == (UNUSABLE, "", told + "\n"), f"{name}: {ran}")
    long = bench.file("long.tape", CODES + ONE_BLOCK * 2000)
    nothing = str(bench.work / "nothing.tape")
    for arguments, told in (
        ([nothing], f"program: {nothing}: No such file or directory\n"),
        ([str(bench.work)], f"program: {bench.work}: Is a directory\n"),
        ([long], f"program: {long}: over 34056 bytes, which is more than any label tape has\n"),
        ([long, long], "program [TAPE]: puts a label tape onto a board\n"),
    ):
        ran = run(program, *arguments)
        check(ran == (UNUSABLE, "", told), f"{arguments}: {ran}")


def check_spoiled(bench: Bench):
    assert SOURCE.count(EXCHANGED) == 1, f"the example has no single {EXCHANGED!r}"
    for number, (request, spoil, last) in enumerate(SPOILED):
        edit = f"{EXCHANGED}    static int exchanges;\n    if (++exchanges == {OLD_MOTOR_REQUESTS + request}) {{ {spoil} }}\n"
        ran = run(bench.compiled(f"spoiled_{number}", SOURCE.replace(EXCHANGED, edit), "handheld", "quicksetter"))
        check((ran.status, ran.last(), ran.err) == (FAILED, last, ""), f"{spoil}: {ran}")


# --- header and archive ---------------------------------------------------------------------


def check_archive(bench: Bench):
    """It exports what the header declares, needs what it says, and links without a board's library."""
    symbols = subprocess.run(["nm", f"{bench.library}/libhandheld.a"], stdout=subprocess.PIPE, encoding="ascii", check=True).stdout
    declared = set(re.findall(r"^uint64_t (qp_\w+)\(", HEADER, re.M))
    check(set(re.findall(r"^[0-9a-f]+ T (\w+)$", symbols, re.M)) == declared, "libhandheld.a does not export what programmer.h declares")
    check(set(re.findall(r"^ +U (\w+)$", symbols, re.M)) == NEEDED, "libhandheld.a does not need what programmer.h says")
    check(not re.search(r"^[0-9a-f]+ [bBcCdDgGsS] ", symbols, re.M), "libhandheld.a keeps something of its own")
    calls = ", ".join(f"(void *){name}" for name in sorted(declared))
    bench.compiled("alone", f'#include "programmer.h"\nint main(void) {{ void *calls[] = {{{calls}}}; return calls[0] == 0; }}\n', "handheld")


def check_in_cpp(bench: Bench) -> str:
    """Each macro in use, with the warnings of the C programs."""
    if not shutil.which("g++"):
        return "no g++: the header's macros in C++ were left out"
    macros = re.findall(r"^#define (Q[PS]_\w+)(\(\w+\))?", HEADER + (HOST / "quicksetter.h").read_text(encoding="ascii"), re.M)
    uses = "".join(f"    (void)({name}{'(number)' if argument else ''});\n" for name, argument in macros)
    source = f'#include "programmer.h"\n#include "quicksetter.h"\nint main() {{\n    uint64_t number = qp_check(0, 0);\n{uses}}}\n'
    path = bench.file("macros.cpp", source.encode())
    flags = ["-std=c++11", "-Wall", "-Wextra", "-Werror", "-pedantic", "-I", str(HOST)]
    linked = subprocess.run(["g++", *flags, path, "-L", bench.library, "-lhandheld", "-o", str(bench.work / "macros")], check=False)
    check(linked.returncode == 0, "a macro does not hold in C++")
    return f"{len(macros)} macros in C++ too"


def main(arguments) -> int:
    if len(arguments) != 1:
        print(__doc__, file=sys.stderr)
        return 2
    with tempfile.TemporaryDirectory() as folder:
        bench = Bench(pathlib.Path(folder), arguments[0])
        program = bench.compiled("program", SOURCE, "handheld", "quicksetter")
        check_own_tape(bench, program)
        check_labels(bench, program)
        check_unusable(bench, program)
        check_spoiled(bench)
        check_archive(bench)
        in_cpp = check_in_cpp(bench)
    for failure in failures:
        print(f"program: {failure}")
    told = f"{len(failures)} failed" if failures else "each as it must be"
    print(f"program: {len(LABELS)} labels, {len(BAD_TAPES)} bad tapes, {len(SPOILED)} spoiled replies, {in_cpp}: {told}")
    return 1 if failures else 0


if __name__ == "__main__":
    sys.exit(main(sys.argv[1:]))
