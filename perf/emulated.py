"""Single calls of a program for x86-64 counted on another processor: the emulator tells each instruction that it runs, and trace.c counts them call by call."""

import os
import re
import subprocess
import threading
from typing import List, Tuple

from machine import emulator, tool
from process import Failure, run, text_of

Range = Tuple[int, int]
PART = re.compile(r"^ (\.text\S*|\.iplt)\s+0x([0-9a-f]+)\s+0x([0-9a-f]+) (\S+)$", re.M)
# What a call may run: the boards, and the functions of the C library that they use, by their own entry or by a jump to the variant for the processor.
CALLED = re.compile(r"-hand\.o$|libquicksetter\.a\(|libc\.a\(mem(?:set|move|cpy)")
CLOSE = 64  # parts that lie so close are told as one


def parts_of(program: str) -> List[Tuple[str, Range]]:
    """The file and the place of each piece of code of a program, by the map that the linker wrote beside it."""
    with open(program + ".map", encoding="utf-8") as file:
        found = PART.findall(file.read())
    return [(".iplt" if part == ".iplt" else source, (int(start, 16), int(start, 16) + int(size, 16))) for part, start, size, source in found if int(size, 16)]


def joined(ranges: List[Range]) -> List[Range]:
    found: List[Range] = []
    for start, end in sorted(ranges):
        if found and start - found[-1][1] < CLOSE:
            found[-1] = (found[-1][0], max(end, found[-1][1]))
        else:
            found.append((start, end))
    return found


def place_of(program: str, name: str) -> str:
    found = re.search(rf"^([0-9a-f]+) \S {name}$", text_of([tool("nm"), program]), re.M)
    if not found:
        raise Failure(f"{program} has no {name}")
    return found.group(1)


def counted(program: str, driver: str, entry: str, work: str) -> Tuple[List[str], List[int]]:
    """The program's lines, and the instructions of each call of this entry in their order; `driver` is the object file that makes the calls."""
    counter = os.path.join(work, "trace")
    run(["gcc", "-std=c11", "-O2", "-Wall", "-Wextra", "-Werror", os.path.join(os.path.dirname(os.path.abspath(__file__)), "trace.c"), "-o", counter])
    parts = parts_of(program)
    back = [place for source, place in parts if source == driver]
    heard = joined(back + [place for source, place in parts if source == ".iplt" or CALLED.search(source)])
    wanted = ",".join(f"{start:#x}..{end - 1:#x}" for start, end in heard)
    places = [place_of(program, f"qs_{entry}"), place_of(program, f"hand_{entry}")] + [f"{place:x}" for each in back for place in each]
    reading, writing = os.pipe()
    counting = subprocess.Popen([counter, *places], stdin=reading, stdout=subprocess.PIPE)
    os.close(reading)
    numbers: List[int] = []
    reader = threading.Thread(target=lambda: numbers.extend(int(line) for line in counting.stdout))
    reader.start()
    words = [*emulator(), "-one-insn-per-tb", "-d", "exec,nochain", "-dfilter", wanted, "-D", f"/dev/fd/{writing}", program, entry]
    try:
        lines = run(words, pass_fds=[writing]).stdout.decode().splitlines()
    finally:
        os.close(writing)
        reader.join()
    if counting.wait() != 0:
        raise Failure(f"{entry}: what the emulator told was not counted")
    return lines, numbers
