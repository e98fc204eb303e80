#!/usr/bin/env python3
"""The figures of the libraries on Arm: measures them and writes the tables of docs/FIRMWARE.md.

    figures.py [--libraries FOLDER] [--page FILE]             measures, and writes the tables into the page
    figures.py [--libraries FOLDER] [--page FILE] --check     measures again, and fails with the first lines that differ if the page has other figures; where they are
                                                              another kit's they are not compared, and only what must hold of any library is held

FOLDER is one of firmware/build.sh. The tables stand in the page between two marks each, and all else in it stays. Sizes and bounds of the stack are read from
the compiled code; instructions and the stack that was used are measured on emulated boards (counted.py). Without the emulator only the first are compared.
"""

import argparse
import datetime
import difflib
import os
import pathlib
import re
import sys
import tempfile
from typing import Dict, List, NamedTuple, Optional, Sequence, Set, Tuple

import arm
import objects
from arm import Failure
from counted import Costs, Row, costs_of

LIBRARIES = ("quicksetter", "handheld")
BOARD = tuple(f"qs_{entry}" for entry in ("fresh", "restart", "character", "poll", "measured", "fault", "power_on"))
PARTS = ("identity", "sizes", "stack", "instructions", "levels")
STACK_CORES = ("cortex-m0plus", "cortex-m3", "cortex-m4", "cortex-m7")
COUNTED_CORES = ("cortex-m3", "cortex-m4")
STACK_MEASURED_ON = "cortex-m3"
OTHER_LEVEL, LEVELS_ON, LEVEL_COMMANDS = "-O3", "cortex-m3", ("46h", "4Ah", "4Dh", "4Eh")
NONE = "-"
MOST_DIFFERENCES = 20


class Libraries:
    """A folder of build.sh, made by the kit at hand."""

    def __init__(self, folder: pathlib.Path, work: pathlib.Path):
        self.folder, self.work = folder, work
        for core in arm.cores():
            about = folder / core / "ABOUT.txt"
            if not about.exists():
                raise Failure(f"{folder} has no libraries for {core}: bash firmware/build.sh {folder}")
            if not re.search(rf"^kit +{re.escape(kit_identity())}$", about.read_text(), re.M):
                raise Failure(f"the libraries of {about.parent} are not by the kit at hand, {kit_identity()}: bash firmware/build.sh {folder}")

    def archive(self, core: str, library: str) -> str:
        return str(self.folder / core / f"lib{library}.a")

    def bare(self, core: str) -> arm.Bare:
        return arm.Bare(core, self.folder, self.work)


# --- tables ---------------------------------------------------------------------------------


def table(head: Sequence[str], rows: Sequence[Sequence[object]]) -> List[str]:
    """Names to the left, numbers to the right."""
    lines = [head, ["---", *["---:"] * (len(head) - 1)], *rows]
    return ["| " + " | ".join(str(cell) for cell in line) + " |" for line in lines]


def kit_identity() -> str:
    return (arm.kit() / "KIT-ID").read_text().strip()


def identity() -> List[str]:
    compiler = arm.run([arm.kit_tool("clang"), "--version"]).stdout.decode().splitlines()[0]
    emulator = re.search(r"version (\S+)", arm.run([arm.EMULATOR, "--version"]).stdout.decode())
    if not emulator:
        raise Failure(f"{arm.EMULATOR} does not tell its version")
    return [f"Measured on {datetime.date.today()} with the kit `{kit_identity()}`, {compiler} and QEMU {emulator[1]}."]


# --- sizes ----------------------------------------------------------------------------------


def flash_of(libraries: Libraries, file: str) -> int:
    """Bytes of code and constants; what needs RAM of its own fails."""
    sections = objects.sections_of(file)
    if sections.data or sections.zeroed:
        raise Failure(f"{file} has {sections.data} bytes of data and {sections.zeroed} zeroed ones of its own: the libraries keep nothing")
    return sections.read_only


def board_alone(libraries: Libraries, core: str) -> str:
    """What a linker keeps of the library for the board's calls."""
    made = str(libraries.work / f"{core}-board.o")
    wanted = [word for entry in BOARD for word in ("-u", entry)]
    arm.run([arm.kit_tool("ld.lld"), "-r", "--gc-sections", *wanted, libraries.archive(core, "quicksetter"), "-o", made])
    missing = set(BOARD) - objects.symbols_of(made, "T")
    if missing:
        raise Failure(f"{core}: the library has no {', '.join(sorted(missing))}")
    return made


def example(libraries: Libraries, core: str) -> List[object]:
    """Flash, RAM and stack of the bare board's firmware, on the cores that it is for."""
    if "-none-" not in arm.cores()[core].triple:
        return [NONE] * 3
    elf = libraries.bare(core).board("board")
    stack = sum(size for (name, _, _), size in objects.section_sizes(elf).items() if name == ".stack")
    sections = objects.sections_of(elf, without=".stack")
    return [sections.read_only + sections.data, sections.data + sections.zeroed, stack]


def needs(libraries: Libraries) -> List[str]:
    """A line for each set of functions that cores need."""
    cores_by_needs: Dict[Tuple[str, ...], List[str]] = {}
    for core in arm.cores():
        found = [objects.symbols_of(libraries.archive(core, library), "U") for library in LIBRARIES]
        cores_by_needs.setdefault(tuple(", ".join(f"`{name}`" for name in sorted(names)) or "nothing" for names in found), []).append(core)
    rows = [[", ".join(cores), *names] for names, cores in cores_by_needs.items()]
    return ["| Core | libquicksetter.a needs | libhandheld.a needs |", "| --- | --- | --- |", *table([""] * 3, rows)[2:]]


def sizes(libraries: Libraries) -> List[str]:
    rows = []
    for core in arm.cores():
        files = [libraries.archive(core, "quicksetter"), board_alone(libraries, core), libraries.archive(core, "handheld")]
        rows.append([core, *[flash_of(libraries, file) for file in files], *example(libraries, core)])
    head = ["Bytes", "libquicksetter.a", "board's calls alone", "libhandheld.a", "example: flash", "RAM", "stack"]
    return [*table(head, rows), "", "None of these libraries has RAM of its own, data or zeroed.", "", *needs(libraries)]


# --- stack ----------------------------------------------------------------------------------


class Bounds(NamedTuple):
    """The most stack of each entry on one core, without and with the functions of board/memory.c, and the most of those that are called."""

    alone: Dict[str, int]
    with_memory: Dict[str, int]
    memory: int


def bounds(libraries: Libraries, core: str) -> Bounds:
    bare = libraries.bare(core)
    needed: Set[str] = set()
    alone: Dict[str, int] = {}
    with_memory: Dict[str, int] = {}
    memory = objects.code_of(bare.object(arm.HERE / "board" / "memory.c", "-isystem", str(arm.HERE / "include"), "-fstack-size-section"))
    for library in LIBRARIES:
        archive = libraries.archive(core, library)
        code = objects.code_of(archive)
        needed |= objects.symbols_of(archive, "U")
        for entry in sorted(objects.symbols_of(archive, "T")):
            alone[entry] = code.most(entry)
            with_memory[entry] = code.with_(memory).most(entry)
    if needed - set(memory.frames):
        raise Failure(f"{core}: board/memory.c lacks {', '.join(sorted(needed - set(memory.frames)))}")
    return Bounds(alone, with_memory, max((memory.most(name) for name in needed), default=0))


def stack(by_core: Dict[str, Bounds], measured: Dict[str, int]) -> List[str]:
    """Measured is what the board's calls used, with the functions of board/memory.c, or nothing."""
    known = by_core[STACK_MEASURED_ON]
    for entry, used in measured.items():
        if used > known.with_memory[entry]:
            raise Failure(f"{entry} used {used} bytes of stack, and its bound is {known.with_memory[entry]}")
    if len({tuple(its.alone) for its in by_core.values()}) != 1 or set(BOARD) - set(known.alone):
        raise Failure("the cores' libraries do not have the same entries")
    entries = [*BOARD, *[entry for entry in known.alone if entry not in BOARD]]
    rows = [[f"`{entry}`", *[by_core[core].alone[entry] for core in STACK_CORES], known.with_memory[entry], measured.get(entry, NONE)] for entry in entries]
    rows.append(["functions of `memory.c`, at most", *[by_core[core].memory for core in STACK_CORES], NONE, NONE])
    return [*table(["Bytes, at most", *STACK_CORES, f"{STACK_MEASURED_ON} with `memory.c`", "measured there"], rows), "",
            "Functions from outside the libraries count as 0 but where those of `firmware/board/memory.c` are linked."]


# --- instructions ---------------------------------------------------------------------------


def costs_table(first: str, by_core: Sequence[Dict[str, Row]]) -> List[str]:
    """The dearest call of each row on the library and on the hand-written C."""
    if len({tuple(rows) for rows in by_core}) != 1:
        raise Failure("not the same calls were counted on every core")
    head = [first, *[f"{core.replace('cortex-m', 'M')} {what}" for core in COUNTED_CORES for what in ("library", "by hand", "ratio")]]
    rows = [[name, *[cell for rows in by_core for cell in (rows[name].library, rows[name].hand, f"{rows[name].ratio:.2f}")]] for name in by_core[0]]
    return table(head, rows)


def instructions(by_core: Dict[str, Costs]) -> List[str]:
    costs = [by_core[core] for core in COUNTED_CORES]
    return [*costs_table("Call that closes no frame", [its.calls for its in costs]), "",
            *costs_table("Poll that closes a frame", [its.closing for its in costs])]


# --- levels of optimisation -----------------------------------------------------------------


def level_row(libraries: Libraries, level: str, archive: str, costs: Costs) -> List[object]:
    closing = {name.split()[0]: row.library for name, row in costs.closing.items()}
    most = objects.code_of(archive).most("qs_poll")
    return [f"`{level}`", flash_of(libraries, archive), costs.calls["character that is kept"].library, *[closing[command] for command in LEVEL_COMMANDS], most]


def levels(libraries: Libraries, chosen: Costs) -> List[str]:
    """What another level of optimisation would give on one core: the same module, compiled so."""
    folder = libraries.work / OTHER_LEVEL.strip("-")
    arm.run(["bash", str(arm.HERE / "build.sh"), str(folder), OTHER_LEVEL], env={**os.environ, "CORES": LEVELS_ON})
    other = level_row(libraries, OTHER_LEVEL, str(folder / LEVELS_ON / "libquicksetter.a"), costs_of(arm.Bare(LEVELS_ON, folder, folder), False))
    words = arm.cores()[LEVELS_ON].words
    ours = level_row(libraries, next(word for word in words if word.startswith("-O")), libraries.archive(LEVELS_ON, "quicksetter"), chosen)
    return table([LEVELS_ON, "bytes", "kept character", *[f"poll closes {command}" for command in LEVEL_COMMANDS], "bound of `qs_poll`'s stack"], [ours, other])


# --- the page -------------------------------------------------------------------------------


class Page:
    """A page of prose with places for the tables."""

    def __init__(self, path: pathlib.Path):
        self.path = path
        if not path.exists():
            raise Failure(f"there is no {path}")
        self.text = path.read_text()
        for part in PARTS:
            self.place(part)

    def place(self, part: str) -> Tuple[int, int]:
        """Where the part stands, its marks left out."""
        first, last = f"<!-- {part}: by firmware/figures.py -->\n", f"<!-- end of {part} -->\n"
        found = [(self.text.count(mark), self.text.find(mark)) for mark in (first, last)]
        if any(count != 1 for count, _ in found) or found[0][1] > found[1][1]:
            raise Failure(f"{self.path} has not, each once and on a line of its own, {first.strip()} and behind it {last.strip()}")
        return found[0][1] + len(first), found[1][1]

    def part(self, name: str) -> List[str]:
        start, end = self.place(name)
        return self.text[start:end].strip("\n").split("\n")

    def write(self, parts: Dict[str, List[str]]):
        for name, lines in parts.items():
            start, end = self.place(name)
            self.text = self.text[:start] + "\n" + "\n".join(lines) + "\n\n" + self.text[end:]
        self.path.write_text(self.text)

    def kit(self) -> str:
        found = re.search(r"the kit `([^`]+)`", "\n".join(self.part("identity")))
        if not found:
            raise Failure(f"{self.path} does not tell of which kit its figures are: write them with figures.py")
        return found[1]


def measured(libraries: Libraries, with_emulator: bool) -> Dict[str, List[str]]:
    """Every part but the identity; without the emulator none of what is measured on it."""
    by_core = {core: bounds(libraries, core) for core in STACK_CORES}
    parts = {"sizes": sizes(libraries)}
    if not with_emulator:
        return {**parts, "stack": stack(by_core, {})}
    costs = {core: costs_of(libraries.bare(core), core == STACK_MEASURED_ON) for core in COUNTED_CORES}
    used = costs[STACK_MEASURED_ON].stack
    if set(used) != set(BOARD):
        raise Failure(f"the stack was measured of {', '.join(sorted(used))} only")
    return {**parts, "stack": stack(by_core, used), "instructions": instructions(costs), "levels": levels(libraries, costs[LEVELS_ON])}


def without_last_column(lines: Sequence[str]) -> List[str]:
    return [line.rstrip(" |").rpartition(" |")[0] if line.startswith("|") else line for line in lines]


def differences(page: Page, parts: Dict[str, List[str]], with_emulator: bool) -> List[str]:
    found: List[str] = []
    for name, lines in parts.items():
        known = page.part(name)
        if name == "stack" and not with_emulator:
            known, lines = without_last_column(known), without_last_column(lines)
        found += difflib.unified_diff(known, lines, f"{name}, as the page has it", f"{name}, as measured now", n=0, lineterm="")
    return found


def check(page: Page, libraries: Libraries):
    if page.kit() != kit_identity():
        measured(libraries, False)
        print(f"figures.py: the figures of {page.path} are another kit's, {page.kit()}, and were not compared; libraries have no RAM of their own, and a bound of their stack")
        return
    with_emulator = arm.has_emulator()
    if not with_emulator:
        print(f"figures.py: there is no {arm.EMULATOR}: instructions and measured stack were not compared, sizes and the stack's bounds are")
    parts = measured(libraries, with_emulator)
    found = differences(page, parts, with_emulator)
    if found:
        raise Failure("\n".join([f"{page.path} has other figures:", *found[:MOST_DIFFERENCES]]))
    print(f"figures.py: {page.path} has the figures that are measured")


def write(page: Page, libraries: Libraries):
    if not arm.has_emulator():
        raise Failure(f"there is no {arm.EMULATOR}, without which not all can be measured; Debian has it in {arm.PACKAGE}")
    page.write({"identity": identity(), **measured(libraries, True)})
    print(f"figures.py: {page.path} is written")


def main(words: Optional[Sequence[str]] = None) -> int:
    parser = argparse.ArgumentParser(description=__doc__.splitlines()[0])
    parser.add_argument("--libraries", type=pathlib.Path, default=arm.ROOT / "target" / "firmware", metavar="FOLDER")
    parser.add_argument("--page", type=pathlib.Path, default=arm.ROOT / "docs" / "FIRMWARE.md", metavar="FILE")
    parser.add_argument("--check", action="store_true")
    given = parser.parse_args(words)
    try:
        with tempfile.TemporaryDirectory() as folder:
            work = pathlib.Path(folder)
            page = Page(given.page)
            libraries = Libraries(given.libraries.resolve(), work)
            (check if given.check else write)(page, libraries)
    except Failure as failure:
        print(f"figures.py: {failure}", file=sys.stderr)
        return 1
    return 0


if __name__ == "__main__":
    sys.exit(main())
