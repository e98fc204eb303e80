#!/usr/bin/env python3
"""test.py ARM HERE ANSWER [KILLS]: the firmware's tests. ARM is a folder of build.sh, HERE has the libraries for this machine, ANSWER is the answer program; the bare board
is killed so many times, 20 if left out. What needs the emulator is left out, and one line says so, where there is none. Ends with status 1 if anything is not as it must be."""

import os
import pathlib
import re
import shutil
import subprocess
import sys
import tempfile
from concurrent.futures import ThreadPoolExecutor
from typing import Dict, List

HERE = pathlib.Path(__file__).resolve().parent
ROOT = HERE.parent.parent
sys.path[:0] = [str(HERE.parent), str(ROOT / "host" / "line"), str(ROOT / "second"), str(ROOT / "tapes")]

import counted  # noqa: E402
import generate  # noqa: E402
import test_build  # noqa: E402
from arm import EMULATOR, PACKAGE, STRICT, Bare, functions_of, has_emulator, run  # noqa: E402
from make import TAPES  # noqa: E402
from rig import Checks, Tools  # noqa: E402

GENERATED, SEED = 520, "2026"
# The C programs of host/ on each core; a Cortex-M0+ library runs on a Cortex-M3, which has all its instructions. Checks of lengths over 2^32 are made where there are such.
PROGRAMS = {
    "cortex-m3": ("example", "test", "test_cells"),
    "cortex-m4": ("example", "test"),
    "cortex-m0plus": ("example", "test_lasting", "test_cells"),
    "cortex-m7": ("example", "test_program", "test_cells"),
    "cortex-m4-hard": ("example",),
}
OVER_32_BITS = {"test": 26, "test_program": 6}
TRACED = re.compile(r"Trace \d+: 0x[0-9a-f]+ \[[0-9a-f]+/([0-9a-f]+)/")
LONGEST_VENEER = 128  # of test/counted.c
# 32-bit and 64-bit Arm Linux, where a cross compiler and an emulator of programs are there.
LINUX = {"arm-linux": ("arm-linux-gnueabihf-gcc", "qemu-arm"), "aarch64-linux": ("aarch64-linux-gnu-gcc", "qemu-aarch64")}


def one_by_one() -> List[str]:
    """The emulator's words for a trace in which each instruction stands."""
    known = run([EMULATOR, "-help"]).stdout.decode()
    return ["-singlestep"] if "-singlestep" in known else ["-accel", "tcg,one-insn-per-tb=on"]


def traced_calls(log: pathlib.Path, entry: int, veneer: int) -> List[int]:
    """The instructions of each call, from an entry's first until the veneer around it goes on."""
    counts: List[int] = []
    inside = False
    with open(log, encoding="ascii", errors="replace") as lines:
        for line in lines:
            found = TRACED.match(line)
            place = int(found[1], 16) if found else -1
            if place == entry and not inside:
                inside = True
                counts.append(0)
            elif inside and veneer <= place < veneer + LONGEST_VENEER:
                inside = False
            if inside and found:
                counts[-1] += 1
    return counts


class Test:
    """What runs on a machine without a line: builds, C programs, tapes."""

    def __init__(self, libraries: pathlib.Path, here: str, answer: str, folder: pathlib.Path):
        self.libraries, self.here, self.answer, self.folder = libraries, here, answer, folder
        self.checks = Checks("firmware, libraries")
        self.said: Dict[str, str] = {}

    def on_host(self, name: str) -> str:
        """What a program of host/ prints on this machine."""
        if name not in self.said:
            made = str(self.folder / name)
            run(["gcc", *STRICT, str(ROOT / "host" / f"{name}.c"), "-L", self.here, "-lhandheld", "-lquicksetter", "-o", made])
            self.said[name] = run([made]).stdout.decode()
        return self.said[name]

    def expected(self, name: str, has_long_lengths: bool) -> str:
        """The same, less the checks that need lengths over 2^32."""
        said = self.on_host(name)
        if has_long_lengths or name not in OVER_32_BITS:
            return said
        program, number, rest = said.split(" ", 2)
        return f"{program} {int(number) - OVER_32_BITS[name]} {rest}"

    def check_programs(self):
        for core, names in PROGRAMS.items():
            bare = Bare(core, self.libraries, self.folder)
            for name in names:
                out = self.folder / f"{core}-{name}.out"
                ran = bare.run_plan(bare.program(name, [ROOT / "host" / f"{name}.c"]), f"- {out} {name}\n")
                said, wanted = out.read_text(), self.expected(name, False)
                self.checks.check(ran.returncode == 0 and said == wanted, f"{name} on {core}: status {ran.returncode}, {ran.stdout!r}, {said[-500:]!r}, not {wanted[-500:]!r}")
                print(f"firmware: on {core}: {said.splitlines()[-1]}", flush=True)

    def check_unaligned(self):
        """A firmware that lets an access to an odd place be a fault wants libraries that were built for that: the others end in one."""
        strict = self.folder / "strict"
        run(["bash", str(HERE.parent / "build.sh"), str(strict), "-mno-unaligned-access"], env={**os.environ, "CORES": "cortex-m3"})
        for libraries, good in ((self.libraries, False), (strict, True)):
            bare = Bare("cortex-m3", libraries, self.folder / "trap")
            out = self.folder / "trap.out"
            ran = bare.run_plan(bare.program("trap", [ROOT / "host" / "example.c"], "-DTRAP_UNALIGNED", "-mno-unaligned-access"), f"- {out} example\n")
            said = (ran.returncode == 0 and out.read_text() == self.on_host("example"), b"a fault" in ran.stdout)
            self.checks.check(said == (good, not good), f"faults on odd places, {libraries.name}: status {ran.returncode}, {ran.stdout!r}")

    def check_counts(self):
        """What figures.py has of the emulator's time is what a trace of every instruction has."""
        counter = counted.Counter(Bare("cortex-m3", self.libraries, self.folder / "counted"))
        source, entry = HERE / "restart.c", "restart"
        told = [call.instructions for call in counter.run(source, entry)[1]]
        elf, log = counter.program(source, entry), self.folder / "trace"
        places = functions_of(elf)
        ran = counter.bare.run_plan(elf, f"- {self.folder / 'trace.out'} restart {entry}\n", *one_by_one(), "-d", "exec,nochain", "-D", str(log))
        traced = traced_calls(log, places["qs_restart"], places["__wrap_qs_restart"])
        self.checks.check(ran.returncode == 0 and len(told) == 10 and traced == told, f"{len(told)} calls counted, {len(traced)} traced, and not the same")
        print(f"firmware: instructions of {len(told)} calls counted as in a trace of every instruction", flush=True)
        log.unlink()

    def check_linux(self):
        for core, (compiler, emulator) in LINUX.items():
            if not shutil.which(compiler) or not shutil.which(emulator):
                print(f"firmware: {core} was left out: {compiler} or {emulator} is not there (Debian's packages for the cross compiler, and qemu-user)", flush=True)
                continue
            for name in ("example", "test", "test_cells"):
                made = str(self.folder / f"{core}-{name}")
                run([compiler, *STRICT, str(ROOT / "host" / f"{name}.c"), "-static", "-L", str(self.libraries / core), "-lhandheld", "-lquicksetter", "-o", made])
                said = run([emulator, made]).stdout.decode()
                self.checks.check(said == self.expected(name, core == "aarch64-linux"), f"{name} on {core}: {said[-500:]!r}")
                print(f"firmware: on {core}: {said.splitlines()[-1]}", flush=True)

    def tapes(self) -> Dict[str, bytes]:
        """Stored tapes, the sheet's frames among them, and generated ones, as far as they are good."""
        found = {name: tape for name, (tape, text) in TAPES.items() if "bad" not in text}
        index = 0
        while len(found) < len(TAPES) + GENERATED:
            tape, _ = generate.make_tape(SEED, index)
            if b"bad" not in self.answered(tape):
                found[f"generated-{index}"] = tape
            index += 1
        return found

    def answered(self, tape: bytes) -> bytes:
        return subprocess.run([self.answer], input=tape, stdout=subprocess.PIPE, check=True).stdout

    def check_tapes(self):
        """perf/play.c plays tapes over the C calls, here over the library for Arm; the answer program says what must come."""
        tapes = self.tapes()
        self.checks.check(sum(name.startswith("sheet-") for name in tapes) == 6 and "document" in tapes, "the sheet's frames are among the tapes")
        for name, tape in tapes.items():
            (self.folder / f"{name}.tape").write_bytes(tape)
        for core in ("cortex-m3", "cortex-m4"):
            bare = Bare(core, self.libraries, self.folder)
            plan = [f"{self.folder / name}.tape {self.folder / name}.{core} play\n" for name in tapes]
            ran = bare.run_plan(bare.program("play", [ROOT / "perf" / "play.c"]), "".join(plan))
            self.checks.check(ran.returncode == 0, f"tapes on {core}: status {ran.returncode}, {ran.stdout[-500:]!r}")
            for name, tape in tapes.items():
                self.checks.check((self.folder / f"{name}.{core}").read_bytes() == self.answered(tape), f"{name} on {core} is answered otherwise")
            print(f"firmware: on {core}: {len(tapes)} tapes ({sum(map(len, tapes.values()))} bytes) answered as by the answer program", flush=True)

    def check_board_parts(self):
        """The page pair and the clock, compiled for this machine, each over a chip of its test's own; a copy, since a file's own folder is looked into first."""
        board = self.folder / "board-parts"
        board.mkdir()
        for name in ("keep.c", "keep.h", "flash.h", "clock.c", "clock.h"):
            shutil.copy(HERE.parent / "board" / name, board)
        for name in ("keep", "clock"):
            made = str(self.folder / f"test_{name}")
            run(["gcc", *STRICT, *[f"-I{folder}" for folder in (board, HERE / "host", ROOT / "host")], str(HERE / f"test_{name}.c"), str(board / f"{name}.c"), "-o", made])
            ran = subprocess.run([made], stdout=subprocess.PIPE, text=True, timeout=60, check=False)
            print(ran.stdout, end="", flush=True)
            self.checks.check(ran.returncode == 0, f"test_{name}.c")

    def without_emulator(self):
        test_build.check_folders(self.libraries, self.checks.check)
        test_build.check_use(self.checks.check)
        test_build.check_slips(self.checks.check)
        self.check_board_parts()

    def with_emulator(self) -> int:
        self.check_programs()
        self.check_tapes()
        self.check_unaligned()
        self.check_counts()
        self.check_linux()
        return self.checks.ended()


def with_emulator(test: Test, kills: int) -> int:
    """The bare board mostly waits, so that its tests run beside the others."""
    import test_board  # it has the debugger and ptys, which are not needed without

    board = Checks("firmware, board")
    with ThreadPoolExecutor() as beside:
        others = beside.submit(test.with_emulator)
        more = test_board.test(test_board.Bench(test.libraries, Tools(test.folder, test.here), test.folder / "board", board), kills)
        return board.ended(more) | others.result()


def main(words: List[str]) -> int:
    if len(words) not in (3, 4):
        print(__doc__, file=sys.stderr)
        return 2
    libraries, here, answer = pathlib.Path(words[0]).resolve(), words[1], words[2]
    with tempfile.TemporaryDirectory() as folder:
        test = Test(libraries, here, answer, pathlib.Path(folder))
        test.without_emulator()
        if has_emulator():
            return with_emulator(test, int(words[3]) if len(words) == 4 else 20)
        return test.checks.ended(f"; there is no {EMULATOR}, so what runs on emulated boards was left out (Debian's package {PACKAGE})")


if __name__ == "__main__":
    sys.exit(main(sys.argv[1:]))
