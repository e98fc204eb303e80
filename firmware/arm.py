"""What the tests and figures of the firmware share: the kit's compiler, the cores of cores.txt, programs for bare boards, and the emulator that runs them."""

import functools
import pathlib
import shutil
import subprocess
from typing import Dict, List, NamedTuple, Sequence

HERE = pathlib.Path(__file__).resolve().parent
ROOT = HERE.parent
EMULATOR = "qemu-system-arm"
PACKAGE = "qemu-system-arm"  # of Debian, which has it
LONGEST_RUN = 600
STRICT = ["-std=c11", "-O2", "-Wall", "-Wextra", "-Werror"]
# The emulated boards: Arm's MPS2, of one make but for the core.
MACHINES = {"cortex-m0plus": "mps2-an385", "cortex-m3": "mps2-an385", "cortex-m4": "mps2-an386", "cortex-m4-hard": "mps2-an386", "cortex-m7": "mps2-an500"}
# What has the memory functions itself: no loop of theirs may become a call of them.
NO_BUILTIN = (HERE / "board" / "memory.c", HERE / "test" / "bare.c")


class Failure(Exception):
    """Something that must not be, in words."""


class Core(NamedTuple):
    """A row of cores.txt."""

    name: str
    triple: str
    words: List[str]


def cores() -> Dict[str, Core]:
    rows = [line.split() for line in (HERE / "cores.txt").read_text().splitlines()]
    return {name: Core(name, triple, words) for name, triple, *words in rows}


def kit() -> pathlib.Path:
    return pathlib.Path(shutil.which("rt")).resolve().parent.parent


def kit_tool(name: str) -> str:
    return str(kit() / "toolchain" / "bin" / name)


def run(words: Sequence[str], **more) -> subprocess.CompletedProcess:
    found = subprocess.run(list(words), capture_output=True, check=False, **more)
    if found.returncode != 0:
        said = (found.stdout + found.stderr).decode("utf-8", "replace")[-2000:]
        raise Failure(f"{' '.join(words)} ended with status {found.returncode}\n{said}")
    return found


def text_by(name: str, *words: str) -> str:
    """What one of the kit's readers of compiled code says: they are one program with the compiler, which goes by its name."""
    return run([name, *words], executable=kit_tool("clang")).stdout.decode("utf-8", "replace")


@functools.lru_cache(maxsize=None)
def functions_of(elf: str) -> Dict[str, int]:
    """Where each function of a program begins."""
    lines = text_by("llvm-nm", elf).splitlines()
    return {name: int(place, 16) & ~1 for place, kind, name in (line.split() for line in lines) if kind in "tT"}


def has_emulator() -> bool:
    return shutil.which(EMULATOR) is not None


class Bare:
    """Programs for one core: compiled, with the libraries in a folder of build.sh, by the kit's clang."""

    def __init__(self, core: str, libraries: pathlib.Path, work: pathlib.Path):
        self.core = cores()[core]
        self.libraries = libraries / core
        self.work = work / core
        self.work.mkdir(parents=True, exist_ok=True)

    def object(self, source: pathlib.Path, *words: str) -> str:
        """A C source, compiled as strictly as on the host; one source under another set of words has another name."""
        name = "-".join([source.parent.name, source.stem, *[word.lstrip("-D").replace("=", "") for word in words if word.startswith("-D")]])
        made = str(self.work / f"{name}.o")
        plain = ["-fno-builtin"] if source in NO_BUILTIN else []
        run([kit_tool("clang"), f"--target={self.core.triple}", *self.core.words, *STRICT, "--no-default-config", "-nostdinc", *plain, "-ffunction-sections",
             "-fdata-sections", *words, "-I", str(self.libraries), "-c", str(source), "-o", made])
        return made

    def linked(self, name: str, script: pathlib.Path, objects: Sequence[str], *words: str) -> str:
        made = str(self.work / f"{name}.elf")
        archives = [str(self.libraries / f"lib{library}.a") for library in ("handheld", "quicksetter")]
        run([kit_tool("ld.lld"), "--gc-sections", "--fatal-warnings", "-e", "0", "-T", str(script), *words, *objects, *archives, "-o", made])
        return made

    def program(self, name: str, sources: Sequence[pathlib.Path], *words: str) -> str:
        """A program with standard input and output, by test/bare.c; it runs under a plan."""
        own = ["-isystem", str(HERE / "test" / "include"), "-isystem", str(HERE / "include")]
        objects = [self.object(source, *own, *words) for source in (*sources, HERE / "test" / "bare.c", HERE / "board" / "memory.c")]
        return self.linked(name, HERE / "test" / "bare.ld", objects)

    def board(self, name: str, *words: str) -> str:
        """The firmware of the bare board; words may define TOTAL and TICKS_A_BIT."""
        made = str(self.work / f"{name}.elf")
        run(["bash", str(HERE / "board" / "build.sh"), str(self.libraries.parent), self.core.name, made, *words])
        return made

    def run_plan(self, elf: str, plan: str, *words: str) -> subprocess.CompletedProcess:
        """A program's runs, one a line of the plan (test/bare.c); the emulator's status and what it said."""
        path = self.work / f"{pathlib.Path(elf).stem}.plan"
        path.write_text(plan)
        command = [EMULATOR, "-M", MACHINES[self.core.name], "-display", "none", "-monitor", "none", "-serial", "none", "-chardev", "stdio,id=told",
                   "-semihosting-config", f"enable=on,target=native,chardev=told,arg={path}", *words, "-kernel", elf]
        return subprocess.run(command, stdin=subprocess.DEVNULL, stdout=subprocess.PIPE, stderr=subprocess.STDOUT, timeout=LONGEST_RUN, check=False)
