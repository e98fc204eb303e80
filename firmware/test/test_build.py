"""firmware/build.sh: what it leaves, and that it stops, with what differs, where a module or a header is not as it must be."""

import pathlib
import re
import shutil
import subprocess
import tempfile
from typing import Callable, NamedTuple

from arm import HERE, ROOT, cores

NEEDED = ("tools/module.sh", "firmware/build.sh", "firmware/cores.txt", "firmware/include", "host/quicksetter.h", "host/programmer.h", "target/module", "target/staticlib")
MODULE, HEADER = "target/module/quicksetter.ll", "host/quicksetter.h"


class Slip(NamedTuple):
    """A change of one file that must be refused with these words."""

    file: str
    old: str
    new: str
    words: str


FIRST_EXPORT = "define noundef i64 @qs_fresh("
SLIPS = (
    Slip(MODULE, 'target triple = "x86_64-unknown-linux-gnu"', 'target triple = "x86_64-unknown-freebsd"', "not as expected: its head"),
    Slip(MODULE, "target datalayout =", "; target datalayout =", "not as expected: its head"),
    Slip(MODULE, 'attributes #0 = { nounwind "probe-stack"', 'attributes #0 = { nounwind "no-builtins" "probe-stack"', "not as expected: its attributes"),
    Slip(MODULE, "attributes #1 = {", 'attributes #1 = { "target-features"="+sse2"', "not as expected: its attributes"),
    Slip(MODULE, FIRST_EXPORT, "; ptrtoint\n" + FIRST_EXPORT, "not as expected: a word that depends on the machine"),
    Slip(MODULE, FIRST_EXPORT, "; <4 x i32>\n" + FIRST_EXPORT, "not as expected: a word that depends on the machine"),
    Slip(MODULE, FIRST_EXPORT, "define { i64, i64 } @qs_pair(i64 %a) #0 {\n  unreachable\n}\n\n" + FIRST_EXPORT, "an export that takes or returns more than numbers"),
    Slip(MODULE, FIRST_EXPORT, "define i64 @qs_pair({ i64, i64 } %a) #0 {\n  unreachable\n}\n\n" + FIRST_EXPORT, "an export that takes or returns more than numbers"),
    Slip(MODULE, FIRST_EXPORT, "define i8 @qs_byte(i64 %a) #0 {\n  unreachable\n}\n\n" + FIRST_EXPORT, "an export that returns a number under 32 bits"),
    Slip(MODULE, FIRST_EXPORT, "define i64 @qs_more(i64 %a) #0 {\n  ret i64 %a\n}\n\n" + FIRST_EXPORT, "it does not give the archive's object"),
    Slip(MODULE, "store i8 85", "store i8 86", "it does not give the archive's object"),
    Slip(HEADER, "uint64_t qs_measured(uint8_t *image, uint64_t image_length,", "uint64_t qs_measured(uint8_t *image, __SIZE_TYPE__ image_length,",
         "what quicksetter exports (<) and what host/quicksetter.h declares (>) differ"),
    Slip(HEADER, "uint32_t qs_judge(", "uint64_t qs_judge(", "what quicksetter exports (<) and what host/quicksetter.h declares (>) differ"),
    Slip(HEADER, "uint64_t qs_power_on(", "uint64_t qs_power_off(", "what quicksetter exports (<) and what host/quicksetter.h declares (>) differ"),
)


def copied(folder: pathlib.Path):
    for name in NEEDED:
        source, made = ROOT / name, folder / name
        made.parent.mkdir(parents=True, exist_ok=True)
        shutil.copytree(source, made) if source.is_dir() else shutil.copy(source, made)


def check_slips(check: Callable[[bool, str], None]):
    with tempfile.TemporaryDirectory() as work:
        root = pathlib.Path(work)
        copied(root)
        for slip in SLIPS:
            file = root / slip.file
            before = file.read_text()
            check(slip.old in before, f"{slip.file} has {slip.old!r}")
            file.write_text(before.replace(slip.old, slip.new, 1))
            ran = subprocess.run(["bash", str(root / "firmware" / "build.sh"), str(root / "made")], capture_output=True, text=True, check=False)
            check(ran.returncode == 1 and slip.words in ran.stderr, f"{slip.new!r}: status {ran.returncode}, {ran.stderr[-500:]!r}, and not {slip.words!r}")
            file.write_text(before)


def check_folders(libraries: pathlib.Path, check: Callable[[bool, str], None]):
    """A folder for each core, with the headers as they are and a text that says how it was made."""
    kept = {"ABOUT.txt", "libhandheld.a", "libquicksetter.a", "programmer.h", "quicksetter.h"}
    for core in cores().values():
        folder = libraries / core.name
        check({path.name for path in folder.iterdir()} == kept, f"{folder} has {sorted(path.name for path in folder.iterdir())}")
        for header in ("quicksetter.h", "programmer.h"):
            check((folder / header).read_bytes() == (ROOT / "host" / header).read_bytes(), f"{folder}: {header}")
        about = (folder / "ABOUT.txt").read_text()
        check(f"flags     {' '.join(core.words)}\n" in about and f"target    {core.triple}\n" in about, f"{folder}: flags and target in {about!r}")
        check(re.search(r"^commit    ([0-9a-f]{40}|not known)", about, re.M) is not None, f"{folder}: commit in {about!r}")
        check(re.search(r"^kit       \S+ logic [0-9a-f]{16}$", about, re.M) is not None, f"{folder}: kit in {about!r}")


def check_use(check: Callable[[bool, str], None]):
    for script in (HERE / "build.sh", HERE / "board" / "build.sh", ROOT / "tools" / "module.sh"):
        ran = subprocess.run(["bash", str(script)], capture_output=True, text=True, check=False)
        check(ran.returncode == 2 and script.name in ran.stderr, f"{script.name} without a word: {ran.returncode} {ran.stderr!r}")
