#!/usr/bin/env python3
"""test_example.py LIBRARY_FOLDER: the example host keeps its duties, and its own checks see it where one is left out. Ends with status 1 on any difference."""

import pathlib
import subprocess
import sys
import tempfile

HOST = pathlib.Path(__file__).resolve().parent
TIMEOUT = 20

# A duty of quicksetter.h left out: what it is, a piece of the example, and what stands there instead.
LEFT_OUT = (
    ("lasting bytes are kept", "memcpy(flash->lasting, host->image + QS_IMAGE_LASTING, QS_LASTING_LENGTH);", ""),
    ("memory is kept", "memcpy(flash->memory, host->memory, host->memory_length);", ""),
    ("what the flash has is not written again", "    if (is_in_flash(host))\n        return;\n", ""),
    ("a new address is kept", "if (QS_MAY_CHANGE(host->room[1]))", "if (QS_MAY_CHANGE(host->room[1]) && (host->room[1] & 0x7F) != QS_SET_ADDRESS)"),
    ("the label is given at a restart too", "p.label, QS_LABEL_LENGTH, host->flash->lasting,", "host->flash->memory, QS_LABEL_LENGTH, host->flash->lasting,"),
    ("what changed is kept where the reply is not sent", "if (QS_MAY_CHANGE(host->room[1]))", "if (QS_MAY_CHANGE(host->room[1]) && !line_is_busy)"),
    ("a reply is not sent while the master sends", "return line_is_busy ? 0 : length;", "return length;"),
    ("the own echo is not handed in", "if (host->sending || ", "if ("),
    ("the tick wraps at 2^32 only", "host->microseconds = widened(host->microseconds, timer);", "host->microseconds = timer;"),
    ("the measured position is given after a restart", "(void)qs_measured(host->image, sizeof host->image, position);", "(void)position;"),
    ("the host wakes when the pause is over", "host_now(host, timer) - host->called < host->sleep", "true"),
    ("the host sleeps until then", "host_now(host, timer) - host->called < host->sleep", "false"),
    ("a character wakes the host", "    if (host->queue.taken != host->queue.written)\n        return false;\n", ""),
    ("damage is told", "(void)qs_fault(host->image, sizeof host->image, INTERNAL_CHECKSUM_ERROR);", ""),
)


def runs(library: str, work: pathlib.Path, source: str, name: str) -> int:
    """The exit status of an example with this source."""
    path = work / f"{name}.c"
    path.write_text(source, encoding="ascii")
    program = work / name
    command = ["gcc", "-std=c11", "-O2", "-I", str(HOST), str(path), "-L", library, "-lquicksetter", "-o", str(program)]
    subprocess.run(command, check=True)
    return subprocess.run([str(program)], stdout=subprocess.DEVNULL, timeout=TIMEOUT, check=False).returncode


def main(arguments) -> int:
    if len(arguments) != 1:
        print(__doc__, file=sys.stderr)
        return 2
    whole = (HOST / "example.c").read_text(encoding="ascii")
    failures = 0
    with tempfile.TemporaryDirectory() as folder:
        work = pathlib.Path(folder)
        if runs(arguments[0], work, whole, "whole") != 0:
            print("example: a reply is not the one that belongs there")
            failures += 1
        for number, (duty, piece, instead) in enumerate(LEFT_OUT):
            assert whole.count(piece) == 1, f"the example has no single {piece!r}"
            if runs(arguments[0], work, whole.replace(piece, instead), f"without_{number}") != 1:
                print(f"example: nothing is seen where this duty is left out: {duty}")
                failures += 1
    print(f"example: {len(LEFT_OUT)} duties, each seen where it is left out" if failures == 0 else f"example: {failures} failed")
    return 1 if failures else 0


if __name__ == "__main__":
    sys.exit(main(sys.argv[1:]))
