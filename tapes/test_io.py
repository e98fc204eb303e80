#!/usr/bin/env python3
"""test_io.py PROGRAM: standard input and standard output of an answer program. What cannot be read or written is told on standard error, in one line, and the
program stops; calls that are cut off or move less than asked change nothing. Ends with status 1 on any difference.

The kit has no way to set an exit status, so that it is 0 also then: what tells a failure is that standard error is not empty."""
import os
import pathlib
import platform
import shutil
import subprocess
import sys
import tempfile
import time

from make import FIRST, TAPES, frame, plate, poll

TIMEOUT = 10
IS_X86_64 = platform.machine() == "x86_64"
UNREAD = "answer: standard input cannot be read: %s\n"
UNWRITTEN = "answer: standard output cannot be written: %s\n"

# A read and a write that a signal cuts off every other time, that move at most so many bytes, and that fail once so many are moved. A read fails only once.
# The program is for x86-64 on every machine, and so is this: it goes by no header, which would be the machine's own.
SHIM = r"""
typedef long ssize_t;
typedef unsigned long size_t;
extern char *getenv(const char *name);
extern long atol(const char *text);
extern long syscall(long call, ...);
extern int *__errno_location(void);
#define errno (*__errno_location())
enum { SYS_read = 0, SYS_write = 1, STDOUT_FILENO = 1, EINTR = 4, EIO = 5, ENOSPC = 28 };

static long number(const char *name) { const char *text = getenv(name); return text ? atol(text) : -1; }

static ssize_t move(long call, int fd, void *buf, size_t count, long fails, int error, long *moved, int *calls)
{
    long most = number("MOST");
    if (most > 0 && ++*calls % 2 == 1) { errno = EINTR; return -1; }
    if (most > 0 && count > (size_t)most) count = (size_t)most;
    if (fails >= 0 && *moved == fails) { *moved = -1; errno = error; return -1; }
    if (fails >= 0 && *moved >= 0 && count > (size_t)(fails - *moved)) count = (size_t)(fails - *moved);
    long done = syscall(call, fd, buf, count);
    if (done > 0 && *moved >= 0) *moved += done;
    return done;
}

ssize_t read(int fd, void *buf, size_t count)
{
    static long moved;
    static int calls;
    return move(SYS_read, fd, buf, count, number("READ_FAILS"), EIO, &moved, &calls);
}

ssize_t write(int fd, const void *buf, size_t count)
{
    static long moved;
    static int calls;
    if (fd != STDOUT_FILENO) return syscall(SYS_write, fd, buf, count);
    if (getenv("TAKES_NOTHING")) return 0;
    return move(SYS_write, fd, (void *)buf, count, number("WRITE_FAILS"), ENOSPC, &moved, &calls);
}
"""

# As many requests 4Eh as print more than the program gathers before it writes, 65,536 bytes.
REQUESTS = 6000
ANSWER = TAPES["document"][1].split("\n")[1].split(" ", 1)[1]
LONG = plate() + b"".join(frame(400 * n, "40 4E 0E") + poll(400 * n + 308) for n in range(REQUESTS))
LONG_TEXT = FIRST + "".join("%d %s\n" % (400 * n + 308, ANSWER) for n in range(REQUESTS))
CASES = []


def case(test):
    CASES.append(test)
    return test


def compiler():
    """What compiles for x86-64: gcc, and on another processor the kit's clang."""
    if IS_X86_64:
        return ["gcc"]
    tools = pathlib.Path(shutil.which("rt")).resolve().parent.parent / "toolchain" / "bin"
    return [str(tools / "clang"), "--target=x86_64-unknown-linux-gnu", "--no-default-config", "-nostdlib", f"--ld-path={tools / 'ld.lld'}"]


class Program:
    def __init__(self, path, work):
        self.path = path
        self.shim = os.path.join(work, "shim.so")
        source = os.path.join(work, "shim.c")
        pathlib.Path(source).write_text(SHIM, encoding="ascii")
        subprocess.run([*compiler(), "-shared", "-fPIC", "-O1", "-Wall", "-Werror", source, "-o", self.shim], check=True)

    def run(self, data=None, **more):
        """What it printed, what stands on standard error, its status."""
        more.setdefault("stdout", subprocess.PIPE)
        if data is not None:
            more["input"] = data
        got = subprocess.run([self.path], stderr=subprocess.PIPE, timeout=TIMEOUT, check=False, **more)
        return (got.stdout or b"").decode("ascii"), got.stderr.decode("ascii"), got.returncode

    def under(self, data, **settings):
        """.. with the calls of the shim."""
        preload = {"LD_PRELOAD": self.shim} if IS_X86_64 else {"QEMU_SET_ENV": f"LD_PRELOAD={self.shim}"}
        return self.run(data, env={**preload, **{name: str(value) for name, value in settings.items()}})


def same(found, wanted):
    assert found == wanted, f"{found!r}, wanted {wanted!r}"


@case
def good_input_says_nothing(program):
    same(program.run(LONG), (LONG_TEXT, "", 0))


@case
def output_on_a_full_disk(program):
    for tape in (b"", LONG):
        with open("/dev/full", "wb") as full:
            same(program.run(tape, stdout=full), ("", UNWRITTEN % "No space left on device", 0))


@case
def output_closed(program):
    same(program.run(LONG, stdout=None, preexec_fn=lambda: os.close(1)), ("", UNWRITTEN % "Bad file descriptor", 0))


def with_no_reader(program, **more):
    reader, writer = os.pipe()
    os.close(reader)
    try:
        return program.run(LONG, stdout=writer, **more)
    finally:
        os.close(writer)


@case
def reader_gone(program):
    """Today's kit starts every program with SIGPIPE ignored, so that the write fails, as it does where whoever started it has the signal ignored."""
    same(with_no_reader(program), ("", UNWRITTEN % "Broken pipe", 0))
    ignored = with_no_reader(program, restore_signals=False)
    same(ignored, ("", UNWRITTEN % "Broken pipe", 0))


@case
def output_fails_later(program):
    for count in (1, 65000, 65536, 70000):
        same(program.under(LONG, WRITE_FAILS=count), (LONG_TEXT[:count], UNWRITTEN % "No space left on device", 0))


@case
def output_takes_nothing(program):
    same(program.under(LONG, TAKES_NOTHING=1), ("", UNWRITTEN % "write zero", 0))


@case
def after_a_failed_write_nothing_is_read(program):
    """The input stays open and brings nothing more: a program that reads on waits for ever."""
    with open("/dev/full", "wb") as full:
        started = subprocess.Popen([program.path], stdin=subprocess.PIPE, stdout=full, stderr=subprocess.PIPE, bufsize=0)
    try:
        started.stdin.write(LONG)
    except BrokenPipeError:
        pass
    try:
        status = started.wait(timeout=TIMEOUT)
    finally:
        started.kill()
    said = started.communicate()[1].decode("ascii")
    same((said, status), (UNWRITTEN % "No space left on device", 0))


@case
def input_a_directory(program):
    with tempfile.TemporaryDirectory() as name:
        folder = os.open(name, os.O_RDONLY)
        try:
            same(program.run(stdin=folder), (FIRST, UNREAD % "Is a directory", 0))
        finally:
            os.close(folder)


@case
def input_closed(program):
    same(program.run(preexec_fn=lambda: os.close(0)), (FIRST, UNREAD % "Bad file descriptor", 0))


@case
def both_fail(program):
    found = program.run(stdout=None, preexec_fn=lambda: (os.close(0), os.close(1)))
    same(found, ("", UNREAD % "Bad file descriptor" + UNWRITTEN % "Bad file descriptor", 0))


@case
def input_fails_later(program):
    """What was answered is written; the rest is no record cut short, and what could be read later is not read."""
    data = TAPES["document"][0]
    for tape, places in ((data, range(len(data) + 1)), (LONG, (9, 65535, 65536, 65537, 100000, len(LONG)))):
        for place in places:
            cut = program.run(tape[:place])[0]
            answered = "".join(line for line in cut.splitlines(True) if not line.startswith("bad "))
            same(program.under(tape, READ_FAILS=place), (answered, UNREAD % "Input/output error", 0))


@case
def calls_cut_off_and_short(program):
    for most in (1, 3, 4096):
        same(program.under(LONG[: 9 + 38 * 500], MOST=most), ("".join(LONG_TEXT.splitlines(True)[:501]), "", 0))
    for data, text in TAPES.values():
        same(program.under(data, MOST=1), (text, "", 0))


@case
def small_pieces_with_pauses(program):
    data, text = TAPES["order-of-checks"]
    started = subprocess.Popen([program.path], stdin=subprocess.PIPE, stdout=subprocess.PIPE, stderr=subprocess.PIPE, bufsize=0)
    place, turn = 0, 0
    while place < len(data):
        turn += 1
        place += started.stdin.write(data[place : place + turn % 13 + 1])
        if turn % 5 == 0:
            time.sleep(0.001)
    printed, said = started.communicate(timeout=TIMEOUT)
    same((printed.decode("ascii"), said, started.returncode), (text, b"", 0))


def main():
    if len(sys.argv) != 2 or not pathlib.Path(sys.argv[1]).is_file():
        sys.exit("test_io.py PROGRAM: no such answer program")
    wrong = 0
    with tempfile.TemporaryDirectory() as work:
        program = Program(str(pathlib.Path(sys.argv[1]).resolve()), work)
        for test in CASES:
            try:
                test(program)
            except (AssertionError, subprocess.TimeoutExpired) as error:
                print(f"io: {test.__name__}: {str(error)[:1000]}")
                wrong += 1
    print(f"io: {len(CASES)} cases run, {wrong} wrong")
    return 1 if wrong else 0


if __name__ == "__main__":
    sys.exit(main())
