"""What the tests of encoder, bench and program share: the programs built, ptys as lines, a wire on which several of them are, frames."""

import errno
import os
import pathlib
import pty
import select
import shutil
import signal
import subprocess
import sys
import threading
import time
import tty
from typing import Callable, Dict, List, NamedTuple, Optional

HERE = pathlib.Path(__file__).resolve().parent
HOST = HERE.parent
ROOT = HOST.parent
sys.path.insert(0, str(ROOT / "tools"))

from records import hex_of, xor_of  # noqa: E402

DONE, ERROR_CODE, COMMAND_LINE, REFUSED, SILENCE, PORT_FAULT, FILE_FAULT = range(7)
TIMEOUT = 60


def sealed(*front: int) -> bytes:
    """A frame: these bytes and their checksum."""
    return bytes(front) + bytes([xor_of(front)])


class Ran(NamedTuple):
    status: int
    out: str
    err: str


class Checks:
    """Counted checks; what failed is printed as it comes."""

    def __init__(self, name: str):
        self.name = name
        self.made = 0
        self.failed = 0

    def check(self, good: bool, what: str):
        self.made += 1
        if not good:
            self.failed += 1
            print(f"{self.name}: FAILED: {what}", flush=True)

    def ended(self, more: str = "") -> int:
        print(f"{self.name}: {self.made} checks, {self.failed} failed{more}", flush=True)
        return 1 if self.failed else 0


def folder_in_memory() -> Optional[str]:
    """Where files wait for no disk; None where there is none, or no room in it. The encoder brings a change to the disk before it answers: where that takes over 000's
    time and the 50 ms of docs/LINE.md, bench and program tell silence, and rightly so."""
    folder, room = "/dev/shm", 64 << 20
    is_there = os.path.isdir(folder) and os.access(folder, os.W_OK | os.X_OK)
    return folder if is_there and shutil.disk_usage(folder).free >= room else None


class Tools:
    """The three programs, built into a folder on a disk, and the folder of the boards' files, which is that one or another."""

    def __init__(self, on_disk: pathlib.Path, library: str, folder: Optional[pathlib.Path] = None):
        self.on_disk = on_disk
        self.folder = folder or on_disk
        subprocess.run(["bash", str(HERE / "build.sh"), library, str(on_disk)], check=True)

    def shim(self) -> str:
        """The library that the tests put between a program and the C library."""
        made = str(self.on_disk / "shim.so")
        if not os.path.exists(made):
            subprocess.run(["gcc", "-shared", "-fPIC", "-O1", "-Wall", "-Wextra", "-Werror", str(HERE / "shim.c"), "-o", made, "-ldl"], check=True)
        return made

    def path(self, name: str) -> str:
        return str(self.on_disk / name)

    def run(self, name: str, *arguments: str, environment: Optional[Dict[str, str]] = None, prefix=()) -> Ran:
        """One of the programs, to its end."""
        command = [*prefix, self.path(name), *arguments]
        ran = subprocess.run(
            command, stdin=subprocess.DEVNULL, capture_output=True, timeout=TIMEOUT, check=False, env={**os.environ, **(environment or {})}
        )
        return Ran(ran.returncode, ran.stdout.decode(), ran.stderr.decode())


class Encoder:
    """A running encoder; as a context it is ended when it is left."""

    def __init__(self, tools: Tools, file, *options: str, port: str = "", environment: Optional[Dict[str, str]] = None, prefix=(), **more):
        command = [*prefix, tools.path("encoder"), port or "--pty", str(file), *options]
        environment = {**os.environ, **(environment or {})}
        pipe = subprocess.PIPE
        self.process = subprocess.Popen(command, stdin=pipe, stdout=pipe, stderr=pipe, text=True, bufsize=1, env=environment, **more)
        self.port = port or self.process.stdout.readline().strip()
        if port:
            self.command("power-on")  # it answers when it is ready; a pty's name tells the same

    def __enter__(self) -> "Encoder":
        return self

    def __exit__(self, *_):
        self.end()

    def command(self, line: str) -> str:
        """A line on its standard input; returns what it tells."""
        self.process.stdin.write(line + "\n")
        self.process.stdin.flush()
        if not select.select([self.process.stdout], [], [], TIMEOUT)[0]:
            raise TimeoutError(f"the encoder does not tell of {line!r}")
        return self.process.stdout.readline().strip()

    def end(self, by: int = signal.SIGTERM) -> Ran:
        """Ends it, if it still runs."""
        if self.process.poll() is None:
            self.process.send_signal(by)
        return self.ended()

    def ended(self) -> Ran:
        """Waits for its end."""
        try:
            out, err = self.process.communicate(timeout=TIMEOUT)
        except ValueError:  # ended before, and told then
            return Ran(self.process.wait(), "", "")
        return Ran(self.process.returncode, out, err)


# --- lines ------------------------------------------------------------------------------------


class Line:
    """The test's own end of a pty. A program opens the other end by its name; this one keeps it open too, so that programs may come and go."""

    def __init__(self):
        self.fd, self.other_end = pty.openpty()
        tty.setraw(self.other_end)
        self.name = os.ttyname(self.other_end)

    def __enter__(self) -> "Line":
        return self

    def __exit__(self, *_):
        self.pull()

    def pull(self):
        """The cable is pulled."""
        for fd in (self.fd, self.other_end):
            if fd >= 0:
                os.close(fd)
        self.fd = self.other_end = -1

    def send(self, data: bytes):
        os.write(self.fd, data)

    def hear(self, number: int, seconds: float = 5.0) -> bytes:
        """So many bytes, or those that came in the time."""
        return hear(self.fd, number, seconds)

    def ask(self, frame: bytes, number: int, seconds: float = 5.0) -> bytes:
        self.send(frame)
        return self.hear(number, seconds)


def hear(fd: int, number: int, seconds: float) -> bytes:
    heard = b""
    end = time.monotonic() + seconds
    while len(heard) < number:
        if not select.select([fd], [], [], max(0.0, end - time.monotonic()))[0]:
            break
        try:
            more = os.read(fd, number - len(heard))
        except OSError as error:
            if error.errno not in (errno.EIO, errno.ECONNRESET):
                raise
            break
        if not more:  # nobody is there any more; a pty's end is a fault
            break
        heard += more
    return heard


class Wire(threading.Thread):
    """Several ptys on one wire: what one program sends reaches all others, and, where there is an echo, itself; at once, or at the end of its time on a line of
    this rate. `passes` may look at the bytes before they go on: it is told the sender's place, and what it returns goes on."""

    def __init__(self, number: int, echo: bool = False, passes: Optional[Callable[[int, bytes], bytes]] = None, baud: int = 0):
        super().__init__(daemon=True)
        self.lines = [Line() for _ in range(number)]
        self.echo = echo
        self.passes = passes
        self.baud = baud
        self.going = True
        self.start()

    def __enter__(self) -> "Wire":
        return self

    def __exit__(self, *_):
        self.going = False
        self.join()
        for line in self.lines:
            line.pull()

    def name(self, place: int) -> str:
        return self.lines[place].name

    def run(self):
        while self.going:
            there: List[int] = [line.fd for line in self.lines if line.fd >= 0]
            for fd in select.select(there, [], [], 0.05)[0]:
                sender = next(place for place, line in enumerate(self.lines) if line.fd == fd)
                self.pass_on(sender, os.read(fd, 4096))

    def pass_on(self, sender: int, data: bytes):
        data = self.passes(sender, data) if self.passes else data
        time.sleep(11 * len(data) / self.baud if self.baud else 0)
        for place, line in enumerate(self.lines):
            if data and line.fd >= 0 and (place != sender or self.echo):
                os.write(line.fd, data)


def bytes_told(data: bytes) -> str:
    return hex_of(data) or "silence"
