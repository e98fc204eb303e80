#!/usr/bin/env python3
"""emulate.py ELF FLASH: the bare board in the emulator. FLASH is the file that its flash is, made anew where it is not there; its serial line's name is printed, to be opened
by bench, program, or any master. The board runs until it is ended, by Ctrl-C for one: what it acknowledged is in the file."""

import fcntl
import os
import pathlib
import pty
import re
import select
import signal
import socket
import subprocess
import sys
import threading
import tty
from typing import BinaryIO, List

from arm import EMULATOR, PACKAGE, Failure, functions_of, has_emulator

MACHINE = "mps2-an385"
MEMORY = 16 << 20  # the emulated board's dynamic RAM, of which the first bytes are the flash
FLASH_LENGTH = 2 * 2048
PATIENCE = 30.0
MAIN_LOOP = "clock_ticks"  # nothing before it looks at the clock
PC = 15


def blank_flash(path: pathlib.Path, content: bytes = b"\xff" * FLASH_LENGTH):
    """A flash file with these bytes, or erased; what lies behind them is never used."""
    with open(path, "wb") as file:
        file.write(content)
        file.truncate(MEMORY)


def flash_of(path: pathlib.Path) -> bytes:
    with open(path, "rb") as file:
        return file.read(FLASH_LENGTH)


def held_flash(path: pathlib.Path) -> BinaryIO:
    """The flash file, made anew where there is none, and locked against another board until it is closed."""
    if not path.exists():
        blank_flash(path)
    file = open(path, "rb")
    try:
        fcntl.flock(file, fcntl.LOCK_EX | fcntl.LOCK_NB)
    except OSError:
        file.close()
        raise Failure(f"{path}: another board has it") from None
    if os.path.getsize(path) != MEMORY:
        file.close()
        raise Failure(f"{path}: not a board's flash, which has {MEMORY} bytes")
    return file


class Debugger:
    """As much of gdb's remote protocol as stops the board before a function."""

    def __init__(self, end: socket.socket):
        self.socket = end
        self.socket.settimeout(PATIENCE)
        self.heard = b""

    def send(self, text: str):
        self.socket.sendall(b"$%s#%02x" % (text.encode(), sum(text.encode()) % 256))

    def answer(self) -> str:
        """The next packet, acknowledged."""
        while not (found := re.search(rb"\$([^#]*)#..", self.heard)):
            more = self.socket.recv(4096)
            if not more:
                raise Failure("the emulator's debugger went away")
            self.heard += more
        self.heard = self.heard[found.end() :]
        self.socket.sendall(b"+")
        return found[1].decode()

    def ask(self, text: str) -> str:
        self.send(text)
        return self.answer()

    def stop_before(self, places: List[int]):
        for place in places:
            if self.ask(f"Z1,{place:x},2") != "OK":
                raise Failure("the emulator takes no breakpoint")

    def go(self):
        self.send("c")

    def go_to(self, place: int):
        """On, until it is there for the first time."""
        self.stop_before([place])
        self.go()
        self.place()
        self.ask(f"z1,{place:x},2")

    def go_on(self):
        """Past the place where it stopped."""
        self.ask("s")
        self.send("c")

    def go_free(self, places: List[int]):
        """On from where it stopped, and past these from now on."""
        for place in places:
            self.ask(f"z1,{place:x},2")
        self.send("c")

    def set_register(self, number: int, value: int):
        """Of r0 to pc."""
        registers = self.ask("g")
        if self.ask("G" + registers[: 8 * number] + value.to_bytes(4, "little").hex() + registers[8 * number + 8 :]) != "OK":
            raise Failure("the emulator sets no register")

    def place(self) -> int:
        """Waits until it stops; where it did."""
        self.answer()
        return int.from_bytes(bytes.fromhex(self.ask("g")[8 * PC : 8 * PC + 8]), "little")


class Board:
    """A running board. Killed, it leaves its flash as it was at that moment. `line` is its serial line's other end."""

    def __init__(self, elf: str, flash: pathlib.Path, debugged: bool = False, machine: str = MACHINE):
        self.flash = held_flash(flash)
        self.line, its_line = socket.socketpair()
        debugger, its_debugger = socket.socketpair()
        words = [EMULATOR, "-M", f"{machine},memory-backend=flash", "-object", f"memory-backend-file,id=flash,size={MEMORY},mem-path={str(flash).replace(',', ',,')},share=on",
                 "-display", "none", "-monitor", "none", "-chardev", f"socket,id=line,fd={its_line.fileno()}", "-serial", "chardev:line", "-kernel", elf]
        if debugged:
            words += ["-chardev", f"socket,id=debugger,fd={its_debugger.fileno()}", "-gdb", "chardev:debugger", "-S"]
        ends = [its_line.fileno(), its_debugger.fileno()]
        self.process = subprocess.Popen(words, stdin=subprocess.DEVNULL, stdout=subprocess.PIPE, stderr=subprocess.STDOUT, pass_fds=ends)
        its_line.close()
        its_debugger.close()
        self.debugger = Debugger(debugger)

    def __enter__(self) -> "Board":
        return self

    def __exit__(self, *_):
        self.kill()

    def kill(self) -> str:
        """The supply goes. What the emulator said, which is nothing."""
        self.process.kill()
        said = self.process.communicate()[0].decode()
        self.line.close()
        self.debugger.socket.close()
        self.flash.close()
        return said


def started(elf: str, flash: pathlib.Path, machine: str = MACHINE) -> Board:
    """A board whose main loop is reached, and which goes on by its debugger: what is sent before its receiver is on is lost."""
    place = functions_of(elf).get(MAIN_LOOP)
    if place is None:
        raise Failure(f"{elf} has no {MAIN_LOOP}, by which its main loop is known")
    board = Board(elf, flash, debugged=True, machine=machine)
    board.debugger.go_to(place)
    return board


class Port(threading.Thread):
    """A pseudo terminal that is the serial line of a board, to be opened by its name as often as one likes, until the board ends."""

    def __init__(self, board: Board):
        super().__init__(daemon=True)
        self.line = board.line
        self.fd, self.other_end = pty.openpty()  # this end keeps the other open, so that programs may come and go
        tty.setraw(self.other_end)
        self.name = os.ttyname(self.other_end)
        self.start()

    def run(self):
        try:
            while True:
                for fd in select.select([self.fd, self.line], [], [])[0]:
                    if fd == self.fd:
                        self.line.sendall(os.read(self.fd, 4096))
                    elif not self.pass_on(self.line.recv(4096)):
                        return
        except (OSError, ValueError):  # the board was killed
            return

    def pass_on(self, heard: bytes) -> bool:
        os.write(self.fd, heard)
        return len(heard) > 0


def main() -> int:
    if len(sys.argv) != 3:
        print(__doc__, file=sys.stderr)
        return 2
    if not has_emulator():
        print(f"emulate.py: there is no {EMULATOR}; Debian's package {PACKAGE} has it", file=sys.stderr)
        return 1
    signal.signal(signal.SIGTERM, lambda *_: sys.exit(0))
    try:
        with started(sys.argv[1], pathlib.Path(sys.argv[2])) as board:
            board.debugger.go()
            print(Port(board).name, flush=True)
            board.process.wait()
            print(f"emulate.py: the emulator ended: {board.kill()}", file=sys.stderr)
    except KeyboardInterrupt:
        return 0
    except (Failure, OSError) as failure:
        print(f"emulate.py: {failure}", file=sys.stderr)
        return 1
    return 1


if __name__ == "__main__":
    sys.exit(main())
