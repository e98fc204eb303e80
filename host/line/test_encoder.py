"""encoder: every stored tape over a pty; characters that come one by one around the limit; its file, log, commands and signals; what is on the disk when a reply
is sent; a cable that is pulled; bad command lines."""

import os
import pathlib
import resource
import signal
import subprocess
import sys
import time
from typing import Iterator, List, NamedTuple, Optional, Tuple, Union

import keeping
from rig import COMMAND_LINE, DONE, FILE_FAULT, PORT_FAULT, ROOT, SILENCE, TIMEOUT, Checks, Encoder, Line, Tools, bytes_told, hear, sealed
from records import Character, Fault, Measured, Plate, Poll, PowerOn, gap, split

FAST = ("--rate", "38400", "--pause", "22")
STILL = 0.015  # seconds, many times a fast line's pause
MEMORY_STATUS = sealed(0x40, 0x4E)
LABELS = (0x52, 0x56)


# --- stored tapes -----------------------------------------------------------------------------


class Closed(NamedTuple):
    """A frame, and the tick at which it closes."""

    frame: bytes
    tick: int


def played(records: List) -> Iterator[Union[str, Closed]]:
    """What is to be done for a tape's records behind its plate: commands for the encoder's host, and frames when they close. Stops at a parity fault, which no pty
    can bring."""
    plate, frame, last = records[0], b"", 0
    for record in records[1:]:
        if isinstance(record, Measured):
            yield f"position {record.position}"
        elif isinstance(record, Fault):
            yield f"fault {record.code:02X}"
        elif isinstance(record, PowerOn):
            frame = b""
            yield "power-on"
        elif frame and gap(last, record.tick) >= plate.closing_gap():
            yield Closed(frame, record.tick)
            frame = b""
        if isinstance(record, Character):
            if record.parity:
                return
            frame, last = frame + bytes([record.value]), record.tick


def is_reply(frame: bytes, reply: bytes, expected: bytes) -> bool:
    """The label of a tape is all 00h, the encoder's is its own."""
    if expected and frame[1] in LABELS and expected[1] & 0x7F in LABELS:
        return reply[:2] == expected[:2] and len(reply) == len(expected) and sealed(*reply[:-1]) == reply
    return reply == expected


class Player:
    """A tape's events over a line to an encoder, and the lines that the answer program printed for it."""

    def __init__(self, checks: Checks, line: Line, encoder: Encoder, name: str, answers: List[str]):
        self.checks, self.line, self.encoder, self.name, self.answers = checks, line, encoder, name, answers

    def expected(self, tick: int) -> bytes:
        if not self.answers or self.answers[0].split()[0] != str(tick):
            return b""
        return bytes.fromhex(" ".join(self.answers.pop(0).split()[1:]))

    def play(self, event: Union[str, Closed]):
        if isinstance(event, str):
            self.checks.check(self.encoder.command(event).startswith(event.split()[0]), f"{self.name}: {event}")
            return
        expected = self.expected(event.tick)
        self.line.send(event.frame)
        reply = self.line.hear(len(expected)) if expected else self.line.hear(1, STILL)
        good = is_reply(event.frame, reply, expected)
        self.checks.check(good, f"{self.name} at {event.tick}: {bytes_told(event.frame)} -> {bytes_told(reply)}, not {bytes_told(expected)}")


def plate_options(plate: Plate) -> Tuple[str, ...]:
    return ("--total", str(plate.total), "--bits", str(plate.bits), "--address", str(plate.address), *FAST)


def check_tapes(tools: Tools, checks: Checks):
    """Each reply that a stored tape has comes over the line too, and no other."""
    for tape in sorted((ROOT / "tapes").glob("*.tape")):
        records = split(tape.read_bytes())[0]
        if not records or records[0].fault():
            continue
        answers = tape.with_suffix(".out").read_text(encoding="ascii").splitlines()[1:]
        file = tools.folder / "tape.board"
        with Line() as line, Encoder(tools, file, *plate_options(records[0]), port=line.name) as encoder:
            player = Player(checks, line, encoder, tape.stem, answers)
            for event in played(records):
                player.play(event)
        file.unlink()


# --- how fast it comes ------------------------------------------------------------------------


def sent_slowly(line: Line, frame: bytes, seconds: float) -> float:
    """Sends a frame byte by byte; returns the longest gap that it became."""
    longest, before = 0.0, 0.0
    for place, value in enumerate(frame):
        if place:
            time.sleep(seconds)
        now = time.monotonic()
        longest = max(longest, now - before) if place else 0.0
        before = now
        line.send(bytes([value]))
    return longest


def check_gaps(checks: Checks, line: Line, limit: float, rows: Tuple[Tuple[float, bool], ...], what: str):
    """Gaps in parts of the limit: those below keep the frame together, which is answered; those above close it."""
    for part, is_kept in rows:
        for _ in range(5):
            longest = sent_slowly(line, MEMORY_STATUS, part * limit)
            reply = line.hear(5, limit + 1.0) if is_kept else line.hear(1, limit + 0.2)
            if not is_kept or longest < 0.9 * limit:  # else this machine was too slow for a gap below the limit
                break
        expected = sealed(0x40, 0x4E, 0x70, 0x00) if is_kept else b""
        checks.check(reply == expected, f"{what}: gaps of {part:.2f} of the limit: {bytes_told(reply)}")


def check_delivery(tools: Tools, checks: Checks):
    """55 bit times at 600 baud are 91.7 ms, so that the limit can be met from both sides; with patience it is later, whatever the rate."""
    file = tools.folder / "delivery.board"
    rows = ((0.0, True), (0.5, True), (0.75, True), (1.25, False), (1.6, False))
    with Line() as line:
        with Encoder(tools, file, "--rate", "600", port=line.name):
            check_gaps(checks, line, 55 / 600, rows, "600 baud")
        with Encoder(tools, file, "--rate", "600", "--pause", "22", "--patience", "100", port=line.name):
            check_gaps(checks, line, 22 / 600 + 0.1, rows, "600 baud, patience 100 ms")
        with Encoder(tools, file, *FAST, "--patience", "120", port=line.name):
            check_gaps(checks, line, 22 / 38400 + 0.12, rows, "38400 baud, patience 120 ms")


def check_stamps(tools: Tools, checks: Checks):
    """Characters that come in one go are eleven bits apart: by the log, from the first one to the reply it is as long as on a line, though all came at once."""
    bit, pause = 64, 55
    log = tools.folder / "stamps.log"
    with Line() as line, Encoder(tools, tools.folder / "stamps.board", "--rate", "600", "--log", str(log), port=line.name) as encoder:
        for length in (3, 5, 9, 3):
            time.sleep(0.2)  # as long as the longest of these would have been on the line
            line.ask(sealed(0x40, 0x4E, *bytes(length - 3)), 5 if length == 3 else 4)
            encoder.command("power-on")  # told when what came before is done, the log's line too
            request, reply = [int(text.split()[0]) for text in log.read_text().splitlines()[-2:]]
            least = ((length - 1) * 11 + pause) * bit
            checks.check(least <= reply - request <= least + 4000, f"{length} characters at once: {reply - request} ticks, not {least}")


def check_frames(tools: Tools, checks: Checks):
    """Frames that bench never writes, FFh among them, which the kernel doubles; frames of every length up to and beyond what is kept."""
    error = {code: sealed(0x40, 0x50, code) for code in (0x0A, 0x0B, 0x0C, 0x0D)}
    rows = [
        (b"\x40\x4e\x0f", error[0x0A]),
        (sealed(0x40, 0x44), error[0x0B]),
        (sealed(0x40, 0xFF), error[0x0B]),
        (sealed(0x40, 0x4E, 0xFF), error[0x0C]),
        (sealed(0x40, 0x55, 0xFF, 0x55), error[0x0D]),
        (sealed(0xFF, 0x4E), sealed(0x40, 0x4E, 0x70, 0x00)),
        (sealed(0x41, 0x4E), b""),
        (b"\x40", b""),
        (b"\xff\xff", b""),
        (sealed(*[0x40, 0x4D, 0x00, 0xC7, 0x55]), sealed(0x40, 0x4D, 0x00, 0xC7)),
        (sealed(*[0x40, 0x4B, 0, 0, 128, 0x55] + [0xFF] * 128), sealed(0x40, 0x4B, 0, 0, 128)),
        (sealed(*[0x40, 0x4A, 0, 0, 128, 0x55]), sealed(*[0x40, 0x4A, 0, 0, 128] + [0xFF] * 128)),
        (sealed(*[0x40, 0x4E] + [0xFF] * 132), error[0x0C]),
        (sealed(*[0x40, 0x44] + [0xFF] * 133), error[0x0C]),
        (sealed(*[0x40, 0x44] + [0x11] * 3000), error[0x0C]),
        (MEMORY_STATUS, sealed(0x40, 0x4E, 0x68, 0x01)),
    ]
    file = tools.folder / "frames.board"
    with Line() as line, Encoder(tools, file, *FAST, port=line.name):
        check_rows(checks, line.fd, rows)
    file.unlink()
    with Encoder(tools, file, *FAST) as encoder:  # on its own pty, by a master that sets nothing
        master = os.open(encoder.port, os.O_RDWR | os.O_NOCTTY)
        check_rows(checks, master, rows)
        os.close(master)


def check_rows(checks: Checks, fd: int, rows: List[Tuple[bytes, bytes]]):
    for frame, expected in rows:
        os.write(fd, frame)
        reply = hear(fd, len(expected), 5) if expected else hear(fd, 1, STILL)
        checks.check(reply == expected, f"{bytes_told(frame[:8])} of {len(frame)} -> {bytes_told(reply)}, not {bytes_told(expected)}")


def check_faulty(tools: Tools, checks: Checks, shim: str):
    """A character that the kernel marks: the board hears its parity fault, and bench refuses a reply with one."""
    for place in (1, 2, 3):
        with Line() as line, Encoder(tools, tools.folder / "faulty.board", port=line.name, environment={"LD_PRELOAD": shim, "SHIM_FAULTY": str(place)}):
            reply = line.ask(MEMORY_STATUS, 4)
            checks.check(reply == sealed(0x40, 0x50, 0x09), f"a parity fault at {place}: {bytes_told(reply)}")
            reply = line.ask(MEMORY_STATUS, 5)
            checks.check(reply == sealed(0x40, 0x4E, 0x70, 0x00), f"after a parity fault at {place}: {bytes_told(reply)}")
    with Encoder(tools, tools.folder / "faulty.board") as encoder:
        ran = tools.run("bench", encoder.port, "memory-status", environment={"LD_PRELOAD": shim, "SHIM_FAULTY": "4"})
        checks.check(ran == (3, "refused: a character of the reply had a parity fault\n", ""), f"a parity fault at the bench: {ran}")


# --- its file ---------------------------------------------------------------------------------


def refused(tools: Tools, checks: Checks, file: pathlib.Path, told: str, *options: str):
    """The file is refused in one line and left alone."""
    before = file.read_bytes() if file.is_file() else None
    with Line() as line:
        ran = tools.run("encoder", line.name, str(file), *options)
    checks.check(ran == (FILE_FAULT, "", f"encoder: {told}\n"), f"{told}: {ran}")
    checks.check(before is None or file.read_bytes() == before, f"{told}: the file was touched")
    checks.check(not file.with_name(file.name + ".new").exists(), f"{told}: a new file is left")


def check_file(tools: Tools, checks: Checks):
    good = keeping.board(total=8, codes=b"\x01\x02\x03\x04", counter=77, address=3, offset=5, memory=bytes(range(1, 17)) + bytes(112) + b"\xC0")
    file = tools.folder / "kept.board"
    for cut in (0, 1, 8, 21, 22, 100, len(good) - 1):
        words = "not a board's file" if cut < 22 else "damaged: not the length that it should have"
        refused(tools, checks, keeping.put(file, good[:cut]), f"{file}: {words}")
    for place in range(0, len(good), 7):
        damaged = bytearray(good)
        damaged[place] ^= 0x10
        words = "not a board's file" if place < 8 else "damaged: not the length that it should have" if place in (8,) else "damaged: its checksum is wrong"
        if place != 9:
            refused(tools, checks, keeping.put(file, bytes(damaged)), f"{file}: {words}")
    refused(tools, checks, keeping.put(file, good + b"\x00"), f"{file}: damaged: not the length that it should have")
    refused(tools, checks, keeping.put(file, b"codes 55 55 55 55\n" * 9), f"{file}: not a board's file")
    refused(tools, checks, keeping.put(file, keeping.board(total=8, bits=3, offset=8)), f"{file}: damaged: no board can have these codes, counter, address and offset")
    refused(tools, checks, keeping.put(file, keeping.board(total=8, address=32)), f"{file}: damaged: no board can have these codes, counter, address and offset")
    refused(tools, checks, keeping.put(file, good), f"{file}: the board in it has 8 blocks and 24 position bits", "--total", "9")
    refused(tools, checks, file, f"{file}: the board in it has 8 blocks and 24 position bits", "--bits", "25")
    refused(tools, checks, tools.folder, f"{tools.folder}: Is a directory")
    nowhere = tools.folder / "nowhere" / "kept.board"
    refused(tools, checks, nowhere, f"{nowhere}: No such file or directory")
    checks.check(keeping.read(file).counter == 77, "the good file is as it was")
    check_restart(tools, checks, file)


def check_restart(tools: Tools, checks: Checks, file: pathlib.Path):
    """What the file holds is there again, and one encoder at a time has it."""
    with Line() as line, Encoder(tools, file, port=line.name) as encoder:
        for frame, expected in (
            (sealed(0x43, 0x46), sealed(0x43, 0x46, 0, 0, 77)),
            (sealed(0x43, 0x42), sealed(0x43, 0x42, 0, 0, 0, 5)),
            (sealed(0x43, 0x4A, 0, 0, 16, 0), sealed(0x43, 0x4A, 0, 0, 16, *range(1, 17))),
            (sealed(0x43, 0x4F, 2, 3, 9), sealed(0x43, 0x4F, 2)),
        ):
            reply = line.ask(frame, len(expected))
            checks.check(reply == expected, f"after a restart {bytes_told(frame)} -> {bytes_told(reply)}")
        refused(tools, checks, file, f"{file}: another encoder has it")
        line.ask(sealed(0x43, 0x47), 3)
        refused(tools, checks, file, f"{file}: another encoder has it")
        checks.check(encoder.end() == (DONE, "", ""), "the encoder ends")
    kept = keeping.read(file)
    checks.check((kept.codes, kept.counter, kept.address) == (b"\x01\x02\x09\x04", 78, 3), f"kept at the end: {kept[:6]}")


STORED = ("unlink", "write", "fsync", "rename", "fsync folder", "send")


def check_order(tools: Tools, checks: Checks, shim: str):
    """A new file, to the disk, in place, the folder to the disk, and only then the reply; killed before each of these, the old file or the new one is there."""
    store, stored = sealed(0x40, 0x47), sealed(0x40, 0x47)
    calls = tools.folder / "calls"
    file = keeping.put(tools.folder / "order.board", keeping.board(counter=5))
    with Line() as line, Encoder(tools, file, port=line.name, environment={"LD_PRELOAD": shim, "SHIM_CALLS": str(calls)}):
        checks.check(line.ask(store, 3) == stored, "a counted reply")
        checks.check(line.ask(MEMORY_STATUS, 5) == sealed(0x40, 0x4E, 0x70, 0x00), "a reply that changes nothing")
    checks.check(tuple(calls.read_text().split("\n")[:-1]) == STORED + ("send",), f"calls for a reply: {calls.read_text()!r}")
    for number, name in enumerate(STORED, start=1):
        keeping.put(file, keeping.board(counter=5))
        with Line() as line:
            with Encoder(tools, file, port=line.name, environment={"LD_PRELOAD": shim, "SHIM_KILL": str(number)}) as encoder:
                reply = line.ask(store, 3, 0.3)
                ran = encoder.ended()
            checks.check(ran.status == -signal.SIGKILL and reply == b"", f"killed before {name}: {ran}, {bytes_told(reply)}")
            counted = 5 if name in ("unlink", "write", "fsync", "rename") else 6
            checks.check(keeping.read(file).counter == counted, f"killed before {name}: counter {keeping.read(file).counter}")
            with Encoder(tools, file, port=line.name):
                checks.check(line.ask(sealed(0x40, 0x46), 6) == sealed(0x40, 0x46, 0, 0, counted), f"restarted after a kill before {name}")


FIRST = ("unlink", "write", "fsync", "link", "unlink", "fsync folder")


def counted(tools: Tools, line: Line, file: pathlib.Path, environment=None) -> bytes:
    """One request to count, and its reply."""
    with Encoder(tools, file, port=line.name, environment=environment):
        return line.ask(sealed(0x40, 0x47), 3, 0.3 if environment else 5.0)


def check_new_file(tools: Tools, checks: Checks, shim: str):
    """A new board's first file takes no other's place; killed before each call, there is none or a whole one, which goes on as any other."""
    calls, file = tools.folder / "first", tools.folder / "first.board"
    with Line() as line, Encoder(tools, file, port=line.name, environment={"LD_PRELOAD": shim, "SHIM_CALLS": str(calls)}):
        line.ask(MEMORY_STATUS, 5)
    checks.check(tuple(calls.read_text().split("\n")[:-1]) == FIRST + ("send",), f"calls for a new file: {calls.read_text()!r}")
    for number, name in enumerate(FIRST, start=1):
        file = tools.folder / f"first-{number}.board"
        with Line() as line:
            ran = tools.run("encoder", line.name, str(file), environment={"LD_PRELOAD": shim, "SHIM_KILL": str(number)})
            checks.check(ran.status == -signal.SIGKILL and (not file.exists() or keeping.read(file).counter == 0), f"new, killed before {name}: {ran}")
            checks.check(counted(tools, line, file) == sealed(0x40, 0x47), f"new, killed before {name}: the next start")
            with Encoder(tools, file, port=line.name):
                refused(tools, checks, file, f"{file}: another encoder has it")
            reply = counted(tools, line, file, {"LD_PRELOAD": shim, "SHIM_KILL": "2"})
            checks.check(reply == b"" and keeping.read(file).counter == 1, f"new, killed before {name}: a kill after the next start")


def check_names(tools: Tools, checks: Checks):
    """A link to a file is followed and stays; the file's mode stays; a log is not the board's file."""
    file, link = keeping.put(tools.folder / "named.board", keeping.board(counter=5)), tools.folder / "link.board"
    file.chmod(0o600)
    link.symlink_to(file)
    with Line() as line:
        checks.check(counted(tools, line, link) == sealed(0x40, 0x47), "by a link")
        checks.check(link.is_symlink() and keeping.read(file).counter == 6, "the file that a link leads to is written")
        checks.check(file.stat().st_mode & 0o777 == 0o600, "the file keeps its mode")
    for log in (file, link, pathlib.Path(f"{file}.new")):
        refused(tools, checks, file, f"{log}: this is the board's file", "--log", str(log))
    new = tools.folder / "newly.board"
    with Line() as line:
        ran = tools.run("encoder", line.name, str(new), "--log", str(new))
    checks.check(ran == (FILE_FAULT, "", f"encoder: {new}: this is the board's file\n") and keeping.read(new).counter == 0, f"a log that is the new file: {ran}")


def check_full(tools: Tools, checks: Checks):
    """A disk that takes no more: no reply, one line, and the file as it was."""
    file = keeping.put(tools.folder / "full-disk.board", keeping.board(counter=5))
    ignored = {"preexec_fn": lambda: signal.signal(signal.SIGXFSZ, signal.SIG_IGN)}
    with Line() as line, Encoder(tools, file, port=line.name, **ignored) as encoder:
        line.ask(MEMORY_STATUS, 5)
        resource.prlimit(encoder.process.pid, resource.RLIMIT_FSIZE, (100, 100))
        reply = line.ask(sealed(0x40, 0x47), 3, 0.3)
        ran = encoder.ended()
    checks.check(ran == (FILE_FAULT, "", f"encoder: {file}: File too large\n") and reply == b"", f"a full disk: {ran}, {bytes_told(reply)}")
    checks.check(keeping.read(file).counter == 5 and not file.with_name(file.name + ".new").exists(), "a full disk: the file is as it was")


def check_slow(tools: Tools, checks: Checks, shim: str):
    """A disk that takes longer than a reply is waited for: the change is told as silence, and is kept; a master with patience has its reply."""
    slow = {"LD_PRELOAD": shim, "SHIM_SLOW": "400"}
    with Encoder(tools, keeping.put(tools.folder / "slow.board", keeping.board()), environment=slow) as encoder:
        ran = tools.run("bench", encoder.port, "increment-counter")
        checks.check(ran == (SILENCE, "silence: no reply came\n", ""), f"a slow disk: {ran}")
        ran = tools.run("bench", encoder.port, "increment-counter", "--patience", "300")
        checks.check(ran == (DONE, "done\n", ""), f"a slow disk, with patience: {ran}")
        ran = tools.run("bench", encoder.port, "read-counter")
        checks.check(ran == (DONE, "counter 2\n", ""), f"a slow disk keeps both: {ran}")


# --- signals, sleep, log, commands ------------------------------------------------------------


def switches(pid: int) -> Optional[int]:
    """How often a process has slept, where the system tells."""
    status = pathlib.Path(f"/proc/{pid}/status")
    if not status.exists():
        return None
    return next(int(line.split()[1]) for line in status.read_text().splitlines() if line.startswith("voluntary_ctxt_switches"))


def check_sleep(tools: Tools, checks: Checks):
    """It sleeps while nothing comes: idle, and with a frame open, for whose pause it wakes once."""
    with Line() as line, Encoder(tools, tools.folder / "sleep.board", "--rate", "600", port=line.name) as encoder:
        line.ask(MEMORY_STATUS, 5)
        before = switches(encoder.process.pid)
        time.sleep(0.4)
        idle = switches(encoder.process.pid)
        line.send(b"\x40")
        time.sleep(0.4)
        after = switches(encoder.process.pid)
    if before is not None:
        checks.check(idle - before <= 1 and after - idle <= 4, f"slept {idle - before} times idle, {after - idle} times for a frame")


def check_signals(tools: Tools, checks: Checks):
    """Each ends it, inside a frame too; one that was ignored when it began stays so."""
    for number in (signal.SIGINT, signal.SIGTERM, signal.SIGHUP):
        with Line() as line, Encoder(tools, tools.folder / "signals.board", port=line.name) as encoder:
            line.send(b"\x40\x4e")
            time.sleep(0.02)
            ran = encoder.end(number)
            checks.check(ran == (DONE, "", ""), f"ended by signal {number}: {ran}")
    ignored = {"preexec_fn": lambda: signal.signal(signal.SIGINT, signal.SIG_IGN)}
    with Line() as line, Encoder(tools, tools.folder / "signals.board", port=line.name, **ignored) as encoder:
        encoder.process.send_signal(signal.SIGINT)
        reply = line.ask(MEMORY_STATUS, 5)
        ran = encoder.end()
        checks.check(reply == sealed(0x40, 0x4E, 0x70, 0x00) and ran == (DONE, "", ""), f"a signal that is ignored: {bytes_told(reply)}, {ran}")


COMMANDS = (
    ("position 4294967295", "position 4294967295", ""),
    ("position 0x10", "position 16", ""),
    ("position -1", "", "encoder: a position is 0 to 4294967295, not '-1'\n"),
    ("position", "", "encoder: no command: 'position'; there are position N, fault CODE and power-on\n"),
    ("fault 1E", "fault 1Eh", ""),
    ("fault 100", "", "encoder: a fault code is a byte in hex, not '100'\n"),
    ("", "", ""),
    ("power-on", "power-on", ""),
    ("power-on now", "", "encoder: no command: 'power-on now'; there are position N, fault CODE and power-on\n"),
    ("x" * 200, "", "encoder: a line of commands has at most 79 letters\n"),
    ("position 3\r", "position 3", ""),
)


def check_commands(tools: Tools, checks: Checks):
    with Line() as line:
        with Encoder(tools, tools.folder / "told.board", port=line.name) as encoder:
            encoder.process.stdin.write("".join(command + "\n" for command, _, _ in COMMANDS) + "fault 05")
            encoder.process.stdin.close()
            encoder.process.stdin = None
            time.sleep(0.1)
            reply = line.ask(sealed(0x40, 0x42), 7)
            checks.check(reply == sealed(0x40, 0x42, 0, 0, 0, 3), f"the position that the commands left: {bytes_told(reply)}")
            ran = encoder.end()
        out = "".join(told + "\n" for _, told, _ in COMMANDS if told)
        checks.check(ran == (DONE, out, "".join(err for _, _, err in COMMANDS)), f"commands: {ran}")


def check_flood(tools: Tools, checks: Checks):
    """Commands without an end do not keep it from answering."""
    with Line() as line:
        flood = subprocess.Popen(["yes", "position 5"], stdout=subprocess.PIPE)
        command = [tools.path("encoder"), line.name, str(tools.folder / "flood.board")]
        encoder = subprocess.Popen(command, stdin=flood.stdout, stdout=subprocess.DEVNULL)
        time.sleep(0.1)
        reply = line.ask(sealed(0x40, 0x42), 7)
        checks.check(reply == sealed(0x40, 0x42, 0, 0, 0, 5), f"under a flood of commands: {bytes_told(reply)}")
        encoder.terminate()
        checks.check(encoder.wait(TIMEOUT) == DONE, "it ends under a flood of commands")
        flood.kill()
        flood.wait()
        flood.stdout.close()


def check_unheard(tools: Tools, checks: Checks):
    """Nobody reads what it tells: it drops that, answers, and ends by a signal. A log that nobody reads is refused."""
    with Line() as line, Encoder(tools, tools.folder / "unheard.board", port=line.name) as encoder:
        encoder.process.stdin.write("position 5\n" * 8000 + "fly\n" * 4000)
        encoder.process.stdin.flush()
        reply = line.ask(sealed(0x40, 0x42), 7)
        checks.check(reply == sealed(0x40, 0x42, 0, 0, 0, 5), f"while nobody reads: {bytes_told(reply)}")
        encoder.process.send_signal(signal.SIGTERM)
        checks.check(encoder.process.wait(TIMEOUT) == DONE, "it ends while nobody reads")
    with Line() as line, Encoder(tools, tools.folder / "unheard.board", port=line.name) as encoder:
        encoder.process.stdout.close()
        encoder.process.stdin.write("position 6\n")
        encoder.process.stdin.flush()
        reply = line.ask(sealed(0x40, 0x42), 7)
        encoder.process.send_signal(signal.SIGTERM)
        checks.check(encoder.process.wait(TIMEOUT) == DONE and reply[5:6] == b"\x06", f"nobody listens any more: {bytes_told(reply)}")
        encoder.process.stdout = None
    pipe = tools.folder / "pipe"
    os.mkfifo(pipe)
    refused(tools, checks, tools.folder / "unheard.board", f"{pipe}: No such device or address", "--log", str(pipe))


def check_log(tools: Tools, checks: Checks):
    """Both directions, as explain.py reads them; a second run goes on in the same file."""
    log = tools.folder / "line.log"
    for _ in range(2):
        with Line() as line, Encoder(tools, tools.folder / "log.board", "--log", str(log), port=line.name) as encoder:
            for frame, length in ((MEMORY_STATUS, 5), (sealed(0x40, 0x4C, 0x00), 4), (sealed(0x41, 0x4E), 0), (sealed(0x40, 0x53), 0), (sealed(0x40, 0x47), 3)):
                line.ask(frame, length or 1, 5 if length else STILL)
            line.send(b"\x40\x4e")
            time.sleep(STILL)
            encoder.end()
    expected = ["> 40 4E 0E", "< 40 4E 70 00 7E", "> 40 4C 00 0C", "< 40 50 12 02", "> 41 4E 0F", "> 40 53 13", "> 40 47 07", "< 40 47 07", "> 40 4E"] * 2
    times, told = zip(*[text.split(" ticks ") for text in log.read_text().splitlines()])
    checks.check(list(told) == expected, f"the log: {told}")
    for run in (times[: len(times) // 2], times[len(times) // 2 :]):
        checks.check(list(run) == sorted(run, key=int), f"the log's times go back: {run}")
    explain = subprocess.run([sys.executable, str(ROOT / "tools" / "explain.py"), "--log", str(log)], capture_output=True, text=True, check=False)
    summary = "summary: 12 frames, 6 replies, 2 errors, 6 silences, 0 wrong or missing replies, 0 bad lines, 0 failed expectations"
    checks.check(explain.returncode == 0 and explain.stdout.splitlines()[-1] == summary, f"explain.py of the log: {explain.stdout[-300:]} {explain.stderr}")
    refused(tools, checks, tools.folder / "log.board", "/nowhere/line.log: No such file or directory", "--log", "/nowhere/line.log")
    if os.path.exists("/dev/full"):
        with Line() as line, Encoder(tools, tools.folder / "log.board", "--log", "/dev/full", port=line.name) as encoder:
            first, second = line.ask(MEMORY_STATUS, 5), line.ask(MEMORY_STATUS, 5)
            ran = encoder.end()
        checks.check(first == second != b"" and ran == (DONE, "", "encoder: /dev/full: No space left on device; nothing more is logged\n"), f"a full log: {ran}")


# --- the port ---------------------------------------------------------------------------------


def check_pulled(tools: Tools, checks: Checks):
    """The cable is pulled while idle, inside a request, behind it, and behind the reply."""
    file = keeping.put(tools.folder / "pulled.board", keeping.board(counter=5))
    for length in range(5):
        line = Line()
        with Encoder(tools, file, port=line.name) as encoder:
            line.ask(MEMORY_STATUS, 5)
            line.send(sealed(0x40, 0x47)[: min(length, 3)])
            if length == 4:
                hear(line.fd, 3, 5)
            name = line.name
            line.pull()
            ran = encoder.ended()
        told = ran.err.startswith(f"encoder: {name}: the port is gone") and ran.err.count("\n") == 1
        checks.check(ran.status == PORT_FAULT and ran.out == "" and told, f"pulled at {length}: {ran}")
        kept = keeping.read(file).counter
        checks.check(kept in ((5,) if length < 3 else (5, 6) if length == 3 else (6, 7)), f"pulled at {length}: counter {kept}")


BAD_LINES = (
    ("", "wants a port, or --pty, and a file; --help has more"),
    ("FILE", "wants a port, or --pty, and a file; --help has more"),
    ("--pty", "wants a port, or --pty, and a file; --help has more"),
    ("--pty PORT FILE", "wants a port, or --pty, and a file; --help has more"),
    ("PORT FILE --total 0", "--total is 1 to 112, not '0'"),
    ("PORT FILE --total 113", "--total is 1 to 112, not '113'"),
    ("PORT FILE --bits 33", "--bits is 1 to 32, not '33'"),
    ("PORT FILE --bits 0x", "--bits is 1 to 32, not '0x'"),
    ("PORT FILE --address 32", "--address is 0 to 31, not '32'"),
    ("PORT FILE --serial 0123456789", "--serial has at most 9 letters, not '0123456789'"),
    ("PORT FILE --position 4294967296", "--position is 0 to 4294967295, not '4294967296'"),
    ("PORT FILE --rate 115200", "--rate is 600, 1200, 2400, 4800, 9600, 19200 or 38400, not '115200'"),
    ("PORT FILE --pause 11", "--pause is 22 or 55, not '11'"),
    ("PORT FILE --log", "--log wants a value; --help has it"),
    ("PORT FILE --fast", "there is no option --fast; --help lists them"),
    ("--pty --pty FILE", "--pty stands twice"),
)


def check_bad_use(tools: Tools, checks: Checks):
    file = tools.folder / "bad-use.board"
    with Line() as line:
        for words, told in BAD_LINES:
            named = {"PORT": line.name, "FILE": str(file)}
            ran = tools.run("encoder", *[named.get(word, word) for word in words.split()])
            checks.check(ran == (COMMAND_LINE, "", f"encoder: {told}\n"), f"encoder {words}: {ran}")
    for port, why in (("/nowhere", "No such file or directory"), ("/dev/null", "not a serial port"), ("/", "Is a directory")):
        ran = tools.run("encoder", port, str(file))
        checks.check(ran == (PORT_FAULT, "", f"encoder: {port}: {why}\n"), f"encoder at {port}: {ran}")
    ran = tools.run("encoder", "--pty", str(file), "--rs485")
    checks.check(ran == (PORT_FAULT, "", "encoder: --rs485 is for a serial port\n"), f"--rs485 with --pty: {ran}")
    checks.check(not file.exists(), "a bad command line or port makes no file")


def test(tools: Tools, checks: Checks, shim: str):
    check_tapes(tools, checks)
    check_delivery(tools, checks)
    check_stamps(tools, checks)
    check_frames(tools, checks)
    check_faulty(tools, checks, shim)
    check_file(tools, checks)
    check_order(tools, checks, shim)
    check_new_file(tools, checks, shim)
    check_names(tools, checks)
    check_full(tools, checks)
    check_slow(tools, checks, shim)
    check_sleep(tools, checks)
    check_signals(tools, checks)
    check_commands(tools, checks)
    check_flood(tools, checks)
    check_unheard(tools, checks)
    check_log(tools, checks)
    check_pulled(tools, checks)
    check_bad_use(tools, checks)
