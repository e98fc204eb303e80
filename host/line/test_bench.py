"""bench against encoder: every command and error, its words and exit status; a line that spoils requests; boards that answer wrongly or not at all; two encoders on
one wire; a cable that is pulled; bad command lines and ports."""

import os
import subprocess
import threading
import time
from typing import List, Tuple

from rig import COMMAND_LINE, DONE, ERROR_CODE, FILE_FAULT, PORT_FAULT, REFUSED, SILENCE, TIMEOUT, Checks, Encoder, Line, Tools, Wire, hear, sealed
from commands import BY_NAME, CODES, WRONG_ARGUMENT, WRONG_ARGUMENTS, error_words

WARNING = "warning: a fault code waits on the board\n"
C1 = "status C1h (exists, write-enabled, no code wanted, code number 0, 2 blocks)"
D8 = "status D8h (exists, write-enabled, code wanted, code number 1, 1 block)"
WRONG_CODE = "error 0Fh wrong access code (not the code that is wanted)\n"
NO_FIELD = "error 12h wrong field number (no such field)\n"
NO_ROOM = "error 10h out of memory (the blocks are not there, or the field is not the last)\n"
LOCKED = "error 02h angular offset wrong (the position is locked)\n"
UNSOUND = "error 03h field table destroyed (the status table is unsound)\n"

# On a new board of 8 blocks and 24 position bits, one after the other: the command line, and what bench prints; an error ends in 1, all else in 0.
SESSION = (
    ("memory-status", "free blocks 8, fields 0\n"),
    ("create-field 0 C1", f"field 0, {C1}\n"),
    ("create-data-field 1 D8", f"field 1, {D8}\n"),
    ("memory-status --raw", "> 40 4E 0E\n< 40 4E 05 02 09\n"),
    ("field-status 0", f"field 0, {C1}\n"),
    ("data-field-status 1", f"field 1, {D8}\n"),
    ("field-status 2", NO_FIELD),
    ("store-field 0 0 53 4E 2034", "field 0, offset 0, count 4\n"),
    ("store-data 0 30 FF00", "field 0, offset 30, count 2\n"),
    (
        "read-field 0 0 32",
        "field 0, offset 0, count 32\n"
        "      0  53 4E 20 34 00 00 00 00 00 00 00 00 00 00 00 00  SN 4............\n"
        "     16  00 00 00 00 00 00 00 00 00 00 00 00 00 00 FF 00  ................\n",
    ),
    ("read-data 0 30 2 --code 00", "field 0, offset 30, count 2\n     30  FF 00                                            ..\n"),
    ("read-field 0 30 3", "error 11h wrong field offset (offset + count exceeds the field)\n"),
    ("store-field 0 31 0102", "error 11h wrong field offset (offset + count exceeds the field)\n"),
    ("read-field 7 0 1", NO_FIELD),
    ("read-field 1 0 1 --code 54", WRONG_CODE),
    ("store-field 1 0 00 --code 54", WRONG_CODE),
    ("read-field 1 0 1 --raw --code 54", "> 40 4A 01 00 01 54 5E\n< 40 50 0F 1F\n"),
    ("store-field 1 0 --code 55h --text", "AB C", "field 1, offset 0, count 4\n"),
    ("create-field 1 98", "field 1, status 98h (exists, read-only, code wanted, code number 1, 1 block)\n"),
    ("store-field 1 0 00", "error 0Eh read-only field (the field may not be written)\n"),
    ("create-field 1 58", "error 0Dh wrong argument (a deletion whose bits 0 to 6 are not those of the stored status)\n"),
    ("create-field 0 41", NO_ROOM),
    ("create-field 1 9D", f"field 1, status 9Dh (exists, read-only, code wanted, code number 1, 6 blocks)\n"),
    ("create-field 1 9E", NO_ROOM),
    ("create-field 1 9D --code 0", WRONG_CODE),
    ("create-field 9 C0", NO_FIELD),
    ("create-field 1 1D", "field 1, status 1Dh (does not exist, read-only, code wanted, code number 1, 6 blocks)\n"),
    ("set-access-code 2 55 A7", "code number 2\n"),
    ("set-access-code 2 55 00", WRONG_CODE),
    ("create-field 1 E0 --code a7", "field 1, status E0h (exists, write-enabled, no code wanted, code number 2, 1 block)\n"),
    ("increment-counter", "done\n"),
    ("increment-counter", "done\n"),
    ("read-counter", "counter 2\n"),
    ("reset-counter --code 0x54", WRONG_CODE),
    ("reset-counter", "done\n"),
    ("read-counter", "counter 0\n"),
    ("set-position 16777216", "error 0Dh wrong argument (the position is beyond the position bits)\n"),
    ("set-position 0xFFFFFF --code 1", WRONG_CODE),
    ("set-position 4711", "done\n"),
    ("read-position", "position 4711\n"),
    ("read-encoder-status", "no code waits\n"),
    ("read-type-label", "interface E4h (9600 baud, 8 data bits, even parity, timeout 55 bit times, standard slave), encoder type 07h, "
     "memory size 24 blocks (384 bytes), option code 00h\n"),
    ("read-version", 'serial number "VIRTUAL01", version "encoder VERSION", date "16.11.26"\n'),
    ("set-encoder-address 5 --code 54", WRONG_CODE),
    ("set-encoder-address 5", "done\n"),
    ("memory-status --address 5", "free blocks 5, fields 2\n"),
    ("memory-status --address all", "free blocks 5, fields 2\n"),
    ("set-encoder-address 0 --address 5", "done\n"),
    ("encoder-reset", "sent; 53h has no reply\n"),
    ("memory-status", "free blocks 5, fields 2\n"),
)

SURVEY = f"""interface E4h (9600 baud, 8 data bits, even parity, timeout 55 bit times, standard slave), encoder type 07h, memory size 24 blocks (384 bytes), option code 00h
serial number "QS4711", version "encoder VERSION", date "16.11.26"
position 9
counter 1
free blocks 5, fields 2
field 0, {C1}
      0  53 4E 20 34 37 31 31 00 00 00 00 00 00 00 00 00  SN 4711.........
     16  00 00 00 00 00 00 00 00 00 00 00 00 00 00 00 00  ................
field 1, {D8}
    bytes: error 0Fh wrong access code (not the code that is wanted)
oldest waiting code 06h internal checksum error
oldest waiting code 1Eh temperature critical
"""

# What a board answers that is wrong, to a request for the status of field 0 (40 4C 00 0C): how bench tells it.
WRONG_REPLIES = (
    (b"\x40", "refused B1: no reply came, or a scrap of one\n"),
    (sealed(0x40, 0x4C, 0x00, 0xC1)[:-1] + b"\x00", "refused B2: the reply's checksum is wrong\n"),
    (sealed(0x41, 0x4C, 0x00, 0xC1), "refused B3: the reply comes from another address\n"),
    (sealed(0x40, 0x4D, 0x00, 0xC1), "refused B4: the reply answers another command\n"),
    (sealed(0x40, 0x4C, 0x00, 0xC1)[:-1], "refused B2: the reply's checksum is wrong\n"),
    (sealed(0x40, 0x4C, 0x00), "refused B5: the reply is not as long as it should be\n"),
    (sealed(0x40, 0x4C, 0x01, 0xC1), "refused B6: the reply names another field, offset, count, code number or status\n"),
)

# What bench never writes, but a bad line may make of it: the request, the frame that the board hears instead, and how bench tells its answer.
SPOILED = (
    ("memory-status", b"\x40\x4e\x0f", "error 0Ah checksum error (the frame's last byte is not its checksum)\n"),
    ("memory-status", sealed(0x40, 0x44), "error 0Bh unknown command (the board does not have this command)\n"),
    ("memory-status", sealed(0x40, 0x4E, 0x00), "error 0Ch wrong command length (frame or data of the wrong length)\n"),
    ("encoder-reset", sealed(0x40, 0x53, 0x00), "error 0Ch wrong command length (frame or data of the wrong length)\n"),
    ("read-field 0 0 1", sealed(0x40, 0x4A, 0, 0, 0, 0x55), "error 0Dh wrong argument (the count is 0 or over 128)\n"),
    ("set-access-code 3 55 55", sealed(0x40, 0x4F, 4, 0x55, 0x55), "error 0Dh wrong argument (the code number is over 3)\n"),
    ("set-encoder-address 5", sealed(0x40, 0x55, 0x60, 0x55), "error 0Dh wrong argument (the new address byte is not 40h to 5Fh)\n"),
)
PARITY = "error 09h parity error (a character had a parity fault)\n"

BAD_LINES = (
    ("", "wants a port and a request; --help lists them"),
    ("PORT", "wants a port and a request; --help lists them"),
    ("PORT fly", "there is no request 'fly'; --help lists them"),
    ("PORT memory-status 1", "memory-status takes no more than that: '1'"),
    ("PORT read-field 0 0", "the count is missing"),
    ("PORT read-field 0 256 1", "the offset is 0 to 255, not '256'"),
    ("PORT read-field x 0 1", "the field is 0 to 255, not 'x'"),
    ("PORT read-field 0 0 0", "read-data: no such request: a count is 1 to 128, a code number 0 to 3"),
    ("PORT read-field 0 0 129", "read-data: no such request: a count is 1 to 128, a code number 0 to 3"),
    ("PORT set-access-code 4 55 55", "set-access-code: no such request: a count is 1 to 128, a code number 0 to 3"),
    ("PORT store-field 0 0", "store-data: no such request: a count is 1 to 128, a code number 0 to 3"),
    ("PORT store-field 0 0 0", "what is stored is pairs of hex digits, not '0'"),
    ("PORT store-field 0 0 " + "00" * 129, "what is stored has at most 128 bytes"),
    ("PORT store-field 0 0 00 --text A", "bytes or --text, not both: '00'"),
    ("PORT store-field 0 0 --text " + "A" * 129, "--text has at most 128 bytes"),
    ("PORT memory-status --text A", "--text is for store-field"),
    ("PORT create-field 0 1C1", "the status is a byte in hex, not '1C1'"),
    ("PORT create-field 0 G0", "the status is a byte in hex, not 'G0'"),
    ("PORT set-position -1", "the position is 0 to 4294967295, not '-1'"),
    ("PORT set-position 4294967296", "the position is 0 to 4294967295, not '4294967296'"),
    ("PORT set-encoder-address 32", "the new address is 0 to 31, not '32'"),
    ("PORT memory-status --address 32", "--address is 0 to 31, not '32'"),
    ("PORT memory-status --code", "--code wants a value; --help has it"),
    ("PORT memory-status --code 155", "--code is a byte in hex, not '155'"),
    ("PORT memory-status --code 55 --code 55", "--code stands twice"),
    ("PORT memory-status --rate 9601", "--rate is 600, 1200, 2400, 4800, 9600, 19200 or 38400, not '9601'"),
    ("PORT memory-status --pause 44", "--pause is 22 or 55, not '44'"),
    ("PORT memory-status --patience 10001", "--patience is 0 to 10000, not '10001'"),
    ("PORT memory-status --echo maybe", "--echo is on or off, not 'maybe'"),
    ("PORT memory-status --quick", "there is no option --quick; --help lists them"),
    ("PORT survey 1", "a survey takes no arguments, no --raw and no --text"),
    ("PORT survey --raw", "a survey takes no arguments, no --raw and no --text"),
    ("PORT survey --codes 5555", "--codes are four, not '5555'"),
    ("PORT survey --codes 5555555555", "--codes has at most 4 bytes"),
)


class Bench:
    """bench at a port, each call checked."""

    told: List[Tuple[str, str]] = []  # by all of them: the request's name, and what bench printed

    def __init__(self, tools: Tools, checks: Checks, port: str, *options: str):
        self.tools = tools
        self.checks = checks
        self.port = port
        self.options = options

    def says(self, words: str, out: str, status: int, last: str = ""):
        arguments = [self.port, *words.split(), *([last] if last else []), *self.options]
        ran = self.tools.run("bench", *arguments)
        self.checks.check(ran == (status, out, ""), f"bench {words} {last}: {ran}")
        self.told.append((words.split()[0], ran.out))


def status_of(out: str) -> int:
    return ERROR_CODE if out.startswith("error") or "< 40 50 0F" in out else DONE


def check_commands(tools: Tools, checks: Checks, version: str):
    with Encoder(tools, tools.folder / "commands.board", "--total", "8") as encoder:
        bench = Bench(tools, checks, encoder.port)
        for words, *more in SESSION:
            bench.says(words, more[-1].replace("VERSION", version), status_of(more[-1]), more[0] if len(more) == 2 else "")
        check_locked(encoder, bench)
        ran = encoder.end()
        checks.check(ran == (DONE, "", ""), f"encoder at the end of the commands: {ran}")


def check_locked(encoder: Encoder, bench: Bench):
    """Faults that wait and faults that lock, by the encoder's commands; power-on takes both away."""
    bench.checks.check(encoder.command("fault 22") == "fault 22h", "a fault is told")
    bench.says("read-position", LOCKED, ERROR_CODE)
    bench.says("set-position 0", LOCKED, ERROR_CODE)
    bench.checks.check(encoder.command("fault 1E") == "fault 1Eh", "a fault is told")
    bench.says("memory-status", "free blocks 5, fields 2\n" + WARNING, DONE)
    bench.says("read-position", LOCKED + WARNING, ERROR_CODE)
    bench.says("read-position --raw", "> 40 42 02\n< 40 D0 02 92\n", ERROR_CODE)
    bench.says("read-encoder-status", "oldest waiting code 1Eh temperature critical\n", DONE)
    bench.checks.check(encoder.command("position 7") == "position 7", "a position is told")
    bench.checks.check(encoder.command("power-on") == "power-on", "power-on is told")
    bench.says("read-position", "position 4718\n", DONE)


def check_survey(tools: Tools, checks: Checks, version: str):
    expected = SURVEY.replace("VERSION", version)
    with Encoder(tools, tools.folder / "survey.board", "--total", "8", "--serial", "QS4711", "--position", "9") as encoder:
        bench = Bench(tools, checks, encoder.port)
        bench.says("create-field 0 C1", f"field 0, {C1}\n", DONE)
        bench.says("create-field 1 D8", f"field 1, {D8}\n", DONE)
        bench.says("store-field 0 0 --text", "field 0, offset 0, count 7\n", DONE, "SN 4711")
        bench.says("increment-counter", "done\n", DONE)
        bench.says("set-access-code 1 55 66", "code number 1\n", DONE)
        encoder.command("fault 06")
        encoder.command("fault 1E")
        bench.says("survey", expected, DONE)
        opened = expected.replace("    bytes: error 0Fh wrong access code (not the code that is wanted)", "      0" + "  00" + " 00" * 15 + "  " + "." * 16)
        opened = opened[: opened.index("oldest")] + "no code waits\n"
        encoder.command("fault 22")
        opened = opened.replace("position 9\n", "position: " + LOCKED)
        bench.says("survey --codes", opened, DONE, "55 66 55 55")
    ran = tools.run("bench", encoder.port, "survey")
    checks.check(ran.status == PORT_FAULT and ran.out == "" and ran.err.count("\n") == 1, f"a survey without a board: {ran}")


def check_unsound(tools: Tools, checks: Checks):
    """A board whose status table is unsound, and one whose counter is about to go round."""
    import keeping

    unsound = keeping.board(total=8, memory=bytes(8 * 16) + bytes([0, 0xC0]) + bytes(6))
    with Encoder(tools, keeping.put(tools.folder / "unsound.board", unsound)) as encoder:
        bench = Bench(tools, checks, encoder.port)
        for words in ("memory-status", "field-status 0", "read-field 0 0 1", "store-field 0 0 00", "create-field 0 C0"):
            bench.says(words, UNSOUND, ERROR_CODE)
    last = keeping.board(total=8, counter=0xFFFFFF)
    with Encoder(tools, keeping.put(tools.folder / "last.board", last)) as encoder:
        bench = Bench(tools, checks, encoder.port)
        bench.says("read-counter", "counter 16777215\n", DONE)
        bench.says("increment-counter", "done\n" + WARNING, DONE)
        bench.says("read-counter", "counter 0\n" + WARNING, DONE)
        bench.says("read-encoder-status", "oldest waiting code 08h counter overflow\n", DONE)


def check_spoiled(tools: Tools, checks: Checks, shim: str):
    """The errors of a frame itself, and of arguments that bench does not write: the line spoils what it sends, a character's parity too."""
    heard = [b""]
    with Wire(2, passes=lambda sender, data: heard[0] if sender == 1 else data) as wire:
        bench = Bench(tools, checks, wire.name(1), "--patience", "40")
        with Encoder(tools, tools.folder / "spoiled.board", port=wire.name(0)) as encoder:
            heard[0] = sealed(0x40, 0x4D, 0x00, 0xC0, 0x55)
            bench.says("create-field 0 C0", "field 0, status C0h (exists, write-enabled, no code wanted, code number 0, 1 block)\n", DONE)
            for words, frame, out in SPOILED:
                heard[0] = frame
                bench.says(words, out, ERROR_CODE)
            ran = encoder.end()
            checks.check(ran == (DONE, "", ""), f"the encoder at a line that spoils: {ran}")
        faulty = {"LD_PRELOAD": shim, "SHIM_FAULTY": "2"}
        with Encoder(tools, tools.folder / "spoiled.board", port=wire.name(0), environment=faulty):
            heard[0] = sealed(0x40, 0x4E)
            bench.says("memory-status", PARITY, ERROR_CODE)
            bench.says("memory-status", "free blocks 111, fields 1\n", DONE)


def check_all_met(checks: Checks):
    """Of what bench was told by our board so far: no command is missing, no error code, no argument of which 0Dh speaks."""
    errors = [error_words(code) for code in CODES if CODES[code].answered and code != WRONG_ARGUMENT]
    errors += [error_words(WRONG_ARGUMENT, command) for command in WRONG_ARGUMENTS]
    asked = {name for name, _ in Bench.told}
    printed = {out.split("\n")[0] for _, out in Bench.told}
    checks.check(len(BY_NAME) == 16 and asked.issuperset(BY_NAME), f"commands that bench never asked: {set(BY_NAME) - asked}")
    missing = [error for error in errors if f"error {error}" not in printed]
    checks.check(len(errors) == 16 and not missing, f"errors that bench never met: {missing}")


def answering(line: Line, number: int, reply: bytes, then=None) -> threading.Thread:
    """A made-up board: hears so many bytes, answers, and does what follows."""

    def answer():
        hear(line.fd, number, 10)
        if reply:
            line.send(reply)
        if then:
            then()

    thread = threading.Thread(target=answer)
    thread.start()
    return thread


def check_wrong_replies(tools: Tools, checks: Checks):
    with Line() as line:
        bench = Bench(tools, checks, line.name)
        for reply, out in WRONG_REPLIES:
            board = answering(line, 4, reply)
            bench.says("field-status 0", out, REFUSED)
            board.join()
        for words, least in (("field-status 0", 0.06), ("increment-counter", 0.085), ("store-field 0 0 00", 0.305), ("memory-status --address 31 --patience 200", 0.26)):
            begun = time.monotonic()
            bench.says(words, "silence: no reply came\n", SILENCE)
            checks.check(least <= time.monotonic() - begun < least + 1.0, f"{words}: silence after {time.monotonic() - begun:.3f} s")
        bench.says("memory-status --raw", "> 40 4E 0E\n", SILENCE)
        hear(line.fd, 100, 0.1)
        board = answering(line, 3, sealed(0x40, 0x50, 0x0A))
        bench.says("encoder-reset", "error 0Ah checksum error (the frame's last byte is not its checksum)\n", ERROR_CODE)
        board.join()
        board = answering(line, 3, sealed(0x40, 0x50, 0xEE))
        bench.says("memory-status", "error EEh, a code without a name\n", ERROR_CODE)
        board.join()
        bench.says("survey", "type label: silence: no reply came\n", SILENCE)


def check_echo(tools: Tools, checks: Checks):
    """A port that hears itself: with --echo on the request's echo is dropped, also where the reply is the same; without it is no reply."""
    request = sealed(0x40, 0x47)
    with Line() as line:
        bench = Bench(tools, checks, line.name)
        board = answering(line, 3, request + request)
        bench.says("increment-counter --echo on", "done\n", DONE)
        board.join()
        board = answering(line, 3, request)
        bench.says("increment-counter --echo on", "silence: no reply came\n", SILENCE)
        board.join()
        board = answering(line, 3, request[:2] + b"\x50\x0a" + bytes([0x40 ^ 0x50 ^ 0x0A]))
        bench.says("increment-counter --echo on", "refused B2: the reply's checksum is wrong\n", REFUSED)
        board.join()


def check_reset(tools: Tools, checks: Checks):
    """Behind a reset the line is left alone for 100 ms."""
    with Encoder(tools, tools.folder / "reset.board") as encoder:
        begun = time.monotonic()
        Bench(tools, checks, encoder.port).says("encoder-reset", "sent; 53h has no reply\n", DONE)
        checks.check(time.monotonic() - begun >= 0.16, f"a reset took {time.monotonic() - begun:.3f} s")


def check_serial(tools: Tools, checks: Checks, shim: str):
    """A pty that passes for a serial port, on a wire that brings back what is sent: the echo is known by its time. At 600 baud a UART's patience is 110 ms."""
    serial = {"LD_PRELOAD": shim, "SHIM_SERIAL": "1"}
    rate = ("--rate", "600")
    for echo in (True, False):
        file = tools.folder / f"serial-{echo}.board"
        with Wire(2, echo, baud=600) as wire, Encoder(tools, file, *rate, port=wire.name(0), environment=serial) as encoder:
            for words, out in (("increment-counter", "done\n"), ("read-counter", "counter 1\n"), ("increment-counter", "done\n"), ("read-counter", "counter 2\n")):
                ran = tools.run("bench", wire.name(1), words, *rate, environment=serial)
                checks.check(ran == (DONE, out, ""), f"a serial port, echo {echo}: {words}: {ran}")
            ran = encoder.end()
            checks.check(ran == (DONE, "", ""), f"the encoder at a serial port: {ran}")


def check_noise(tools: Tools, checks: Checks):
    """A board that answers too late does not spoil the next request; a line on which somebody always speaks is told."""
    with Line() as line:
        bench = Bench(tools, checks, line.name)
        late = threading.Timer(0.03, lambda: line.send(sealed(0x40, 0x4E, 0x01, 0x02)))
        late.start()
        board = answering(line, 3, sealed(0x40, 0x4E, 0x70, 0x00))
        bench.says("memory-status --patience 60", "free blocks 112, fields 0\n", DONE)
        board.join()
        late.join()
        talking = threading.Event()

        def talk():
            while not talking.wait(0.005):
                line.send(b"\x41")

        talker = threading.Thread(target=talk)
        talker.start()
        ran = tools.run("bench", line.name, "memory-status", "--rate", "600")
        talking.set()
        talker.join()
        told = f"bench: {line.name}: somebody else speaks on the line all the time\n"
        checks.check(ran == (PORT_FAULT, "", told), f"a line that is never still: {ran}")


def check_two_boards(tools: Tools, checks: Checks, echo: bool):
    """Two encoders and a bench on one wire, which hear each other and, with an echo, themselves."""
    heard = ("--echo", "on") if echo else ()
    name = "echo" if echo else "quiet"
    files = [tools.folder / f"{name}-{place}.board" for place in (0, 1)]
    with Wire(3, echo) as wire:
        boards = [Encoder(tools, files[place], "--total", str(8 + place), "--address", str(place), *heard, port=wire.name(place)) for place in (0, 1)]
        bench = Bench(tools, checks, wire.name(2), "--patience", "40", *heard)
        bench.says("memory-status --address 0", "free blocks 8, fields 0\n", DONE)
        bench.says("memory-status --address 1", "free blocks 9, fields 0\n", DONE)
        bench.says("memory-status --address 2", "silence: no reply came\n", SILENCE)
        bench.says("create-field 0 C1 --address 1", f"field 0, {C1}\n", DONE)
        bench.says("increment-counter --address 0", "done\n", DONE)
        bench.says("increment-counter --address 0", "done\n", DONE)
        bench.says("read-counter --address 0", "counter 2\n", DONE)
        bench.says("read-counter --address 1", "counter 0\n", DONE)
        bench.says("set-encoder-address 7 --address 1", "done\n", DONE)
        bench.says("memory-status --address 1", "silence: no reply came\n", SILENCE)
        bench.says("memory-status --address 7", "free blocks 7, fields 1\n", DONE)
        bench.says("memory-status --address 0", "free blocks 8, fields 0\n", DONE)
        for board in boards:
            ran = board.end()
            checks.check(ran == (DONE, "", ""), f"a board of two: {ran}")


def check_pulled(tools: Tools, checks: Checks):
    """The cable is pulled at each stage: before, inside the request's way, at each byte of the reply."""
    reply = sealed(0x40, 0x4E, 0x70, 0x00)
    for length in range(len(reply) + 1):
        line = Line()
        board = answering(line, 3, reply[:length], line.pull)
        ran = tools.run("bench", line.name, "memory-status")
        board.join()
        told = ran.err.startswith(f"bench: {line.name}: the port is gone") and ran.err.count("\n") == 1
        whole = length == len(reply) and ran == (DONE, "free blocks 112, fields 0\n", "")
        checks.check(whole or (ran.status == PORT_FAULT and ran.out == "" and told), f"pulled after {length} bytes of the reply: {ran}")
    ran = tools.run("bench", line.name, "memory-status")
    checks.check(ran == (PORT_FAULT, "", f"bench: {line.name}: No such file or directory\n"), f"pulled before: {ran}")


def check_bad_use(tools: Tools, checks: Checks):
    with Line() as line:
        for words, told in BAD_LINES:
            ran = tools.run("bench", *[line.name if word == "PORT" else word for word in words.split()])
            checks.check(ran == (COMMAND_LINE, "", f"bench: {told}\n"), f"bench {words}: {ran}")
        sent = hear(line.fd, 1, 0.05)
        checks.check(sent == b"", "a bad command line sends nothing")
        ran = tools.run("bench", line.name, "memory-status", "--rs485")
        checks.check(ran.status == PORT_FAULT and ran.out == "" and ran.err.startswith(f"bench: {line.name}: --rs485: "), f"--rs485 on a pty: {ran}")
    for port, why in (("/nowhere", "No such file or directory"), ("/dev/null", "not a serial port"), ("/", "Is a directory"), ("", "No such file or directory")):
        ran = tools.run("bench", port, "memory-status")
        checks.check(ran == (PORT_FAULT, "", f"bench: {port}: {why}\n"), f"bench at {port}: {ran}")
    if os.path.exists("/dev/full"):
        with Encoder(tools, tools.folder / "full.board") as encoder:
            with open("/dev/full", "wb") as full:
                command = [tools.path("bench"), encoder.port, "memory-status"]
                ran = subprocess.run(command, stdout=full, stderr=subprocess.PIPE, text=True, timeout=TIMEOUT, check=False)
        checks.check((ran.returncode, ran.stderr) == (FILE_FAULT, "bench: standard output cannot be written\n"), f"standard output that takes nothing: {ran}")


def test(tools: Tools, checks: Checks, version: str, shim: str):
    check_commands(tools, checks, version)
    check_survey(tools, checks, version)
    check_unsound(tools, checks)
    check_spoiled(tools, checks, shim)
    check_all_met(checks)
    check_wrong_replies(tools, checks)
    check_echo(tools, checks)
    check_reset(tools, checks)
    check_serial(tools, checks, shim)
    check_noise(tools, checks)
    check_two_boards(tools, checks, echo=False)
    check_two_boards(tools, checks, echo=True)
    check_pulled(tools, checks)
    check_bad_use(tools, checks)
