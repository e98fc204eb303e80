"""The bare board in the emulator, over its serial line: every command by bench, the shop's program, power cuts between any two steps of the flash, kills at random moments,
damage, a flash that does not take what is written, and noise."""

import os
import pathlib
import random
import subprocess
import sys
import time
import zlib
from typing import Dict, List, NamedTuple, Tuple

HERE = pathlib.Path(__file__).resolve().parent
ROOT = HERE.parent.parent
sys.path[:0] = [str(HERE.parent), str(ROOT / "host" / "line"), str(ROOT / "tools")]

import test_kill  # noqa: E402
from arm import MACHINES, Bare, functions_of  # noqa: E402
from commands import BY_NAME  # noqa: E402
from emulate import PC, Board, Port, blank_flash, flash_of, started  # noqa: E402
from rig import DONE, ERROR_CODE, Checks, Tools, bytes_told, hear, sealed  # noqa: E402
from test_bench import SESSION  # noqa: E402

PAGE = 2048
SLOW = "-DTICKS_A_BIT=16"  # 2400 baud: a pause of 23 ms, which a busy machine does not make of two characters that belong together
RATE = ("--rate", "2400", "--patience", "50")
ANSWER = 2.0  # seconds for a reply, which a busy machine may need
PAUSE_BITS = 55
STILL = PAUSE_BITS / 2400
FLASH_FAULT = 0x06

INTERFACE = "interface E4h (9600 baud, 8 data bits, even parity, timeout 55 bit times, standard slave), encoder type 07h, "
# What the bare board tells otherwise than the encoder, for which the session was written.
OWN_WORDS = {
    "read-type-label": INTERFACE + "memory size 128 blocks (2048 bytes), option code 00h\n",
    "read-version": 'serial number "BARE00001", version "firmware 1.0", date "17.11.26"\n',
}


class Serial:
    """A master's end of the board's line."""

    def __init__(self, board: Board):
        self.fd = board.line.fileno()

    def send(self, data: bytes):
        """As bench does, when nobody has spoken for the pause. The emulated line takes no time: on a real one the board's last character would end, and the frame's first."""
        time.sleep(STILL)
        try:
            os.write(self.fd, data)
        except BrokenPipeError:  # the board was killed: nobody hears it
            pass

    def hear(self, number: int, seconds: float = ANSWER) -> bytes:
        return hear(self.fd, number, seconds)

    def ask(self, frame: bytes, number: int, seconds: float = ANSWER) -> bytes:
        self.send(frame)
        return self.hear(number, seconds)


class Firmware(NamedTuple):
    """A build of the firmware, where its functions are, and the machine that runs it."""

    elf: str
    places: Dict[str, int]
    machine: str


def running(firmware: Firmware, flash: pathlib.Path) -> Board:
    board = started(firmware.elf, flash, firmware.machine)
    board.debugger.go()
    return board


class Bench:
    """What the tests need: the libraries for Arm, the host's programs, a folder."""

    def __init__(self, libraries: pathlib.Path, tools: Tools, folder: pathlib.Path, checks: Checks):
        self.libraries, self.tools, self.folder, self.checks = libraries, tools, folder, checks
        folder.mkdir(exist_ok=True)

    def firmware(self, core: str, *words: str) -> Firmware:
        """Built once for each core and set of words."""
        name = "-".join(["board", *[word.lstrip("-D").replace("=", "") for word in words]])
        bare = Bare(core, self.libraries, self.folder)
        elf = bare.work / f"{name}.elf"
        if not elf.exists():
            bare.board(name, *words)
        return Firmware(str(elf), functions_of(str(elf)), MACHINES[core])

    def flash(self, name: str) -> pathlib.Path:
        """A new board's."""
        path = self.folder / f"{name}.flash"
        path.unlink(missing_ok=True)
        return path


# --- every command ----------------------------------------------------------------------------


def check_session(bench: Bench):
    """bench at the board: the session that it has with the encoder, word for word."""
    bench.checks.check({line.split()[0] for line, *_ in SESSION}.issuperset(BY_NAME), "every command is asked")
    firmware = bench.firmware("cortex-m3", "-DTOTAL=8", SLOW)
    with running(firmware, bench.flash("session")) as board:
        port = Port(board)
        for line, *texts in SESSION:
            *text, said = texts
            said = OWN_WORDS.get(line, said)
            ran = bench.tools.run("bench", port.name, *RATE, *line.split(), *text)
            status = ERROR_CODE if said.startswith("error") or "< 40 50" in said else DONE
            bench.checks.check((ran.status, ran.out, ran.err) == (status, said, ""), f"bench {line}: {ran}, not {status} {said!r}")


def check_program(bench: Bench):
    """The shop's program puts a label onto the board, and bench reads it after a power cut."""
    firmware = bench.firmware("cortex-m0plus", SLOW)
    flash = bench.flash("program")
    with running(firmware, flash) as board:
        ran = bench.tools.run("program", Port(board).name, str(ROOT / "tools" / "labels" / "spindle.txt"), *RATE)
        bench.checks.check(ran.status == DONE and ran.out.endswith("done: the board holds 4 fields, 9 blocks\n"), f"program: {ran}")
    with running(firmware, flash) as board:
        port = Port(board).name
        for words, said in (("memory-status", "free blocks 103, fields 4\n"), ("read-field 0 0 16", "SPINDLE MOTOR SM\n"), ("store-field 2 0 00", "error 0Eh ")):
            ran = bench.tools.run("bench", port, *RATE, *words.split())
            bench.checks.check(said in ran.out, f"after program and a power cut: bench {words}: {ran}")


def check_pause(bench: Bench):
    """A reply never comes before the pause is over, by the clock of this machine, and among many one comes soon after; a gap of more than the pause makes two frames."""
    for words, baud in (((SLOW,), 2400), ((), 9600)):
        firmware = bench.firmware("cortex-m3", *words)
        with running(firmware, bench.flash("pause")) as board:
            line = Serial(board)
            waits = []
            for _ in range(20):
                time.sleep(STILL)
                begun = time.monotonic()
                os.write(line.fd, sealed(0xFF, 0x46))
                if line.hear(1):
                    waits.append(time.monotonic() - begun)
                line.hear(5)
            bench.checks.check(len(waits) > 10 and min(waits) >= PAUSE_BITS / baud, f"{baud} baud: a reply after {min(waits, default=0)} s")
            bench.checks.check(min(waits, default=9) < PAUSE_BITS / baud + 0.02, f"{baud} baud: no reply before {min(waits, default=9)} s")
            line.send(b"\x40")
            time.sleep(3 * PAUSE_BITS / baud)
            bench.checks.check(line.ask(b"\x46\x06", 1, 0.3) == b"", f"{baud} baud: two parts of a request are none")


def check_echo(bench: Bench):
    """On two wires the board hears itself. The reply to 47h is the request's own bytes: a board that took it would count for ever."""
    firmware = bench.firmware("cortex-m3", SLOW)
    with running(firmware, bench.flash("echo")) as board:
        line = Serial(board)
        for counted in range(1, 4):
            line.send(sealed(0x40, 0x47))
            for byte in sealed(0x40, 0x47):
                bench.checks.check(line.hear(1) == bytes([byte]), f"with an echo: a reply to request {counted}")
                os.write(line.fd, bytes([byte]))
            bench.checks.check(line.hear(1, 0.2) == b"", "the own reply is not answered")
            bench.checks.check(line.ask(sealed(0x40, 0x46), 6) == sealed(0x40, 0x46, 0, 0, counted), f"with an echo: it counted to {counted}")


# --- power cuts -------------------------------------------------------------------------------


def newer(flash: bytes) -> bytes:
    """The page that holds from its count on, by the layout that board/keep.c tells, written down once more; b"" if none is whole."""
    whole: List[Tuple[int, bytes]] = []
    for page in (flash[:PAGE], flash[PAGE:]):
        length = -(-(24 + 17 * page[8]) // 4) * 4
        if zlib.crc32(page[4:length]).to_bytes(4, "little") == page[length : length + 4]:
            whole.append((int.from_bytes(page[4:8], "little"), page[4:length]))
    return max(whole)[1] if whole else b""


class Change(NamedTuple):
    """A request that changes what must last, its good reply, and a request that tells it with the replies before and after."""

    request: bytes
    reply: bytes
    probe: bytes
    before: bytes
    after: bytes


# On a new board of four blocks, one after the other: every command that changes something. The new code is told by a field that is too large: its code is looked at first.
CHANGES = (
    Change(sealed(0x40, 0x47), sealed(0x40, 0x47), sealed(0x40, 0x46), sealed(0x40, 0x46, 0, 0, 0), sealed(0x40, 0x46, 0, 0, 1)),
    Change(sealed(0x40, 0x4D, 0, 0xC1, 0x55), sealed(0x40, 0x4D, 0, 0xC1), sealed(0x40, 0x4E), sealed(0x40, 0x4E, 4, 0), sealed(0x40, 0x4E, 2, 1)),
    Change(sealed(0x40, 0x4B, 0, 3, 2, 0, 0xA7, 0x01), sealed(0x40, 0x4B, 0, 3, 2), sealed(0x40, 0x4A, 0, 2, 4, 0),
           sealed(0x40, 0x4A, 0, 2, 4, 0, 0, 0, 0), sealed(0x40, 0x4A, 0, 2, 4, 0, 0xA7, 0x01, 0)),
    Change(sealed(0x40, 0x43, 0, 0, 0, 2, 0x55), sealed(0x40, 0x43), sealed(0x40, 0x42), sealed(0x40, 0x42, 0, 0x12, 0x34, 0x56), sealed(0x40, 0x42, 0, 0, 0, 2)),
    Change(sealed(0x40, 0x4D, 0, 0xC0, 0x55), sealed(0x40, 0x4D, 0, 0xC0), sealed(0x40, 0x4C, 0), sealed(0x40, 0x4C, 0, 0xC1), sealed(0x40, 0x4C, 0, 0xC0)),
    Change(sealed(0x40, 0x49, 0x55), sealed(0x40, 0x49), sealed(0x40, 0x46), sealed(0x40, 0x46, 0, 0, 1), sealed(0x40, 0x46, 0, 0, 0)),
    Change(sealed(0x40, 0x4F, 1, 0x55, 0x66), sealed(0x40, 0x4F, 1), sealed(0x40, 0x4D, 1, 0x97, 0x66), sealed(0x40, 0x50, 0x0F), sealed(0x40, 0x50, 0x10)),
    Change(sealed(0x40, 0x4D, 0, 0x40, 0x55), sealed(0x40, 0x4D, 0, 0x40), sealed(0x40, 0x4E), sealed(0x40, 0x4E, 3, 1), sealed(0x40, 0x4E, 4, 0)),
    Change(sealed(0x40, 0x55, 0x45, 0x55), sealed(0x45, 0x55), sealed(0xFF, 0x46), sealed(0x40, 0x46, 0, 0, 0), sealed(0x45, 0x46, 0, 0, 0)),
)


# Those of them that change nothing when they are sent once more.
REPEATED = CHANGES[1:6]

STEPS = ("flash_erase", "flash_write", "uart_send")
STEPS_OF_A_PAGE = 2 + (24 - 4 + 17 * 4) // 4 + 2  # the old mark cleared, the page erased, its words, checksum, mark


def steps_done(board: Board, firmware: Firmware, steps: int) -> bool:
    """Lets so many steps of the flash be done; whether the reply is about to be sent then. The board's debugger stops it before each."""
    place = board.debugger.place()
    for _ in range(steps):
        board.debugger.go_on()
        place = board.debugger.place()
    return place == firmware.places["uart_send"]


def stopping(firmware: Firmware, flash: pathlib.Path) -> Board:
    board = started(firmware.elf, flash, firmware.machine)
    board.debugger.stop_before([firmware.places[name] for name in STEPS])
    board.debugger.go()
    return board


def cut_after(bench: Bench, firmware: Firmware, flash: pathlib.Path, change: Change, steps: int) -> bool:
    """The change cut after so many steps of the flash; whether those were all. Before it the board must tell that no change was made yet."""
    with stopping(firmware, flash) as board:
        line = Serial(board)
        line.send(change.probe)
        steps_done(board, firmware, 0)
        board.debugger.go_on()
        told = line.hear(len(change.before))
        bench.checks.check(told == change.before, f"{bytes_told(change.request)} cut before step {steps}: {bytes_told(told)}, not {bytes_told(change.before)}")
        line.send(change.request)
        return steps_done(board, firmware, steps)


def check_tells(bench: Bench, firmware: Firmware, flash: pathlib.Path, change: Change, when: str):
    """The board started again tells the change."""
    with running(firmware, flash) as board:
        told = Serial(board).ask(change.probe, len(change.after))
        bench.checks.check(told == change.after, f"{bytes_told(change.request)} {when}: {bytes_told(told)}, not {bytes_told(change.after)}")


def cut_between_steps(bench: Bench, firmware: Firmware, flash: pathlib.Path, change: Change) -> int:
    """The change cut before its first step of the flash, between any two, and after the last, each cut on a flash that the one before left. Returns how many steps
    there are. With the last but one, the checksum, the change holds; the last one is the page's mark."""
    before = flash_of(flash)
    steps = 0
    while newer(flash_of(flash)) == newer(before):
        bench.checks.check(not cut_after(bench, firmware, flash, change, steps), f"{bytes_told(change.request)}: a reply after {steps} steps, and nothing is kept")
        steps += 1
    held = newer(flash_of(flash))
    check_tells(bench, firmware, flash, change, f"cut after {steps - 1} steps")
    blank_flash(flash, before)
    bench.checks.check(cut_after(bench, firmware, flash, change, steps), f"{bytes_told(change.request)}: no reply after {steps} steps")
    bench.checks.check(newer(flash_of(flash)) == held, f"{bytes_told(change.request)}: the last step changes what holds")
    check_tells(bench, firmware, flash, change, "cut before its reply")
    blank_flash(flash, before)
    return steps


def check_cuts(bench: Bench) -> str:
    """Cut while its change is written the board starts with what was before, or, once the checksum is written, with the change; once it is acknowledged, with the change."""
    firmware = bench.firmware("cortex-m3", "-DTOTAL=4", SLOW)
    flash = bench.flash("cut")
    blank_flash(flash)
    cuts = 0
    for change in CHANGES:
        steps = cut_between_steps(bench, firmware, flash, change)
        bench.checks.check(steps == STEPS_OF_A_PAGE, f"{bytes_told(change.request)}: {steps} steps of the flash")
        cuts += steps + 1
        acknowledged(bench, firmware, flash, change)
        if change in REPEATED:
            check_again(bench, firmware, flash, change)
    return f"; {cuts} power cuts between two steps of the flash"


def check_again(bench: Bench, firmware: Firmware, flash: pathlib.Path, change: Change):
    """Sent once more, the request changes nothing: its reply comes without a step of the flash (02, Req 05)."""
    before = flash_of(flash)
    with stopping(firmware, flash) as board:
        Serial(board).send(change.request)
        bench.checks.check(steps_done(board, firmware, 0), f"{bytes_told(change.request)} once more: the flash is written")
    bench.checks.check(flash_of(flash) == before, f"{bytes_told(change.request)} once more: the flash is another")


def acknowledged(bench: Bench, firmware: Firmware, flash: pathlib.Path, change: Change):
    with running(firmware, flash) as board:
        reply = Serial(board).ask(change.request, len(change.reply))
        bench.checks.check(reply == change.reply, f"{bytes_told(change.request)}: {bytes_told(reply)}")
    check_tells(bench, firmware, flash, change, "acknowledged and cut")


def check_kills(bench: Bench, kills: int, seed: int) -> str:
    """Random changes, the emulator killed at random moments: what was acknowledged is there, or that and what was under way."""
    dice = random.Random(seed)
    firmware = bench.firmware("cortex-m4", f"-DTOTAL={test_kill.TOTAL}", SLOW)
    flash = bench.flash("killed")
    model = under_way = test_kill.Model()
    steps = kept = 0
    for kill in range(kills + 1):
        with running(firmware, flash) as board:
            line = Serial(board)
            found = test_kill.held(line, under_way.codes)
            if found != under_way:
                found = test_kill.held(line, model.codes)
            bench.checks.check(found in (model, under_way), f"after kill {kill} with seed {seed}: {found.told()}, not {model.told()} or {under_way.told()}")
            kept += found == under_way != model
            if kill < kills:
                model, under_way, more = test_kill.lived(dice, line, board, found, 0.4)
                steps += more
    bench.checks.check(steps >= kills, f"{kills} kills hit {steps} changes")
    return f"; {kills} kills, {steps} changes acknowledged, {kept} of those under way were kept"


# --- damage, a flash that does not take it, noise ---------------------------------------------


def counted_twice(bench: Bench, firmware: Firmware, name: str) -> pathlib.Path:
    """The flash of a board that counted to 2: the older page has 1."""
    flash = bench.flash(name)
    with running(firmware, flash) as board:
        line = Serial(board)
        for _ in range(2):
            bench.checks.check(line.ask(sealed(0x40, 0x47), 3) == sealed(0x40, 0x47), "it counts")
    return flash


def check_damage(bench: Bench):
    """One bit of a finished page flipped: the other holds, or the board is fresh, and the drive is told."""
    firmware = bench.firmware("cortex-m3", "-DTOTAL=4", SLOW)
    whole = flash_of(counted_twice(bench, firmware, "damaged"))
    new_place = whole.index(newer(whole)) - 4
    old_place = PAGE - new_place
    dice = random.Random(1)
    for places, counter in (((new_place,), 1), ((old_place,), 2), ((new_place, old_place), 0)):
        damaged = bytearray(whole)
        for place in places:
            damaged[place + 4 + dice.randrange(88)] ^= 1 << dice.randrange(8)
        flash = bench.flash("damaged")
        blank_flash(flash, bytes(damaged))
        with running(firmware, flash) as board:
            line = Serial(board)
            told = line.ask(sealed(0x40, 0x46), 6), line.ask(sealed(0x40, 0x50), 4), line.ask(sealed(0x40, 0x46), 6)
        expected = sealed(0x40, 0xC6, 0, 0, counter), sealed(0x40, 0x50, FLASH_FAULT), sealed(0x40, 0x46, 0, 0, counter)
        bench.checks.check(told == expected, f"damage at {places}: {[bytes_told(reply) for reply in told]}")


def check_worn(bench: Bench):
    """A word that the flash does not take: no reply, the board is as it was, and the drive is told."""
    firmware = bench.firmware("cortex-m3", "-DTOTAL=4", SLOW)
    flash = counted_twice(bench, firmware, "worn")
    held = newer(flash_of(flash))
    with stopping(firmware, flash) as board:
        line = Serial(board)
        line.send(sealed(0x40, 0x47))
        bench.checks.check(not steps_done(board, firmware, 4), "it writes to the flash")
        board.debugger.set_register(2, 0x12345678)  # the word that it is about to write
        board.debugger.go_free([firmware.places[name] for name in STEPS])
        bench.checks.check(line.hear(1, 0.5) == b"", "a change that is not kept is not acknowledged")
        told = line.ask(sealed(0x40, 0x46), 6), line.ask(sealed(0x40, 0x50), 4), line.ask(sealed(0x40, 0x47), 3), line.ask(sealed(0x40, 0x46), 6)
    expected = sealed(0x40, 0xC6, 0, 0, 2), sealed(0x40, 0x50, FLASH_FAULT), sealed(0x40, 0x47), sealed(0x40, 0x46, 0, 0, 3)
    bench.checks.check(told == expected, f"a worn flash: {[bytes_told(reply) for reply in told]}")
    bench.checks.check(newer(flash_of(flash)) != held, "the next change is kept")


def check_fault(bench: Bench):
    """The processor runs into nowhere, as after a disturbance: the board starts anew, and what was acknowledged is there."""
    firmware = bench.firmware("cortex-m3", "-DTOTAL=4", SLOW)
    flash = counted_twice(bench, firmware, "fault")
    with stopping(firmware, flash) as board:
        line = Serial(board)
        line.send(sealed(0x40, 0x46))
        bench.checks.check(steps_done(board, firmware, 0), "a reply is about to be sent")
        board.debugger.set_register(PC, 0xF0000000)
        board.debugger.go_free([firmware.places[name] for name in STEPS])
        time.sleep(0.5)  # what is sent before its receiver is on again is lost
        told = line.ask(sealed(0x40, 0x46), 6)
        bench.checks.check(told == sealed(0x40, 0x46, 0, 0, 2), f"after a fault: {bytes_told(told)}")


def check_noise(bench: Bench):
    """Any bytes at any pace, frames longer than any: afterwards it answers as before, and asleep it takes no processor time."""
    firmware = bench.firmware("cortex-m3", SLOW)
    dice = random.Random(2)
    with running(firmware, bench.flash("noise")) as board:
        line = Serial(board)
        for length in (1, 2, 135, 136, 400, *[dice.randrange(1, 300) for _ in range(40)]):
            line.send(bytes([0x40]) + dice.randbytes(length - 1))
            time.sleep(dice.choice((0.0, 0.0, 0.03)))
        while line.hear(1000, 0.4):
            pass
        bench.checks.check(line.ask(sealed(0x40, 0x52), 7)[:2] in (b"\x40\x52", b"\x40\xd2"), "it answers after noise")
        used = processor_seconds(board.process.pid)
        time.sleep(1.0)
        bench.checks.check(processor_seconds(board.process.pid) - used < 0.2, "it sleeps")


def processor_seconds(pid: int) -> float:
    numbers = pathlib.Path(f"/proc/{pid}/stat").read_text().rsplit(")", 1)[1].split()
    return (int(numbers[11]) + int(numbers[12])) / os.sysconf("SC_CLK_TCK")


def check_emulate(bench: Bench):
    """The script for people: bad words, and a board to be asked by its port's name."""
    firmware = bench.firmware("cortex-m3", SLOW)
    script = str(HERE.parent / "emulate.py")
    bad = subprocess.run([sys.executable, script], capture_output=True, text=True, check=False)
    bench.checks.check(bad.returncode == 2 and "emulate.py ELF FLASH" in bad.stderr, f"no words: {bad}")
    gone = subprocess.run([sys.executable, script, str(bench.folder / "none.elf"), str(bench.flash("none"))], capture_output=True, text=True, timeout=60, check=False)
    bench.checks.check(gone.returncode == 1 and gone.stderr.startswith("emulate.py: "), f"no such program: {gone}")
    foreign, asked = bench.flash("foreign"), bench.flash("asked")
    foreign.write_bytes(b"somebody's")
    given = subprocess.Popen([sys.executable, script, firmware.elf, str(asked)], stdout=subprocess.PIPE, text=True)
    port = given.stdout.readline().strip()
    for file, why in ((foreign, "not a board's flash"), (asked, "another board has it")):
        other = subprocess.run([sys.executable, script, firmware.elf, str(file)], capture_output=True, text=True, timeout=60, check=False)
        bench.checks.check(other.returncode == 1 and why in other.stderr, f"{file.name}: {other}")
    bench.checks.check(foreign.read_bytes() == b"somebody's", "a foreign file is left alone")
    ran = bench.tools.run("bench", port, *RATE, "memory-status")
    given.terminate()
    given.communicate()
    bench.checks.check((ran.status, ran.out) == (DONE, "free blocks 112, fields 0\n") and given.returncode == 0, f"a board to be asked: {ran}, {given.returncode}")


def test(bench: Bench, kills: int) -> str:
    check_session(bench)
    check_program(bench)
    check_pause(bench)
    check_echo(bench)
    more = check_cuts(bench)
    check_damage(bench)
    check_worn(bench)
    check_fault(bench)
    check_noise(bench)
    check_emulate(bench)
    return more + check_kills(bench, kills, 2024)
