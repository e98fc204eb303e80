"""The encoder killed at random moments of a long run of stores: after each restart all is there whose reply was received, and the file was never unreadable. On a disk: in
memory hardly a kill falls between file and reply."""

import copy
import random
import signal
import threading
import time
from typing import List, NamedTuple, Tuple

import keeping
from rig import Checks, Encoder, Line, Tools, bytes_told, sealed

FAST = ("--rate", "38400", "--pause", "22")
TOTAL = 24
LONGEST_LIFE = 0.05  # seconds from the restart to the kill, or as long as so many changes take where the disk is slow
CHANGES_IN_A_LIFE = 20
CODES = 4


class Field:
    def __init__(self, status: int):
        self.status = status
        self.bytes = bytearray(16 * (status % 8 + 1))


class Model:
    """What the board must hold, by the replies that were received."""

    def __init__(self):
        self.fields: List[Field] = []
        self.counter = 0
        self.codes = bytearray(b"\x55" * CODES)

    def free(self) -> int:
        return TOTAL - sum(len(field.bytes) // 16 for field in self.fields)

    def __eq__(self, other) -> bool:
        return self.told() == other.told()

    def told(self) -> Tuple:
        return ([(field.status, bytes(field.bytes)) for field in self.fields], self.counter, bytes(self.codes))


class Step(NamedTuple):
    """A request, the reply that acknowledges it, and what the board then holds."""

    request: bytes
    reply: bytes
    after: Model


def step(dice: random.Random, model: Model) -> Step:
    after = copy.deepcopy(model)
    kind = dice.random()
    if not model.fields or (kind < 0.1 and model.free()):
        return create(dice, after)
    if kind < 0.2:
        return delete(after)
    if kind < 0.3:
        after.counter += 1
        return Step(sealed(0x40, 0x47), sealed(0x40, 0x47), after)
    if kind < 0.35:
        return new_code(dice, after)
    return store(dice, after)


def create(dice: random.Random, after: Model) -> Step:
    number, status = len(after.fields), 0xC0 | dice.randrange(CODES) << 4 | dice.randrange(min(8, after.free()))
    after.fields.append(Field(status))
    return Step(sealed(0x40, 0x4D, number, status, after.codes[status >> 4 & 3]), sealed(0x40, 0x4D, number, status), after)


def delete(after: Model) -> Step:
    number, status = len(after.fields) - 1, after.fields.pop().status
    return Step(sealed(0x40, 0x4D, number, status & 0x7F, after.codes[status >> 4 & 3]), sealed(0x40, 0x4D, number, status & 0x7F), after)


def new_code(dice: random.Random, after: Model) -> Step:
    number, code = dice.randrange(CODES), dice.randrange(256)
    request = sealed(0x40, 0x4F, number, after.codes[number], code)
    after.codes[number] = code
    return Step(request, sealed(0x40, 0x4F, number), after)


def store(dice: random.Random, after: Model) -> Step:
    number = dice.randrange(len(after.fields))
    content = after.fields[number].bytes
    offset = dice.randrange(len(content))
    count = dice.randrange(1, len(content) - offset + 1)
    content[offset : offset + count] = dice.randbytes(count)
    front = (0x40, 0x4B, number, offset, count)
    return Step(sealed(*front, 0, *content[offset : offset + count]), sealed(*front), after)


# --- at the board -----------------------------------------------------------------------------


def held(line: Line, codes: bytes) -> Model:
    """What the board tells that it holds. The codes are tried one by one: a wrong one is an error reply."""
    model = Model()
    model.counter = int.from_bytes(line.ask(sealed(0x40, 0x46), 6)[2:5], "big")
    told = line.ask(sealed(0x40, 0x4E), 5)
    for number in range(told[3]):
        status = line.ask(sealed(0x40, 0x4C, number), 5)[3]
        field = Field(status)
        length = len(field.bytes)
        field.bytes[:] = line.ask(sealed(0x40, 0x4A, number, 0, length, 0), 6 + length)[5:-1]
        model.fields.append(field)
    assert told[2] == model.free(), "free blocks are not those that the fields leave"
    for number in range(CODES):
        if line.ask(sealed(0x40, 0x4F, number, codes[number], codes[number]), 4) == sealed(0x40, 0x4F, number):
            model.codes[number] = codes[number]
        else:
            model.codes[number] = ~codes[number] & 0xFF
    return model


def longest_life(tools: Tools, line: Line) -> float:
    """By how long a change takes on this disk, from request to reply."""
    with Encoder(tools, tools.on_disk / "paced.board", *FAST, port=line.name):
        begun = time.monotonic()
        for _ in range(CHANGES_IN_A_LIFE):
            line.ask(sealed(0x40, 0x47), 3)
        return max(LONGEST_LIFE, time.monotonic() - begun)


def lived(dice: random.Random, line: Line, encoder: Encoder, model: Model, longest: float) -> Tuple[Model, Model, int]:
    """Stores until the encoder is killed: what was acknowledged, what was under way, and how many steps were acknowledged."""
    process, steps = encoder.process, 0
    killer = threading.Timer(dice.random() * longest, process.send_signal, (signal.SIGKILL,))
    killer.start()
    while True:
        asked = step(dice, model)
        line.send(asked.request)
        reply = b""
        while len(reply) < len(asked.reply) and process.poll() is None:
            reply += line.hear(len(asked.reply) - len(reply), 0.002)
        reply += line.hear(len(asked.reply) - len(reply), 0.0) if len(reply) < len(asked.reply) else b""
        if len(reply) < len(asked.reply):
            killer.join()
            return model, asked.after, steps
        assert reply == asked.reply, f"{bytes_told(asked.request)} -> {bytes_told(reply)}"
        model, steps = asked.after, steps + 1


def test(tools: Tools, checks: Checks, kills: int, seed: int) -> str:
    dice = random.Random(seed)
    file = tools.on_disk / "killed.board"
    model = under_way = Model()
    steps = kept = 0
    with Line() as line:
        longest = longest_life(tools, line)
        for kill in range(kills + 1):
            with Encoder(tools, file, "--total", str(TOTAL), *FAST, port=line.name) as encoder:
                line.hear(1000, 0.0)
                found = held(line, under_way.codes)
                if found != under_way:
                    found = held(line, model.codes)
                checks.check(found in (model, under_way), f"after kill {kill} with seed {seed}: {found.told()}, not {model.told()} or {under_way.told()}")
                kept += found == under_way != model
                if kill < kills:
                    model, under_way, more = lived(dice, line, encoder, found, longest)
                    steps += more
            if kill < kills:
                checks.check(encoder.process.returncode == -signal.SIGKILL, f"kill {kill}: it ended by itself: {encoder.process.returncode}")
                checks.check(keeping.read(file).total == TOTAL, f"kill {kill}: the file is unreadable")
    checks.check(steps >= kills and (kills < 50 or 0 < kept < kills), f"{kills} kills hit {steps} changes, of which {kept} were kept under way")
    return f"; {kills} kills, {steps} changes acknowledged, {kept} of those under way were kept"
