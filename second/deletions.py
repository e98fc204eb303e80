"""The deletions on tapes, counted by what they name and by the replies that they get."""

import collections
import struct

from generate import BROADCAST, WRAP

CHARACTER, POLL, POWER_ON = 2, 3, 6
EVENT = struct.Struct("<HHI")
NO_REPLY = None, b""

ACCEPTED = "accepted"
SINGLE_BITS = {1 << bit: f"0D by bit {bit}" for bit in range(7)}
MIDDLE = "0D of a middle field"
FORMER = "0D by the status before a modify"
NOT_LAST = "10 of a middle field by its status"
WRONG_CODE = "0F with wrong bits"
NAMED_CODE = "0F with the code that wrong bits name"
KINDS = (ACCEPTED, *SINGLE_BITS.values(), MIDDLE, FORMER, NOT_LAST, WRONG_CODE, NAMED_CODE)


def closed_frames(tape):
    """The tick that closes each frame of a tape, and the frame's bytes."""
    if len(tape) < 9:
        return
    # The plate comes first; its last numbers are ticks per bit and pause.
    closing = tape[7] * tape[8]
    frame, last, at = bytearray(), 0, 9
    while at + EVENT.size <= len(tape):
        length, kind, tick = EVENT.unpack_from(tape, at)
        if kind in (CHARACTER, POLL):
            if frame and (tick - last) % WRAP >= closing:
                yield tick, bytes(frame)
                frame.clear()
            if kind == CHARACTER:
                frame += tape[at + 8:at + 9]
                last = tick
        elif kind == POWER_ON:
            frame.clear()
        at += 2 + length


def replies(output):
    """The tick and the bytes of each reply."""
    for line in output.split(b"\n")[1:-1]:
        tick, _, reply = line.partition(b" ")
        if tick != b"bad":
            yield int(tick), bytes.fromhex(reply.decode("ascii"))


def exchanges(tape, output):
    """Each frame that got a reply, and the reply: that of the tick which closed the frame."""
    waiting = replies(output)
    tick, reply = next(waiting, NO_REPLY)
    for closed, frame in closed_frames(tape):
        if closed == tick and can_answer(reply, frame):
            yield frame, reply
            tick, reply = next(waiting, NO_REPLY)


def can_answer(reply, frame):
    """Whether a reply fits a frame; a silent one may be closed at the tick of a later reply."""
    if len(frame) < 3 or reply[1] & 0x7F not in (frame[1], 0x50):
        return False
    # An accepted 55h is answered from the new address.
    return frame[0] in (reply[0], BROADCAST) or frame[1] == 0x55


class Deletions:
    """Counts deletions beside the statuses and codes that the accepted requests gave the board."""

    def __init__(self):
        self.counts = collections.Counter()
        self.start()

    def start(self):
        """A fresh board. A field's former status is the one before its last modify."""
        self.stored, self.former = [], []
        self.codes = dict.fromkeys(range(4), 0x55)

    def add(self, tape, output):
        self.start()
        for request, reply in exchanges(tape, output):
            command, data = request[1], request[2:-1]
            accepted = reply[1] & 0x7F == command
            if command == 0x4D and len(data) == 3:
                self.count(*data, None if accepted else reply[2])
            if command == 0x4D and accepted:
                self.follow(*data[:2])
            elif command == 0x4F and accepted:
                self.codes[data[0]] = data[2]

    def count(self, field, status, code, error):
        """Counts a 4Dh, if it deletes a field that exists."""
        if status & 0x80 or field >= len(self.stored):
            return
        wrong = (status ^ self.stored[field]) & 0x7F
        middle = field < len(self.stored) - 1
        self.counts.update(kind for kind, found in (
            (ACCEPTED, error is None),
            (SINGLE_BITS.get(wrong), error == 0x0D),
            (MIDDLE, error == 0x0D and middle),
            (FORMER, error == 0x0D and status == self.former[field] & 0x7F),
            (NOT_LAST, error == 0x10 and middle and not wrong),
            (WRONG_CODE, error == 0x0F and wrong),
            (NAMED_CODE, error == 0x0F and wrong and code == self.codes[status >> 4 & 3]),
        ) if found)

    def follow(self, field, status):
        """Follows an accepted 4Dh."""
        if not status & 0x80:
            del self.stored[field:], self.former[field:]
        elif field < len(self.stored):
            self.former[field], self.stored[field] = self.stored[field], status
        else:
            self.stored.append(status)
            self.former.append(status)

    def holes(self):
        return [f"deletion {kind}" for kind in KINDS if not self.counts[kind]]

    def __str__(self):
        return ", ".join(f"{kind}:{self.counts[kind]}" for kind in KINDS)
