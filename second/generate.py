#!/usr/bin/env python3
"""Seeded tapes for the answer program: generate.py SEED COUNT OUTDIR."""

import os
import random
import struct
import sys

WRAP = 1 << 32
CHARACTER = struct.Struct("<HHIBB")
NUMBER = struct.Struct("<HHI")

COMMANDS = (0x42, 0x43, 0x46, 0x47, 0x49, 0x4A, 0x4B, 0x4C, 0x4D, 0x4E, 0x4F, 0x50, 0x52, 0x53,
            0x55, 0x56)
UNKNOWN = (0x00, 0x40, 0x41, 0x44, 0x45, 0x48, 0x51, 0x54, 0x57, 0x67, 0x6A, 0x6B, 0xC2, 0xCE,
           0xD0, 0xD2, 0xD3, 0xD5, 0xD6, 0xFF)
BROADCAST = 0xFF
# Codes that are no error reply's: a reply 50h with one of them answers a request 50h.
PLAIN_FAULTS = (0x01, 0x04, 0x05, 0x06, 0x07, 0x08, 0x08, 0x13, 0x1C, 0x1D, 0x1E, 0x1F, 0x20,
                0x21, 0x23, 0x25, 0x80, 0xFE, 0xFF)
TICKS_PER_BIT = (1, 2, 4, 8, 16, 32, 64)
GOOD_PLATE = (112, 24, 0, 4, 55)

# How often each command is asked, by the theme of the tape.
MIXED = dict(zip(COMMANDS, (6, 6, 4, 4, 3, 14, 14, 5, 22, 6, 5, 6, 2, 2, 5, 2)))
MEMORY = dict(zip(COMMANDS, (1, 1, 1, 1, 1, 22, 22, 5, 36, 6, 3, 2, 1, 1, 2, 1)))
STATUS = dict(zip(COMMANDS, (14, 14, 8, 10, 8, 4, 4, 2, 6, 2, 8, 16, 4, 6, 6, 4)))
ADDRESS = dict(zip(COMMANDS, (5, 4, 4, 4, 3, 4, 4, 2, 8, 5, 6, 6, 9, 6, 30, 7)))


def xor(data):
    total = 0
    for byte in data:
        total ^= byte
    return total


def sealed(data):
    return bytes(data) + bytes((xor(data),))


def record(kind, body=b""):
    return struct.pack("<HH", 2 + len(body), kind) + bytes(body)


def blocks(status):
    return (status & 7) + 1


class Tape:
    """Writes records and keeps the clock."""

    def __init__(self, plate, tick):
        self.parts = [record(1, plate)]
        self.tick = tick % WRAP

    def character(self, gap, value, parity=0):
        self.tick = (self.tick + gap) % WRAP
        self.parts.append(CHARACTER.pack(8, 2, self.tick, value, parity))

    def poll(self, gap):
        self.tick = (self.tick + gap) % WRAP
        self.parts.append(NUMBER.pack(6, 3, self.tick))

    def measured(self, position):
        self.parts.append(NUMBER.pack(6, 4, position))

    def fault(self, code):
        self.parts.append(record(5, (code,)))

    def power_on(self):
        self.parts.append(record(6))

    def bytes(self):
        return b"".join(self.parts)


class Session:
    """A run of requests to one board, aimed by a light picture of its address, codes and fields."""

    def __init__(self, rng, plate, weights, damage, tick, wide_faults=False):
        self.rng = rng
        self.total, self.bits, self.address, ticks, pause = plate
        self.ticks = ticks
        self.closing = ticks * pause
        self.tape = Tape(plate, tick)
        self.commands = list(weights)
        self.weights = list(weights.values())
        self.damage = damage
        self.wide_faults = wide_faults
        self.codes = [0x55] * 4
        self.fields = []
        # The status that each field had before its last modify.
        self.earlier = {}
        # The address in force is `address`; `asked` is the one that the master believes in force,
        # wrong for as many requests as it stays `unaware`.
        self.asked = self.address
        self.unaware = 0
        self.former = [self.address]
        # The picture without the open frame, which a power-on may drop.
        self.settled = self.picture()
        self.locked = False
        self.open = False
        self.queued = 0
        # Ticks since the last character.
        self.waited = 0
        # Whether the request at hand should be wrong in more than one way.
        self.troubled = False

    # Aim.

    def chance(self, share):
        return self.rng.random() < share

    def free(self):
        return self.total - sum(map(blocks, self.fields))

    def picture(self):
        return list(self.codes), list(self.fields), self.address

    def code(self, number, right=0.88):
        """A code's value, or now and then another one."""
        if self.chance(0.4 if self.troubled else right):
            return self.codes[number]
        return self.rng.choice((self.rng.choice(self.codes), 0x55, 0x00,
                                self.codes[number] ^ 1, self.rng.randrange(256)))

    def field(self):
        """The number of an existing field, or now and then of none."""
        if self.fields and self.chance(0.95):
            return self.rng.choice((0, len(self.fields) - 1, self.rng.randrange(len(self.fields))))
        return self.rng.choice((len(self.fields), 0xFF, len(self.fields) + 1, 112,
                                self.rng.randrange(256))) & 0xFF

    def place(self, field):
        """Offset and count within a field, at its end, and now and then beyond."""
        rng = self.rng
        if self.troubled:
            return rng.choice((0, 15, 16, 128, 255)), rng.choice((0, 1, 17, 128, 129, 255))
        size = 16 * blocks(self.fields[field]) if field < len(self.fields) else 16
        offset = rng.randrange(size)
        choice = rng.random()
        if choice < 0.40:
            return offset, rng.randint(1, size - offset)
        if choice < 0.55:
            return offset, size - offset
        if choice < 0.70:
            return 0, size
        if choice < 0.76:
            return offset, min(size - offset + 1, 128)
        if choice < 0.80:
            return size - 1, 2
        if choice < 0.84:
            return size, 1
        if choice < 0.88:
            return offset, rng.choice((0, 128, 129))
        if choice < 0.91:
            return rng.choice((255, 254, 128, 127)), rng.choice((1, 2, 128))
        return rng.randrange(size), rng.randint(1, 16)

    def position(self):
        limit = 1 << self.bits
        choice = self.rng.uniform(0.7, 1) if self.troubled else self.rng.random()
        if choice < 0.75:
            return self.rng.randrange(limit)
        if choice < 0.85:
            return limit - 1
        if choice < 0.93:
            return min(limit, WRAP - 1)
        return self.rng.randrange(WRAP)

    def request_data(self, command):
        rng = self.rng
        if command == 0x43:
            return struct.pack(">IB", self.position(), self.code(0))
        if command == 0x49:
            return bytes((self.code(0),))
        if command in (0x4A, 0x4B):
            return self.data_request(command)
        if command == 0x4C:
            return bytes((self.field(),))
        if command == 0x4D:
            return bytes(self.field_change())
        if command == 0x4F:
            number = rng.choice((0, 1, 2, 3)) if self.chance(0.92) else rng.choice((4, 5, 255))
            new = rng.choice((0x55, 0x55, 0x00, 0x66, rng.randrange(256)))
            return bytes((number, self.code(number & 3), new))
        if command == 0x55:
            return bytes((self.new_address(), self.code(0)))
        return b""

    def new_address(self):
        """The new address byte of a 55h, or now and then one that is not allowed."""
        rng = self.rng
        if self.chance(0.4 if self.troubled else 0.85):
            return 0x40 + rng.choice((self.address, (self.address + 1) % 32, self.former[-1],
                                      0, 31, rng.randrange(32), rng.randrange(32)))
        return rng.choice((0x3F, 0x60, 0x00, 0x80, 0xFF, self.address, 0x20 + self.address,
                           0x60 + self.address, 0xC0 + self.address, rng.randrange(256)))

    def data_request(self, command):
        rng = self.rng
        field = self.field()
        offset, count = self.place(field)
        status = self.fields[field] if field < len(self.fields) else 0
        head = bytes((field, offset, count, self.code(status >> 4 & 3, 0.90)))
        if command == 0x4A:
            return head
        if self.chance(0.04):
            return rng.choice((head[:2], head, head + rng.randbytes(count + 1),
                               head + rng.randbytes(max(count, 1) - 1)))
        return head + (rng.randbytes(count) if self.chance(0.9) else bytes(count))

    def new_status(self):
        """A status with bit 7 set, mostly write-enabled."""
        status = 0x80 | self.rng.randrange(128)
        if self.chance(0.7):
            status |= 0x40
        if self.chance(0.5):
            status &= ~0x08
        return status

    def field_change(self):
        """Field, status and code of a 4Dh."""
        rng = self.rng
        number, free = len(self.fields), self.free()
        status = self.new_status()
        choice = rng.random()
        room = min(free, 8)
        if number == 0 or choice < (0.45 if free > 0 else 0.08):
            # Create, mostly within the free blocks, at times to the last one.
            if room and self.chance(0.9):
                size = room if self.chance(0.2) else rng.randint(1, room)
                status = status & ~7 | size - 1
            return number & 0xFF, status, self.code(status >> 4 & 3)
        if choice < 0.58:
            # Modify, the size staying.
            field = rng.randrange(number)
            stored = self.fields[field]
            return field, status & ~7 | stored & 7, self.code(stored >> 4 & 3)
        if choice < 0.73:
            # Grow or shrink, mostly the last field.
            field = self.often_last()
            stored = self.fields[field]
            most = min(blocks(stored) + max(free, 0), 8)
            if self.chance(0.85):
                status = status & ~7 | rng.randint(1, most) - 1
            return field, status, self.code(stored >> 4 & 3)
        if choice < 0.92:
            return self.deletion()
        if choice < 0.95:
            # The slip: the code that the new status names.
            return rng.randrange(number), status, self.codes[status >> 4 & 3]
        return (rng.choice((number + 1, 0xFF, number, rng.randrange(256))) & 0xFF,
                rng.choice((status, status & 0x7F)), self.code(0))

    def often_last(self, share=0.85):
        """The number of an existing field, mostly the last."""
        number = len(self.fields)
        return number - 1 if self.chance(share) else self.rng.randrange(number)

    def deletion(self):
        """Field, status and code of a 4Dh that deletes."""
        field = self.often_last(0.75)
        stored = self.fields[field] & 0x7F
        if self.chance(0.10):
            # The slip: another code number, and the code that it names.
            named = stored ^ self.rng.choice((0x10, 0x20, 0x30))
            return field, named, self.codes[named >> 4 & 3]
        return field, self.named_status(field), self.code(stored >> 4 & 3)

    def named_status(self, field):
        """The status by which a field is deleted: its own without bit 7, or a wrong one."""
        rng = self.rng
        stored = self.fields[field] & 0x7F
        choice = rng.random()
        if choice < (0.4 if self.troubled else 0.62):
            return stored
        if choice < 0.84:
            return stored ^ 1 << rng.randrange(7)
        if choice < 0.90:
            return self.earlier[field] & 0x7F
        # Another field's, none at all, or any bits.
        return rng.choice((rng.choice(self.fields) & 0x7F, 0x00, rng.randrange(128)))

    def note_frame(self, data):
        """Follows a frame that came whole in the picture, if the board takes it."""
        if len(data) > 2 and data[0] in (0x40 + self.address, BROADCAST) and xor(data) == 0:
            self.note_effect(data[1], data[2:-1])

    def note_effect(self, command, data):
        """Follows a request in the picture; sloppy is good enough for all but the address, since
        a board that is asked by a wrong one is silent for good."""
        if command == 0x4F and len(data) == 3:
            number, old, new = data
            if number < 4 and self.codes[number] == old:
                self.codes[number] = new
        elif command == 0x4D and len(data) == 3:
            self.note_field(*data)
        elif command == 0x50 and not data:
            self.queued = max(self.queued - 1, 0)
        elif command == 0x53 and not data:
            self.queued = 0
        elif command == 0x55 and len(data) == 2:
            self.note_address(*data)

    def note_address(self, new, code):
        if code != self.codes[0] or not 0x40 <= new <= 0x5F:
            return
        self.former.append(self.address)
        self.address = new - 0x40
        # A master that missed it goes on by the old address for a while.
        self.unaware = self.rng.randint(2, 5) if self.chance(0.12) else 0

    def notice_address(self):
        """The master learns the address in force, if not now then in a while."""
        self.unaware = max(self.unaware - 1, 0)
        if not self.unaware:
            self.asked = self.address

    def note_field(self, field, status, code):
        number = len(self.fields)
        if status & 0x80 and field == number:
            if code == self.codes[status >> 4 & 3] and blocks(status) <= self.free():
                self.fields.append(status)
                self.earlier[field] = status
        elif field < number and code == self.codes[self.fields[field] >> 4 & 3]:
            if status & 0x80:
                self.note_modify(field, status)
            elif status == self.fields[field] & 0x7F and field == number - 1:
                self.fields.pop()

    def note_modify(self, field, status):
        change = blocks(status) - blocks(self.fields[field])
        last = field == len(self.fields) - 1
        if change == 0 or last and change <= self.free():
            self.earlier[field] = self.fields[field]
            self.fields[field] = status

    # Events.

    def address_byte(self):
        choice = self.rng.random()
        if choice < 0.84:
            return 0x40 + self.asked
        if choice < 0.95:
            return BROADCAST
        return self.rng.choice((0x40 + (self.address + 1) % 32, 0x60 + self.address,
                                self.address, 0xC0 + self.address, 0x40 + self.former[0],
                                0x40 + self.former[-1], self.rng.randrange(256)))

    def short_gap(self):
        """A gap that keeps a frame open."""
        choice = self.rng.random()
        if choice < 0.6:
            return self.rng.randint(0, 11 * self.ticks)
        if choice < 0.8:
            return self.closing - 1
        return self.rng.randrange(self.closing)

    def long_gap(self):
        """A gap that closes a frame."""
        choice = self.rng.random()
        if choice < 0.45:
            return self.closing
        if choice < 0.60:
            return self.closing + 1
        if choice < 0.97:
            return self.closing + self.rng.randrange(5000)
        return self.rng.choice((WRAP - 1, WRAP - 2, WRAP // 2, WRAP - self.closing))

    def host_event(self):
        choice = self.rng.random()
        if choice < 0.45:
            self.measure()
        elif choice < 0.92:
            self.note_fault()
        else:
            self.power_on()

    def measure(self):
        self.tape.measured(self.rng.choice((0, 5, 1 << self.bits - 1, WRAP - 1,
                                            self.rng.randrange(WRAP), self.rng.randrange(WRAP))))

    def note_fault(self):
        choice = self.rng.random()
        if choice < 0.08:
            code = self.rng.choice((0x22, 0x24))
            self.locked = True
        elif choice < 0.16:
            code = 0x00
        elif self.wide_faults:
            code = self.rng.randrange(256)
        else:
            code = self.rng.choice(PLAIN_FAULTS)
        self.tape.fault(code)
        self.queued = min(self.queued + 1, 4)

    def power_on(self):
        self.tape.power_on()
        if self.open:
            # The open frame is dropped, and what it would have changed stays.
            self.codes, self.fields, self.address = self.settled
        self.locked = False
        self.open = False
        self.queued = 0

    def frame(self, data, parity_at=-1, split_at=0):
        """The characters of a frame; whether it stays whole."""
        rng, tape = self.rng, self.tape
        gap = self.long_gap() - self.waited if self.open else self.short_gap()
        tape.character(gap, data[0], int(parity_at == 0))
        self.settled = self.picture()
        self.open = whole = True
        self.waited = 0
        style = rng.random()
        for place in range(1, len(data)):
            if place == split_at:
                gap = self.long_gap()
            elif style < 0.55:
                gap = 11 * self.ticks
            elif style < 0.70:
                gap = self.closing - 1
            else:
                gap = self.short_gap()
            tape.character(gap, data[place], int(parity_at == place))
            # After a power-on the rest is a frame of its own.
            self.open = True
            if style > 0.85 and rng.random() < 0.05:
                self.interrupt()
                whole = whole and self.open
        return whole

    def interrupt(self):
        """Something between two characters."""
        choice = self.rng.random()
        if choice < 0.3:
            self.tape.poll(0)
        elif choice < 0.65:
            self.measure()
        elif choice < 0.95:
            self.note_fault()
        else:
            self.power_on()

    def finish_frame(self):
        """Closes the frame by a poll, or leaves that to the next character."""
        choice = self.rng.random()
        if choice < 0.45:
            self.tape.poll(self.long_gap())
        elif choice < 0.60:
            self.tape.poll(self.closing - 1)
            self.tape.poll(1)
        elif choice < 0.65:
            # Not closed: the next character's gap counts from the last character too.
            self.tape.poll(self.closing - 1)
            self.waited = self.closing - 1
            return
        elif choice < 0.70:
            self.tape.poll(self.long_gap())
            self.tape.poll(self.long_gap())
        else:
            return
        self.open = False

    def spoil(self, data):
        """A damaged copy of a frame's bytes."""
        rng = self.rng
        data = bytearray(data)
        choice = rng.random()
        if choice < 0.30:
            data[rng.randrange(len(data))] ^= 1 << rng.randrange(8)
        elif choice < 0.45:
            data[-1] = rng.randrange(256)
        elif choice < 0.60:
            del data[rng.randrange(1, len(data)):]
        elif choice < 0.70:
            data.insert(rng.randrange(len(data) + 1), rng.randrange(256))
        elif choice < 0.80:
            # Truncated, the checksum right.
            data = bytearray(sealed(data[:rng.randrange(1, len(data))]))
        elif choice < 0.92:
            # A byte more or one changed, the checksum right.
            inner = data[:-1]
            if self.chance(0.5):
                inner.append(rng.randrange(256))
            else:
                inner[rng.randrange(len(inner))] = rng.randrange(256)
            data = bytearray(sealed(inner))
        else:
            data = bytearray(rng.randbytes(rng.randint(1, 12)))
        return bytes(data)

    def choose_command(self):
        """A command by the tape's theme, and by what the board is in."""
        rng = self.rng
        command = rng.choices(self.commands, self.weights)[0]
        if self.queued and self.chance(0.06):
            command = 0x50
        if command in (0x4A, 0x4B, 0x4C) and not self.fields and self.chance(0.8):
            command = 0x4D
        if self.locked and self.chance(0.30):
            command = rng.choice((0x42, 0x42, 0x43, 0x43, 0x53, 0x53, 0x52, 0x56))
        return command

    def request(self):
        """One request, sent whole or damaged, and what happens around it."""
        rng = self.rng
        if self.locked and self.chance(0.12):
            self.power_on()
        if self.chance(0.08):
            self.host_event()
        self.notice_address()
        self.troubled = self.chance(0.06)
        command = self.choose_command()
        data = self.request_data(command)
        if self.chance(0.015):
            command = rng.choice(UNKNOWN)
        if self.chance(0.015):
            data = rng.choice((data[:-1], data + b"\x55", data + rng.randbytes(3)))
        whole = sealed(bytes((self.address_byte(), command)) + data)
        if self.chance(self.damage):
            self.damaged_frame(whole)
        elif self.frame(whole):
            self.note_frame(whole)
        self.finish_frame()

    def damaged_frame(self, data):
        """A frame with a parity fault, in two pieces, or with other bytes."""
        rng = self.rng
        choice = rng.random()
        if choice < 0.25:
            if self.chance(0.3):
                data = data[:-1] + rng.randbytes(1)
            self.frame(data, parity_at=rng.randrange(len(data)))
        elif choice < 0.40:
            self.frame(data, split_at=rng.randrange(1, len(data)))
        else:
            data = self.spoil(data)
            if self.frame(data):
                # Other bytes may be a good frame too.
                self.note_frame(data)

    def long_frame(self, length):
        """A frame of this many bytes, of any command, its checksum mostly right."""
        rng = self.rng
        head = bytes((self.address_byte(), rng.choice(COMMANDS if self.chance(0.5) else UNKNOWN)))
        body = head + rng.randbytes(length - 3)
        data = sealed(body) if self.chance(0.8) else body + rng.randbytes(1)
        self.frame(data, rng.randrange(length) if self.chance(0.2) else -1)
        self.finish_frame()

    def full_store(self):
        """A 4Bh of the full 135 bytes, to a field of eight blocks if there is one."""
        large = [n for n, status in enumerate(self.fields) if blocks(status) == 8]
        field = self.rng.choice(large) if large else 0
        status = self.fields[field] if self.fields else 0
        head = bytes((field, 0, 128, self.codes[status >> 4 & 3]))
        self.send(0x4B, head + self.rng.randbytes(128))

    def send(self, command, data, address=None):
        """A whole request, to the board unless another address byte is given."""
        own = 0x40 + self.address
        whole = sealed(bytes((own if address is None else address, command)) + data)
        if self.frame(whole):
            self.note_frame(whole)
        self.finish_frame()

    def reuse(self):
        """Fills the last field, gives blocks back, has them granted again and reads them."""
        rng = self.rng
        if not self.fields:
            return
        field = len(self.fields) - 1
        stored = self.fields[field]
        code = self.codes[stored >> 4 & 3]
        size = 16 * blocks(stored)
        if not stored & 0x40:
            stored |= 0x40
            self.send(0x4D, bytes((field, stored, code)))
        self.send(0x4B, bytes((field, 0, size, code)) + rng.randbytes(size))
        if self.chance(0.5):
            self.send(0x4D, bytes((field, stored & 0x7F, code)))
        else:
            self.send(0x4D, bytes((field, stored & ~7 | rng.randint(0, stored & 7), code)))
        self.send(0x4D, bytes((field, stored, code)))
        self.send(0x4A, bytes((field, 0, size, code)))

    def modify_then_delete(self):
        """Modifies a field, then deletes it by the status that it had and by the one that it has."""
        if not self.fields:
            return
        field = self.often_last()
        earlier = self.fields[field]
        # Any of code wanted, code number and write-enabled; the size stays.
        status = earlier ^ self.rng.randrange(1, 16) << 3
        self.send(0x4D, bytes((field, status, self.codes[earlier >> 4 & 3])))
        for named in (earlier & 0x7F, status & 0x7F):
            self.send(0x4D, bytes((field, named, self.codes[status >> 4 & 3])))

    def delete_by_wrong_bits(self):
        """Deletes a field by its status with one bit wrong, each of the seven in its turn."""
        if not self.fields:
            return
        field = self.often_last()
        stored = self.fields[field] & 0x7F
        for bit in range(7):
            self.send(0x4D, bytes((field, stored ^ 1 << bit, self.codes[stored >> 4 & 3])))

    def move(self):
        """Gives the board a new address, then asks by the old one, the new one, another and all."""
        rng = self.rng
        old = self.address
        self.send(0x55, bytes((0x40 + rng.randrange(32), self.codes[0])))
        choice = rng.random()
        if choice < 0.3:
            self.power_on()
        elif choice < 0.6:
            self.send(0x53, b"")
        asked = [0x40 + old, 0x40 + self.address, 0x40 + rng.randrange(32), BROADCAST]
        rng.shuffle(asked)
        for address in asked:
            command = rng.choice((0x42, 0x46, 0x4E, 0x52, 0x55, 0x56))
            self.send(command, self.request_data(command), address)

    def move_neighbour(self):
        """A 55h to another board, and that board's reply, which the whole bus hears."""
        rng = self.rng
        other = (self.address + rng.randint(1, 31)) % 32
        new = rng.choice((self.address, rng.randrange(32), rng.randrange(32)))
        self.send(0x55, bytes((0x40 + new, self.code(0))), 0x40 + other)
        self.send(0x55, b"", 0x40 + new)

    def step_back(self):
        """The clock stepped back by a tick or a few."""
        back = self.rng.choice((1, 1, 2, 1000))
        self.tape.tick = (self.tape.tick - back) % WRAP
        self.tape.poll(0)
        if back > self.waited:
            self.open = False
        else:
            # Only as far as a poll since the last character.
            self.waited -= back

    def pause_polls(self):
        """When a pause is polled, in ticks after the last character: within it, then past it."""
        rng, closing = self.rng, self.closing
        within = [rng.randrange(closing) for _ in range(rng.randrange(4))]
        # Out of order they step the clock back, but not behind the last character.
        if self.chance(0.7):
            within.sort()
        return within + rng.choice(([closing - 1, closing], [closing], [closing + 1],
                                    [self.long_gap()], [WRAP - 1], [WRAP - rng.randint(2, 5000)]))

    def polled_request(self, stamp):
        """A whole request, its last character at the tick `stamp`, and polls until it is closed."""
        tape, pace = self.tape, 11 * self.ticks
        command = self.choose_command()
        data = sealed(bytes((0x40 + self.address, command)) + self.request_data(command))
        tape.tick = (stamp - pace * len(data)) % WRAP
        for value in data:
            tape.character(pace, value)
        self.settled = self.picture()
        self.open = True
        for gap in self.pause_polls():
            if self.chance(0.1):
                self.interrupt()
            tape.poll(stamp + gap - tape.tick)
        if self.open:
            self.note_frame(data)
        self.open = False


def choose_plate(rng, small=False):
    total = rng.choice((1, 2, 3, 8, 8, 16)) if small else rng.choice(
        (112, 112, 112, 8, 1, rng.randint(1, 112), rng.randint(1, 40)))
    bits = rng.choice((24, 24, 1, 32, 32, 31, rng.randint(1, 32)))
    address = rng.choice((0, 0, 31, rng.randrange(32)))
    return total, bits, address, rng.choice(TICKS_PER_BIT), rng.choice((22, 55))


def choose_tick(rng):
    return rng.choice((0, rng.randrange(WRAP), WRAP - rng.randrange(1, 2_000_000)))


def session_tape(rng, weights, damage, requests, small=False, wide=False):
    session = Session(rng, choose_plate(rng, small), weights, damage, choose_tick(rng), wide)
    for _ in range(requests):
        session.request()
        if session.chance(0.02):
            session.reuse()
        if session.chance(0.008):
            session.modify_then_delete()
        if session.chance(0.003):
            session.delete_by_wrong_bits()
        if session.chance(0.01):
            session.move()
    return session.tape.bytes()


def bus_tape(rng, damage, requests):
    """A board that is moved often, on a bus with others."""
    session = Session(rng, choose_plate(rng), ADDRESS, damage, choose_tick(rng))
    for _ in range(requests):
        session.request()
        if session.chance(0.05):
            session.move()
        if session.chance(0.05):
            session.move_neighbour()
        if session.chance(0.03):
            session.power_on()
    return session.tape.bytes()


def crowded_tape(rng):
    """Fields of one block until the table is full, then traffic on them."""
    plate = choose_plate(rng)
    session = Session(rng, plate, MEMORY, 0.02, choose_tick(rng))
    for field in range(session.total + 1):
        status = 0xC0 | rng.choice((0x00, 0x08, 0x10, 0x28, 0x30))
        session.send(0x4D, bytes((field, status, session.codes[status >> 4 & 3])))
    for _ in range(rng.randint(40, 120)):
        session.request()
    return session.tape.bytes()


def long_tape(rng):
    """Long frames among requests, and a clock that is stepped back."""
    session = Session(rng, choose_plate(rng), MIXED, 0.03, choose_tick(rng))
    for _ in range(rng.randint(6, 14)):
        for _ in range(rng.randint(1, 8)):
            session.request()
        choice = rng.random()
        if choice < 0.6:
            session.long_frame(rng.choice((133, 134, 135, 136, 137, 259, 300)))
        elif choice < 0.8:
            session.full_store()
        else:
            session.step_back()
    return session.tape.bytes()


def pause_tape(rng):
    """Pauses that are polled all through, half of them over the wrap of the tick."""
    session = Session(rng, choose_plate(rng), MIXED, 0.0, choose_tick(rng))
    for _ in range(rng.randint(40, 120)):
        session.polled_request(rng.choice((rng.randrange(WRAP),
                                           WRAP - rng.randint(1, session.closing))))
    return session.tape.bytes()


def giant_tape(rng):
    """Frames long enough to wrap a 16-bit count of bytes."""
    session = Session(rng, (8, 24, 0, 4, 55), MIXED, 0.0, 0)
    for length in (65_536, 65_539, 65_538 + 3):
        session.request()
        session.long_frame(length)
    session.request()
    session.tape.poll(session.closing)
    return session.tape.bytes()


def changed_plate(place, number):
    plate = list(GOOD_PLATE)
    plate[place] = number
    return tuple(plate)


REFUSED_PLATES = [changed_plate(place, number) for place, number in (
    (0, 0), (0, 113), (0, 255), (1, 0), (1, 33), (1, 255), (2, 32), (2, 255), (3, 0), (3, 3),
    (3, 5), (3, 63), (3, 65), (3, 128), (4, 0), (4, 21), (4, 23), (4, 54), (4, 56), (4, 255))]
BODY_LENGTHS = {1: 5, 2: 6, 3: 4, 4: 4, 5: 1, 6: 0}
EVENTS = (record(2, bytes(6)), record(3, bytes(4)), record(4, bytes(4)), record(5, b"\x08"),
          record(6))


def bad_first_records():
    yield from EVENTS
    yield from (record(1, plate) for plate in REFUSED_PLATES)
    yield record(1, GOOD_PLATE[:4])
    yield record(1, GOOD_PLATE + (0,))
    yield record(1)
    yield record(0x0101, GOOD_PLATE)
    yield from (record(1, GOOD_PLATE)[:cut] for cut in range(1, 9))
    yield b"\x00\x00"
    yield b"\x01\x00\x01"
    yield b"\x00"


def bad_later_records():
    yield record(1, GOOD_PLATE)
    for kind in (0, 7, 8, 0x55, 0xFF, 0x8002, 0x0100, 0xFFFF):
        yield record(kind)
        yield record(kind, bytes(4))
    for kind, length in BODY_LENGTHS.items():
        yield record(kind | 0x0100, bytes(length))
        yield record(kind | 0x8000, bytes(length))
        yield record(kind << 8, bytes(length))
        yield record(kind, bytes(length + 1))
        if length:
            yield record(kind, bytes(length - 1))
            yield record(kind)
        yield record(kind, bytes(length + 256))
    for whole in EVENTS:
        yield from (whole[:cut] for cut in range(1, len(whole)))
    yield b"\x00\x00"
    yield b"\x01\x00"
    yield b"\x01\x00\x06"
    yield b"\x01\x00\x02"
    yield b"\x02\x00"
    yield b"\xff\xff\x02\x00"
    yield struct.pack("<HH", 65_535, 2) + bytes(65_533)
    yield from (record(2, bytes(5) + bytes((parity,))) for parity in (2, 3, 128, 255))


BAD_FIRST = list(bad_first_records())
BAD_LATER = list(bad_later_records())


def bad_tape(rng, turn):
    """A tape with one bad record: each in its turn, first or after a piece of session."""
    # The stride brings every one in its turn, the two lists mixed.
    turn = 59 * turn % (len(BAD_FIRST) + len(BAD_LATER))
    # What follows a whole bad record must not matter; a cut one stays last.
    if turn < len(BAD_FIRST):
        return BAD_FIRST[turn] + trailer(rng, BAD_FIRST[turn])
    spoilt = BAD_LATER[turn - len(BAD_FIRST)]
    prefix = session_tape(rng, MIXED, 0.03, rng.choice((0, 1, 5, 20)))
    return prefix + spoilt + trailer(rng, spoilt)


def trailer(rng, spoilt):
    whole = len(spoilt) >= 4 and len(spoilt) == 2 + int.from_bytes(spoilt[:2], "little")
    if not whole or rng.random() < 0.4:
        return b""
    return b"".join(rng.choices(EVENTS, k=rng.randint(1, 5))) + rng.randbytes(rng.randrange(3))


def edge_tape(rng, turn):
    """Tapes that print the first line only, or little else."""
    plate = choose_plate(rng)
    turn %= 4
    if turn == 0:
        return b""
    if turn == 1:
        return record(1, plate)
    session = Session(rng, plate, MIXED, 0.0, choose_tick(rng))
    session.frame(sealed((0x40 + session.address, 0x4E)))
    if turn == 3:
        session.tape.poll(session.closing - 1)
    return session.tape.bytes()


def make_tape(seed, index):
    """Tape number `index` of a seed, and whether its host notes codes of error replies too."""
    rng = random.Random(f"{seed}/{index}")
    turn, slot = divmod(index, 50)
    slot = slot * 7 % 50  # so that a few tapes are a mix already
    if slot < 8:
        return bad_tape(rng, 8 * turn + slot), False
    if slot == 8:
        return edge_tape(rng, turn), False
    if slot == 9:
        # One giant tape in some hundreds.
        return (giant_tape(rng) if turn % 8 == 0 else long_tape(rng)), False
    if slot == 10:
        return pause_tape(rng), False
    if slot < 13:
        return long_tape(rng), False
    if slot < 15:
        return crowded_tape(rng), False
    if slot < 18:
        return session_tape(rng, MIXED, 0.40, rng.randint(40, 120)), False
    if slot < 26:
        return session_tape(rng, MEMORY, 0.03, rng.randint(60, 160), small=slot < 23), False
    if slot < 30:
        return session_tape(rng, STATUS, 0.04, rng.randint(60, 200)), False
    if slot < 32:
        return session_tape(rng, STATUS, 0.04, rng.randint(60, 200), wide=True), True
    if slot < 36:
        return bus_tape(rng, rng.choice((0.01, 0.04, 0.10)), rng.randint(40, 140)), False
    return session_tape(rng, MIXED, rng.choice((0.01, 0.04, 0.10)), rng.randint(40, 180)), False


def main():
    if len(sys.argv) != 4:
        sys.exit("generate.py SEED COUNT OUTDIR")
    seed, count, folder = sys.argv[1], int(sys.argv[2]), sys.argv[3]
    os.makedirs(folder, exist_ok=True)
    for index in range(count):
        tape, _ = make_tape(seed, index)
        with open(os.path.join(folder, f"{index:06}.tape"), "wb") as out:
            out.write(tape)


if __name__ == "__main__":
    main()
