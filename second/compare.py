#!/usr/bin/env python3
"""Runs two answer programs on the same tapes: compare.py FIRST_PROGRAM SECOND_PROGRAM COUNT [SEED]."""

import collections
import subprocess
import sys
import time

import generate
from deletions import Deletions

DEFAULT_SEED = "2024"
# 53h is followed by silence.
REPLY_COMMANDS = [command for command in generate.COMMANDS if command != 0x53]
# 03h cannot arise from a blank memory.
ERROR_CODES = [0x02, 0x09, 0x0A, 0x0B, 0x0C, 0x0D, 0x0E, 0x0F, 0x10, 0x11, 0x12]


class Coverage:
    """Counts what the replies were."""

    def __init__(self):
        self.replies = 0
        self.warnings = 0
        self.moved = 0
        self.bad = 0
        self.commands = collections.Counter()
        self.errors = collections.Counter()
        self.deletions = Deletions()

    def add(self, tape, output, wide_faults):
        self.deletions.add(tape, output)
        # The plate comes first; its third number is the address.
        plate_address = b"%02X" % (0x40 + tape[6] & 0xFF) if len(tape) > 6 else b""
        for line in output.split(b"\n")[1:-1]:
            words = line.split(b" ", 4)
            if words[0] == b"bad":
                self.bad += 1
                continue
            self.replies += 1
            self.moved += words[1] != plate_address
            command = int(words[2], 16)
            self.warnings += command >> 7
            command &= 0x7F
            if command != 0x50:
                self.commands[command] += 1
            elif not wide_faults:
                # The host notes no code of an error reply on these tapes.
                code = int(words[3], 16)
                if code in ERROR_CODES:
                    self.errors[code] += 1
                else:
                    self.commands[command] += 1

    def holes(self):
        return ([f"reply {command:02X}" for command in REPLY_COMMANDS
                 if not self.commands[command]]
                + [f"error {code:02X}" for code in ERROR_CODES if not self.errors[code]]
                + ["a reply from an address that 55h gave"] * (not self.moved)
                + self.deletions.holes())

    def __str__(self):
        commands = " ".join(f"{command:02X}:{self.commands[command]}" for command in REPLY_COMMANDS)
        errors = " ".join(f"{code:02X}:{self.errors[code]}" for code in ERROR_CODES)
        return (f"replies {commands}; errors {errors}; "
                f"with warning {self.warnings}; from an address that 55h gave {self.moved}; "
                f"bad tapes {self.bad}; deletions {self.deletions}")


def run(program, tape):
    done = subprocess.run([program], input=tape, stdout=subprocess.PIPE, check=False)
    if done.returncode < 0:
        print(f"{program} was ended by signal {-done.returncode}")
    return done.stdout


def show_difference(seed, index, tape, first, second):
    """Saves the tape in hex and prints the first line that differs."""
    name = f"differing-{seed}-{index}.hex"
    with open(name, "w", encoding="ascii") as out:
        out.write(tape.hex(" ") + "\n")
    print(f"tape {index} of seed {seed} differs; {len(tape)} bytes saved in hex as {name}")
    if len(tape) <= 2000:
        print(tape.hex(" "))
    first, second = first.split(b"\n"), second.split(b"\n")
    line = next((n for n, (a, b) in enumerate(zip(first, second)) if a != b),
                min(len(first), len(second)))
    for name, lines in (("first", first), ("second", second)):
        text = lines[line].decode("ascii", "replace") if line < len(lines) else "(ended)"
        print(f"  {name} program, line {line + 1}: {text}")


def main():
    if len(sys.argv) not in (4, 5):
        sys.exit(__doc__)
    programs, count = sys.argv[1:3], int(sys.argv[3])
    seed = sys.argv[4] if len(sys.argv) == 5 else DEFAULT_SEED
    coverage, differing, size = Coverage(), 0, 0
    started = time.monotonic()
    for index in range(count):
        tape, wide_faults = generate.make_tape(seed, index)
        size += len(tape)
        first, second = (run(program, tape) for program in programs)
        coverage.add(tape, first, wide_faults)
        if first != second:
            if not differing:
                show_difference(seed, index, tape, first, second)
            differing += 1
    print(f"{count} tapes compared ({size} bytes, seed {seed}), {coverage.replies} replies, "
          f"{differing} tapes differ, {time.monotonic() - started:.1f} s")
    print(f"coverage: {coverage}")
    holes = coverage.holes()
    if holes:
        print(f"coverage has holes: {', '.join(holes)}")
    sys.exit(1 if differing or holes else 0)


if __name__ == "__main__":
    main()
