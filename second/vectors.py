#!/usr/bin/env python3
"""The definitions of crates/meaning run on tapes and compared with the second program.

vectors.py SECOND_PROGRAM [TAPES [EVENTS [SEED]]]

Each generated tape of at most 16 blocks is cut after EVENTS records, answered by the second program, and written as two
claims: the replies that `step` computes are those that the second program printed, and the ticks that `carried` computes after
each character and poll are those that it printed with --remaining. The checker computes every claim, in a crate over a copy of
crates/meaning, so nothing of the comparison is left in the project. The copy has the library that rt built of meaning, where there is one: then meaning is not proved again.
"""

import os
import shutil
import struct
import subprocess
import sys
import tempfile

ROOT = os.path.dirname(os.path.dirname(os.path.abspath(__file__)))
PLATE, CHARACTER, POLL, MEASURED, FAULT, POWER_ON = range(1, 7)
MOST_BLOCKS = 16

ROOT_FILE = """// The second program's lines, claimed of meaning's definitions (proofs/). There is no code here.
#![tactic(auto)]
"""

HEADER = """-- Lines that the second program printed, claimed of the definitions. Assumes nothing.
use Prim.Native.Nat.{ℕ}
use mathlib.Core.Bool.{Bool, true, false}
use mathlib.Core.List.{List, [], ◌∷◌}
use lib.Dec.{T}
"""

DEFINITIONS = """
abbrev stamp_of : Call → ℕ
stamp_of (character now v bad) = now
stamp_of (poll now) = now
stamp_of (measured n) = 0
stamp_of (fault c) = 0
stamp_of power_on = 0

unfoldable spoke : ℕ → List ℕ → List (List ℕ) → List (List ℕ)
spoke n [] r = r
spoke n (x ∷ xs) r = (n ∷ x ∷ xs) ∷ r

unfoldable lines : Plate → State → List ℕ → List Call → List (List ℕ)
lines p s m [] = []
lines p s m (g ∷ gs) =
    let o = step p s m g in
    spoke (stamp_of g) o.reply (lines p o.state o.memory gs)

-- the ticks that an answer carries, behind 1; 0 alone where no frame is open
unfoldable carried_ticks : Carried → List (List ℕ) → List (List ℕ)
carried_ticks nothing r = r
carried_ticks (carries no_frame_open) r = (0 ∷ []) ∷ r
carried_ticks (carries (ticks_left n)) r = (1 ∷ n ∷ []) ∷ r

unfoldable sleeps : Plate → State → List ℕ → List Call → List (List ℕ)
sleeps p s m [] = []
sleeps p s m (g ∷ gs) =
    let o = step p s m g in
    carried_ticks (carried p o.state g) (sleeps p o.state o.memory gs)

unfoldable alike : List (List ℕ) → List (List ℕ) → Bool
alike [] [] = true
alike [] (y ∷ ys) = false
alike (x ∷ xs) [] = false
alike (x ∷ xs) (y ∷ ys) = both (same x y) (alike xs ys)

unfoldable prints : Plate → List Call → List (List ℕ) → Bool
prints p gs ls = alike (lines p (fresh p) (zeros (memory_length p.total)) gs) ls

unfoldable tells : Plate → List Call → List (List ℕ) → Bool
tells p gs ls = alike (sleeps p (fresh p) (zeros (memory_length p.total)) gs) ls
"""

OWN = ["spoke", "lines", "carried_ticks", "sleeps", "alike", "prints", "tells"]
CASES = {"Run": ["character", "poll", "measured", "fault", "power_on", "nothing", "carries"], "Characters": ["no_frame_open", "ticks_left"]}


def records(tape):
    """The whole records of a tape, as (kind, body, place behind it)."""
    at = 0
    while at + 4 <= len(tape):
        length, kind = struct.unpack_from("<HH", tape, at)
        end = at + 2 + length
        if length < 2 or end > len(tape):
            return
        yield kind, tape[at + 4:end], end
        at = end


def call(kind, body):
    if kind == CHARACTER:
        tick, value, parity = struct.unpack("<IBB", body)
        return "character %d 0x%02X %s" % (tick, value, "true" if parity else "false")
    if kind == POLL:
        return "poll %d" % struct.unpack("<I", body)
    if kind == MEASURED:
        return "measured %d" % struct.unpack("<I", body)
    if kind == FAULT:
        return "fault 0x%02X" % body[0]
    return "power_on"


def as_list(items):
    return " ∷ ".join(list(items) + ["[]"])


def answered(second, tape, *mode):
    done = subprocess.run([second, *mode], input=tape, stdout=subprocess.PIPE, check=True)
    return done.stdout.decode().splitlines()


def ticks_of(line):
    """What an answer carried, as the definitions tell it."""
    ticks = line.split(" ")[1]
    return "(%s)" % as_list(["0"] if ticks == "none" else ["1", ticks])


def case_of(second, tape, events):
    """The claims of one tape, with its numbers of events, replies and answers that carry ticks; None where the tape does not serve."""
    found = list(records(tape))[:events + 1]
    if len(found) < 2 or found[0][0] != PLATE:
        return None
    plate = found[0][1]
    printed = answered(second, tape[:found[-1][2]])
    if len(plate) != 5 or plate[0] > MOST_BLOCKS or any(line.startswith("bad") for line in printed):
        return None
    calls = [call(kind, body) for kind, body, _ in found[1:]]
    replies = []
    for line in printed[1:]:
        tick, *values = line.split(" ")
        replies.append("(%s)" % as_list([tick] + ["0x" + value for value in values]))
    fields = "total = %d; bits = %d; address = %d; ticks = %d; pause = %d; label = zeros label_length" % tuple(plate)
    sleeps = [ticks_of(line) for line in answered(second, tape[:found[-1][2]], "--remaining")[1:]]
    claims = ["T (%s (record { %s }) (%s) (%s))" % (what, fields, as_list(calls), as_list(lines)) for what, lines in (("prints", replies), ("tells", sleeps))]
    return claims, len(calls), len(replies), len(sleeps)


def names_of(specs):
    """What each file of definitions has: all names, and those of them that unfold."""
    imports, unfolding = [], []
    for name in ["Bytes", "State", "Fields", "Characters", "Commands", "Frames", "Run"]:
        with open(os.path.join(specs, name + ".antt"), encoding="utf-8") as file:
            words = [line.split() for line in file]
        shut = [w[2] for w in words if w[:2] == ["unfoldable", "pub"] and w[2] != "use"]
        types = [w[2] for w in words if w[:2] in (["pub", "record"], ["pub", "data"])]
        opened = [w[2] for w in words if w[:2] == ["abbrev", "pub"]]
        imports.append("use Rattle.meaning.specs.%s.{%s}\n" % (name, ", ".join(shut + opened + types + CASES.get(name, []))))
        unfolding += shut
    return "".join(imports), " ".join(OWN + unfolding)


def crate_of(claims, work):
    """A repository in the folder, of meaning and of a crate that claims these: that crate's folder."""
    meaning, crate = (os.path.join(work, "crates", name) for name in ("meaning", "vectors"))
    shutil.copytree(os.path.join(ROOT, "crates", "meaning"), meaning, ignore=shutil.ignore_patterns("incremental"))
    imports, unfolding = names_of(os.path.join(meaning, "specs"))
    lemmas = ["\ncase_%d : %s\nunfolding %s\ncase_%d = tt\n" % (number, claim, unfolding, number) for number, claim in enumerate(claims)]
    files = {
        os.path.join(work, "crates.txt"): "meaning:\nvectors: meaning\n",
        os.path.join(crate, "src", "lib.rt"): ROOT_FILE,
        os.path.join(crate, "proofs", "Lib.antt"): "-- The claims.\npub mod Vectors\n",
        os.path.join(crate, "proofs", "Vectors.antt"): HEADER + imports + DEFINITIONS + "".join(lemmas),
    }
    for path, text in files.items():
        os.makedirs(os.path.dirname(path), exist_ok=True)
        with open(path, "w", encoding="utf-8") as file:
            file.write(text)
    return crate


def main():
    second = os.path.abspath(sys.argv[1])
    count, events, seed = [int(given) for given in sys.argv[2:5]] + [40, 200, 4711][len(sys.argv) - 2:]
    work = tempfile.mkdtemp()
    try:
        tapes = os.path.join(work, "tapes")
        generator = os.path.join(ROOT, "second", "generate.py")
        subprocess.run([sys.executable, generator, str(seed), str(count), tapes], check=True, stdout=subprocess.DEVNULL)
        cases = []
        for name in sorted(os.listdir(tapes)):
            with open(os.path.join(tapes, name), "rb") as file:
                cases.append(case_of(second, file.read(), events))
        cases = [case for case in cases if case]
        crate = crate_of([claim for case in cases for claim in case[0]], work)
        checked = subprocess.run(["rt", "check"], cwd=crate, stdout=subprocess.PIPE, stderr=subprocess.STDOUT)
        if checked.returncode or not cases:
            sys.exit(checked.stdout.decode()[-3000:] + "\nvectors: the definitions differ from the second program")
        sums = [sum(case[place] for case in cases) for place in (1, 2, 3)]
        print("vectors: %d tapes, %d events, %d replies, %d answers with their remaining ticks: the definitions and the second program agree" % (len(cases), *sums))
    finally:
        shutil.rmtree(work)


if __name__ == "__main__":
    main()
