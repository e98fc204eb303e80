#!/usr/bin/env python3
"""run.py PROGRAM: runs an answer program on every stored tape of this folder and compares what it prints. Ends with status 1 on any difference,
also where a stored file is not what make.py or the session's text says, or none is stored."""
import pathlib
import subprocess
import sys

from make import HERE, TAPES


def main():
    if len(sys.argv) != 2 or not pathlib.Path(sys.argv[1]).is_file():
        sys.exit("run.py PROGRAM: no such answer program")
    program = pathlib.Path(sys.argv[1]).resolve()
    wrong = 0
    stored = {p.stem for p in HERE.glob("*.tape")} | {p.stem for p in HERE.glob("*.out")}
    if stored != set(TAPES) or not TAPES:
        print(f"tapes: stored and described tapes differ: {sorted(stored ^ set(TAPES))}")
        wrong += 1
    for name, (data, text) in TAPES.items():
        tape, out = HERE / f"{name}.tape", HERE / f"{name}.out"
        if not tape.is_file() or tape.read_bytes() != data or not out.is_file() or out.read_text() != text:
            print(f"tapes: {name} is not stored as make.py writes it")
            wrong += 1
            continue
        got = subprocess.run([str(program)], input=data, stdout=subprocess.PIPE, timeout=60)
        if got.returncode != 0 or got.stdout != text.encode():
            print(f"tapes: {name}: status {got.returncode}, printed {got.stdout!r}, wanted {text!r}")
            wrong += 1
    print(f"tapes: {len(TAPES)} run, {wrong} wrong")
    return 1 if wrong else 0


if __name__ == "__main__":
    sys.exit(main())
