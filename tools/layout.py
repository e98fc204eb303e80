#!/usr/bin/env python3
"""Holds the crates to their layout, and fails with file and line of what is over: a line of at most 300 characters, a function of at most 40 lines, a name of the
definitions that stands in one file only.

layout.py

Lines are those of the crates' code, definitions, proofs and must-fail edits. A function is counted from its `fn` line to its closing
brace, which `rt fmt` puts alone on a line, as far in as the `fn` line. One word has one meaning, so no two files of specs/ export the same name.
"""

import glob
import os
import re
import sys

ROOT = os.path.dirname(os.path.dirname(os.path.abspath(__file__)))
LONGEST_LINE = 300
LONGEST_FUNCTION = 40
EXPORTED = re.compile(r"^(?:abbrev |unfoldable )?pub (?!mod |use )(?:record |data )?(\S+)")
FUNCTION = re.compile(r"^(\s*)(?:pub(?:\(\w+\))? )?(?:extern \"C\" )?fn (\w+)")


def files(*patterns):
    """Each file's name from the root on, and its lines."""
    for pattern in patterns:
        for path in sorted(glob.glob(os.path.join(ROOT, "crates", pattern), recursive=True)):
            with open(path, encoding="utf-8") as file:
                yield os.path.relpath(path, ROOT), file.read().split("\n")


def long_lines():
    for name, lines in files("*/src/**/*.rt", "*/specs/**/*.antt", "*/proofs/**/*.antt", "*/must-fail/*.edit"):
        for number, line in enumerate(lines, 1):
            if len(line) > LONGEST_LINE:
                yield "%s:%d: a line of %d characters" % (name, number, len(line))


def functions(lines):
    """Each function's name, its first line's number, and how many lines it has."""
    for start, line in enumerate(lines):
        found = FUNCTION.match(line)
        if found:
            brace = found.group(1) + "}"
            end = next(place for place in range(start, len(lines)) if lines[place] == brace)
            yield found.group(2), start + 1, end - start + 1


def long_functions():
    for name, lines in files("*/src/**/*.rt"):
        for function, number, length in functions(lines):
            if length > LONGEST_FUNCTION:
                yield "%s:%d: %s has %d lines" % (name, number, function, length)


def twice_named():
    """Names that two files of specs/ export, the second file of each."""
    first = {}
    for name, lines in files("*/specs/*.antt"):
        for number, line in enumerate(lines, 1):
            found = EXPORTED.match(line)
            if found and first.setdefault(found.group(1), name) != name:
                yield "%s:%d: %s stands in %s too" % (name, number, found.group(1), first[found.group(1)])


def main():
    wrong = list(long_lines()) + list(long_functions()) + list(twice_named())
    if wrong:
        sys.exit("\n".join(wrong))
    print("layout: no line over %d characters, no function over %d lines, no name of specs/ in two files" % (LONGEST_LINE, LONGEST_FUNCTION))


if __name__ == "__main__":
    main()
