#!/usr/bin/env python3
"""Fails if docs/TRACE.md or docs/ARCHITECTURE.md names a file, definition, theorem, function, test, tape or edit that is not there.

A reference stands in backquotes: `FILE: NAME, NAME`, or `FILE` alone. FILE is below crates/ or the project's root, without .antt;
a name is one that the file defines, or in double quotes a text that stands so in a C file, as the name of a row of a table.
In TRACE every backquoted word of a table is one; in ARCHITECTURE those are that name a source file.
"""

import os
import re
import sys

ROOT = os.path.dirname(os.path.dirname(os.path.abspath(__file__)))
# Each page with the lines and the backquoted words that are held to the code.
PAGES = (("docs/TRACE.md", r"\| ", r"`([^`]+)`"), ("docs/ARCHITECTURE.md", r"", r"`(\w+/src/[^`]+)`"))
# How a file of each kind defines a name.
DEFINED = {
    ".antt": r"^\s*(?:(?:abbrev |unfoldable )?(?:pub )?%s(?: \{[^}]*\})* :|(?:pub )?(?:data|record) %s )",
    ".rt": r"^\s*(?:pub(?:\(crate\))? )?(?:extern \"C\" )?(?:fn|struct|enum|const) %s\b",
    ".c": r"^(?:static )?\w+ \*?%s\(.*\{$",
}


def path_of(name):
    """The file that a reference names, or None."""
    for place in ("crates/" + name + ".antt", "crates/" + name + ".edit", "crates/" + name, name):
        path = os.path.join(ROOT, place)
        if os.path.exists(path):
            return path
    return None


def has(path, text, name):
    kind = os.path.splitext(path)[1]
    if name.startswith('"'):
        return kind == ".c" and name in text
    form = DEFINED.get(kind)
    return form is not None and re.search(form.replace("%s", re.escape(name)), text, re.M) is not None


def faults(reference):
    """What is wrong with a reference."""
    file, _, names = reference.partition(": ")
    path = path_of(file)
    if path is None:
        yield "no file " + file
        return
    if not names:
        return
    with open(path, encoding="utf-8") as opened:
        text = opened.read()
    for name in re.findall(r'"[^"]*"|[^,\s][^,]*', names):
        if not has(path, text, name.strip()):
            yield "%s has no %s" % (file, name.strip())


def main():
    wrong = []
    for page, line_form, reference_form in PAGES:
        with open(os.path.join(ROOT, page), encoding="utf-8") as file:
            lines = [line for line in file if re.match(line_form, line)]
        references = [found for line in lines for found in re.findall(reference_form, line)]
        wrong += ["%s: %s" % (page, fault) for reference in references for fault in faults(reference)]
        if not references:
            wrong.append("%s: no references" % page)
        print("trace: %s: %d lines, %d references" % (page, len(lines), len(references)))
    if wrong:
        sys.exit("\n".join(wrong))
    print("trace: each reference is there")


if __name__ == "__main__":
    main()
