#!/usr/bin/env python3
"""Lists the public functions of every crate, and fails if docs/CONTRACTS.md lacks a row for one, has one for none, or cites what is not there.

contracts.py [--list]

Public is what a crate hands out: a function that lib.rt passes on by `pub use` or that stands in a `pub mod`, a method of a type
that is handed out so, and an exported `extern "C"` function. A row of the table begins with the function's name in backquotes,
as `crate::Type::method`. What its last two columns cite, a word with a hyphen or an underscore, is a law, a must-fail edit or a stored tape.
"""

import glob
import os
import re
import sys

ROOT = os.path.dirname(os.path.dirname(os.path.abspath(__file__)))
TABLE = os.path.join(ROOT, "docs", "CONTRACTS.md")
IMPL = re.compile(r"^impl (\w+) \{")
FUNCTION = re.compile(r"^(\s*)pub (extern \"C\" )?fn (\w+)")
PASSED_ON = re.compile(r"^pub use (\w+)::(?:(\w+)|\{([^}]*)\});", re.M)
LAW = re.compile(r"^\s*(?:pub )?([a-z0-9_-]+)(?: \{[^}]*\})* :", re.M)
CITED = re.compile(r"[a-z0-9]+(?:[-_][a-z0-9]+)+")
OPEN_MODULE = re.compile(r"^pub mod (\w+);")


def crates(root):
    """The crates that crates.txt lists and whose root is this module: lib for a library, main for a program."""
    with open(os.path.join(ROOT, "crates.txt"), encoding="utf-8") as file:
        names = [line.split(":")[0].split()[0] for line in file if ":" in line.split("#")[0]]
    return [name for name in names if os.path.exists(os.path.join(ROOT, "crates", name, "src", root + ".rt"))]


def lines_of(crate, module):
    with open(os.path.join(ROOT, "crates", crate, "src", module + ".rt"), encoding="utf-8") as file:
        return file.read().splitlines()


def modules_of(crate):
    files = os.listdir(os.path.join(ROOT, "crates", crate, "src"))
    return sorted(name[:-3] for name in files if name.endswith(".rt") and name != "lib.rt")


def functions_in(crate, module):
    """Each `pub fn` of a file, as (type it is a method of or None, name, whether C calls it)."""
    inside = None
    for line in lines_of(crate, module):
        begun = IMPL.match(line)
        if begun:
            inside = begun.group(1)
        elif line == "}":
            inside = None
        found = FUNCTION.match(line)
        if found:
            yield (inside if found.group(1) else None), found.group(3), bool(found.group(2))


def public_functions(crate):
    passed, opened = {}, []
    for module, name, names in PASSED_ON.findall("\n".join(lines_of(crate, "lib"))):
        passed.setdefault(module, set()).update(re.findall(r"\w+", name or names))
    for line in lines_of(crate, "lib"):
        module = OPEN_MODULE.match(line)
        if module:
            opened.append(module.group(1))
    for owner, name, _ in functions_in(crate, "lib"):
        yield "::".join(part for part in (crate, owner, name) if part)
    types = set().union(*passed.values())
    for module in modules_of(crate):
        prefix = crate + "::" + module if module in opened else crate
        for owner, name, exported in functions_in(crate, module):
            if exported or module in opened or owner in types or name in passed.get(module, ()):
                yield "::".join(part for part in (prefix, owner, name) if part)


def handed_out(program):
    """What a program calls public, though nobody can call it."""
    return [program + "::" + name for module in modules_of(program) for _, name, _ in functions_in(program, module)]


def rows():
    with open(TABLE, encoding="utf-8") as file:
        return [line.split("`")[1] for line in file if line.startswith("| `")]


def named_files(pattern):
    return {os.path.splitext(os.path.basename(path))[0] for path in glob.glob(os.path.join(ROOT, pattern))}


def laws():
    """The names that the crates' proofs define."""
    found = set()
    for path in glob.glob(os.path.join(ROOT, "crates", "*", "proofs", "**", "*.antt"), recursive=True):
        with open(path, encoding="utf-8") as file:
            found.update(LAW.findall(file.read()))
    return found


def missing_citations():
    there = laws() | named_files("crates/*/must-fail/*.edit") | named_files("tapes/*.tape")
    with open(TABLE, encoding="utf-8") as file:
        cells = [line.split("|")[5:7] for line in file if line.startswith("| `")]
    cited = {word for row in cells for cell in row for word in CITED.findall(cell)}
    return sorted(cited - there)


def main():
    found = [name for crate in crates("lib") for name in public_functions(crate)]
    if "--list" in sys.argv:
        print("\n".join(found))
        return
    told = rows()
    wrong = ["no row for " + name for name in found if name not in told]
    wrong += ["a row for what is not there: " + name for name in told if name not in found]
    wrong += ["a public function of a program: " + name for crate in crates("main") for name in handed_out(crate)]
    wrong += ["two rows for " + name for name in sorted(set(told)) if told.count(name) > 1]
    wrong += ["it cites %s, which is not there" % name for name in missing_citations()]
    if wrong:
        sys.exit("docs/CONTRACTS.md: " + "\ndocs/CONTRACTS.md: ".join(wrong))
    print("contracts: %d public functions, a row each" % len(found))


if __name__ == "__main__":
    main()
