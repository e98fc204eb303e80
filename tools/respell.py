#!/usr/bin/env python3
"""Respells the crates' own definitions and lemmas as today's Rattle has them: words in snake case, types and modules in camel case. Run once, after the kit's port.py.

respell.py [--look]

A word with a capital within, as `fullPause`, becomes `full_pause`, and `c4A` becomes `c4a`. In a name that specs/ or a lemma file declares a dash stays where it joins the
names of two definitions, as in `length-put`, and becomes `_` elsewhere, as in `put_in_part`. Names of src/, and labels that Rattle makes, stay. Where a lemma would have
a definition's name it gets `_lem`. With --look nothing is written: names that fall together are told.
"""

import collections
import glob
import os
import re
import sys

ROOT = os.path.dirname(os.path.dirname(os.path.abspath(__file__)))
WORD = re.compile(r"[^\s(){}.;,@\"«»|`]+")
CAMEL = re.compile(r"^[a-z][A-Za-z0-9_'₀-₉-]*$")
DECLARED = re.compile(r"^\s*(?:abbrev |unfoldable )?(?:pub )?([^\s(){}.;,@\"«»:]+)\s*(?:\{[^}]*\}\s*)*:(?!=)")
CONSTRUCTOR = re.compile(r"^\s+([a-z][^\s(){}.;,@\"«»:]*) :")
DEFINED = re.compile(r"^\s*(?:abbrev |unfoldable )(?:pub )?([^\s(){}.;,@\"«»:]+)")
STD = "length append take drop map reverse get_or set zero suc add sub mul div mod min max not true false cond eqb ltb leb nil cons head tail replicate sum".split()


def read(path):
    with open(path, encoding="utf-8") as file:
        return file.read()


def paths(*patterns):
    for pattern in patterns:
        yield from sorted(glob.glob(os.path.join(ROOT, "crates", pattern), recursive=True))


def code(line):
    """A line of antt without its comment."""
    return re.split(r"(?:^|\s)--(?:\s|$)", line, maxsplit=1)[0]


def snake(word):
    """Capitals within a word: after a small letter a new word begins, after a digit it is that number's own."""
    word = re.sub(r"(?<=[a-z])([A-Z])(?=[a-z]|$|[-_'₀-₉])", lambda m: "_" + m[1].lower(), word)
    word = re.sub(r"(?<=[a-z])([A-Z])", lambda m: "_" + m[1].lower(), word)
    return re.sub(r"(?<=[0-9])([A-Z])(?![a-z])", lambda m: m[1].lower(), word)


def is_camel(word):
    return bool(CAMEL.match(word)) and bool(re.search(r"[a-z0-9][A-Z]", word)) and not re.fullmatch(r"x[0-9A-F]+", word)


def antt_names():
    """Every name that specs/ and the lemma files declare, and of these the definitions."""
    names, definitions = set(), set()
    for path in paths("*/specs/*.antt", "*/proofs/*.antt"):
        for line in read(path).split("\n"):
            found = DECLARED.match(code(line)) or CONSTRUCTOR.match(code(line))
            if found:
                names.add(found.group(1))
            found = DEFINED.match(code(line))
            if found:
                definitions.add(found.group(1))
            elif "/specs/" in path and (found := DECLARED.match(code(line))):
                definitions.add(found.group(1))
    return names, definitions


def dashes(name, known):
    """Parts that together are a definition's name stay one; a dash stays between two definitions."""
    parts, units = name.split("-"), []
    while parts:
        for n in range(len(parts), 0, -1):
            unit = "_".join(parts[:n])
            if n == 1 or unit in known:
                units.append(unit)
                parts = parts[n:]
                break
    out = units[0]
    for before, unit in zip(units, units[1:]):
        out += ("-" if before in known and unit in known else "_") + unit
    return out


def table():
    names, definitions = antt_names()
    known = {snake(name).replace("-", "_") for name in definitions} | set(STD)
    new = {}
    for path in paths("*/specs/**/*.antt", "*/proofs/**/*.antt"):
        for line in read(path).split("\n"):
            for word in WORD.findall(code(line)):
                if is_camel(word):
                    new[word] = snake(word)
    for name in names:
        if "-" in name.strip("-") and not re.search(r"[◌→≡]", name):
            in_specs = name in definitions
            spelled = snake(name)
            new[name] = spelled.replace("-", "_") if in_specs else dashes(spelled, known)
    return apart({a: b for a, b in new.items() if a != b}, names), names


def apart(new, names):
    """Where a lemma would have its definition's name it gets `_lem`."""
    back = collections.defaultdict(set)
    for a, b in new.items():
        back[b].add(a)
    for b, a in back.items():
        defined = [name for name in a if "-" not in name]
        if b in names and defined:
            new[b] = b + "_lem"
        for name in a:
            if len(a) > 1 and defined and name not in defined:
                new[name] = b + "_lem"
    return new


def respelled(text, new):
    return WORD.sub(lambda m: new.get(m[0], m[0]), text)


def rt_line(line, new, camel):
    if re.match(r"^\s*(ghost use|requires|ensures|ghost)\b", line):
        return respelled(line, new)
    return re.sub(r"(?<![\w\"'-])[a-z][A-Za-z0-9]*(?![\w\"-])", lambda m: camel.get(m[0], m[0]), line)


def main(words):
    new, names = table()
    camel = {a: b for a, b in new.items() if is_camel(a) and "-" not in a}
    back = collections.defaultdict(set)
    for a, b in new.items():
        back[b].add(a)
    for b, a in sorted(back.items()):
        if len(a) > 1 or b in names:
            print("falls together: %s: %s%s" % (b, " ".join(sorted(a)), " and " + b if b in names else ""))
    for path in paths("*/specs/**/*.antt", "*/proofs/**/*.antt", "*/src/**/*.rt"):
        text = read(path)
        own = path.endswith(".rt")
        before = set(re.findall(r"[A-Za-z_]\w*", text)) if own else set(w for l in text.split("\n") for w in WORD.findall(code(l)))
        meets = sorted({b for w in before for b in [new.get(w)] if b and b in before})
        if meets:
            print("meets in %s: %s" % (os.path.relpath(path, ROOT), " ".join(meets)))
    if "--look" in words:
        return
    for path in paths("*/specs/**/*.antt", "*/proofs/**/*.antt", "*/src/**/*.rt", "*/must-fail/*.edit"):
        text = read(path)
        if path.endswith(".rt"):
            text = "\n".join(rt_line(line, new, camel) for line in text.split("\n"))
        else:
            text = respelled(text, new)
        with open(path, "w", encoding="utf-8") as file:
            file.write(text)
    with open(os.path.join(ROOT, "docs", "RESPELLED.tsv"), "w", encoding="utf-8") as file:
        file.write("".join("%s\t%s\n" % pair for pair in sorted(new.items())))
    print("respell: %d names" % len(new))


if __name__ == "__main__":
    main(sys.argv[1:])
