#!/usr/bin/env python3
"""Brings the repository's own names to the spelling of the toolchain: types in camel case, all else in snake case.

usage: python3 tools/respell.py            at the top: rewrites crates/ in place
       python3 tools/respell.py --list     prints old and new names, and those that fall together

Names are those that specs/ and proofs/ declare with a dash: definitions, lemmas, records and their fields, constructors.
Names that the toolchain makes (goals, invariants, steps) keep their dashes, and so do Rust's own names, strings and edits.
"""

import os
import re
import sys

# a name as the proofs' language has it
NAME = re.compile(r"[A-Za-z_][A-Za-z0-9_'₀-₉-]*")
DECLARES = re.compile(r"^\s*(?:(?:abbrev|unfoldable)\s+)?(?:pub\s+)?(?:(?:record|data)\s+([A-Za-z_][A-Za-z0-9_'₀-₉-]*)\s*[:({]|(?:ruleset\s+)?([A-Za-z_][A-Za-z0-9_'₀-₉-]*)\s*:(?!=))")
FUNCTION = re.compile(r"\bfn\s+([a-z_][a-z0-9_]*)")
# names that would be those of a function of the same crate, but for the laws, whose lemmas get '_lem'
OTHER = {"on-side": "is_on_side"}
# answers and invariants are named by the toolchain
MADE = re.compile(r":\s*(?:[A-Za-z]+)\.[A-Za-z]")


def files(top, endings):
    for folder, dirs, names in os.walk(os.path.join(top, "crates")):
        dirs[:] = sorted(d for d in dirs if d != "out")
        for name in sorted(names):
            if name.endswith(endings):
                yield os.path.join(folder, name)


def crate(path):
    parts = path.split(os.sep)
    return parts[parts.index("crates") + 1]


def read(path):
    with open(path, encoding="utf-8") as f:
        return f.read()


def spelled(name, functions):
    if name in OTHER:
        return OTHER[name]
    parts = name.split("-")
    if parts[0][:1].isupper():
        return "".join(p[:1].upper() + p[1:] for p in parts)
    plain = "_".join(parts)
    return plain + "_lem" if plain in functions else plain


def declared(text):
    for line in text.split("\n"):
        if line.lstrip().startswith("--"):
            continue
        found = DECLARES.match(line)
        name = found and (found.group(1) or found.group(2))
        if name and "-" in name and not MADE.search(line):
            yield name


def main():
    top = "."
    names = set()
    every = set()
    where = {}
    functions = {}
    for path in files(top, (".rt",)):
        text = read(path)
        every |= set(NAME.findall(text))
        functions.setdefault(crate(path), set()).update(FUNCTION.findall(text))
    taken = {}
    for path in files(top, (".antt",)):
        text = read(path)
        every |= set(NAME.findall(text))
        for name in declared(text):
            names.add(name)
            where.setdefault(name, set()).add(os.path.relpath(path, top))
            taken.setdefault(name, set()).update(functions.get(crate(path), ()))
    turned = {n: spelled(n, taken[n]) for n in sorted(names)}
    lower = {}
    for n in every:
        lower.setdefault(n.lower(), set()).add(n)
    if "--list" in sys.argv:
        for n, m in turned.items():
            clash = sorted(x for x in lower.get(m.lower(), ()) if x != n)
            twin = sorted(x for x in turned if turned[x].lower() == m.lower() and x != n)
            print(n, m, *(["CLASH"] + clash if clash else []), *(["TWIN"] + twin if twin else []), *sorted(where[n])[:3])
        return
    for path in files(top, (".antt", ".rt")):
        text = read(path)
        new = NAME.sub(lambda m: turned.get(m.group(0), m.group(0)), text)
        if new != text:
            with open(path, "w", encoding="utf-8") as f:
                f.write(new)
    print(f"respell: {len(turned)} names")


main()
