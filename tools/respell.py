#!/usr/bin/env python3
"""Spells the repository's own definitions, lemmas and record fields in snake case, once, after port.py.

usage: python3 tools/respell.py        at the top of the repository, on what port.py has just written

`wellFormed` and `every-none` become `well_formed` and `every_none`. A fact keeps its capitals, as in `NoLF-append`.
A lemma that would get the name of a definition ends in `_lem`. Names of Rust, of paths and of libraries stay.
"""

import glob
import re

LAWS = sorted(glob.glob("crates/*/specs/*.antt") + glob.glob("crates/*/proofs/*.antt"))
PROOFS = sorted(set(glob.glob("crates/*/proofs/**/*.antt", recursive=True)) - set(LAWS))
SOURCES = sorted(glob.glob("crates/*/src/**/*.rt", recursive=True))
EDITS = sorted(glob.glob("crates/*/must-fail/*.edit"))
PAGES = ["README.md"] + sorted(glob.glob("docs/*.md"))

DECLARED = re.compile(
    r"^ *(?:(?:abbrev|unfoldable|pub|data|record) )*([^\s(){};,.]+)(?: \{[^{}\n]*\})* :(?!=)", re.M
)
RECORD = re.compile(r"^(?:pub )?record [^\n]*?where\n((?:  [^\n]*\n|\n)*)", re.M)
NAME = r'[^\s(){}.;,@"«»`*:]+'
OUTSIDE = re.compile(r"use ([^\s;{]+?)\.?(?:\{([^}]*)\})?(?=[;\s]|$)")

# The names that would fall together, and facts, whose capitals stay.
GIVEN = {
    "and_byte": "and_byte_lem",
    "same_bytes": "same_bytes_lem",
    "machines-in": "machines_fit",
    "width-in": "width_fits",
    "noLF-append": "NoLF-append",
    "noLF-digits": "NoLF-digits",
    "noLF-decimal": "NoLF-decimal",
}


def read(path):
    with open(path, encoding="utf-8") as f:
        return f.read()


def snake(name):
    if name[0].islower():
        name = re.sub(r"(?<=[a-z0-9])[A-Z]", lambda m: "_" + m[0].lower(), name)
    return name.replace("-", "_")


def outside(text):
    """The names that a file takes from the libraries."""
    taken = set()
    for path, items in OUTSIDE.findall(text):
        own = re.match(r"Rattle\.(\w+)", path)
        if own and any(f"crates/{own[1]}/" in p for p in LAWS + SOURCES):
            continue
        taken.update(re.findall(NAME, items))
    return taken


def table():
    declared = set()
    for path in LAWS:
        declared.update(DECLARED.findall(read(path)))
    turned = {n: snake(n) for n in declared if snake(n) != n}
    defined = {snake(n) for n in declared if "-" not in n and snake(n) != n} | {"move_of", "cells_in"}
    for name in turned:
        if "-" in name and turned[name] in defined:
            turned[name] += "_lem"
    turned.update(GIVEN)
    return turned


def fields():
    found = set()
    for path in LAWS:
        for body in RECORD.findall(read(path)):
            found.update(re.findall(r"(?m)^  (?:pub )?(\S+) :", body))
    return found


def turn(path, names, behind_dots):
    """Rewrites one file: `names`, and behind a dot only those of `behind_dots`."""
    text = read(path)
    kept = outside(text)

    def one(m):
        name = m[0]
        dotted = m.start() > 0 and text[m.start() - 1] == "."
        if name in kept and not dotted or dotted and name not in behind_dots:
            return name
        return names.get(name, name)

    new = re.sub(NAME, one, text)
    if new != text:
        with open(path, "w", encoding="utf-8") as f:
            f.write(new)
    return new != text


def main():
    names = table()
    own_fields = fields()
    changed = 0
    for path in LAWS:
        changed += turn(path, names, set(names))
    for path in PROOFS:
        changed += turn(path, names, own_fields)
    camel = {n: t for n, t in names.items() if "-" not in n and snake(n) != n}
    for path in SOURCES + EDITS:
        changed += turn(path, camel, own_fields)
    # Pages name what port.py turned as well.
    declared = set(names.values())
    for path in LAWS:
        declared.update(DECLARED.findall(read(path)))
    for path in PAGES:
        text = read(path)

        def one(m):
            name = m[0]
            return names.get(name) or (snake(name) if snake(name) in declared else name)

        new = re.sub(r"`[^`\n]+`", lambda m: re.sub(NAME.replace("`*:", "`:"), one, m[0]), text)
        if new != text:
            changed += 1
            with open(path, "w", encoding="utf-8") as f:
                f.write(new)
    print(f"respell: {changed} files changed, {len(names)} names")


if __name__ == "__main__":
    main()
