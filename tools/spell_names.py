#!/usr/bin/env python3
"""Brings the names of definitions, fields and lemmas of specs/ and proofs/ to snake case: usage: spell_names.py [--list], at the top of the repository.

A name with a capital inside (`lineIn`) or a dash (`cells-are-so`) that a crate declares is respelled (`line_in`, `cells_are_so`) in that crate
and in those above it. Kept are: types and modules, names that the toolchain makes (the goals of an answer file, invariants and measures),
names that a file imports from the standard library, strings, comments and functions of src/. It stops, and writes nothing, where two names fall together.
"""

import os
import re
import sys

NAME = r"[A-Za-z_◌ᶠ][\w'◌ᶠ-]*"
TOKEN = re.compile(rf"(?<![\w'-])({NAME})(?![\w'-])")
DECLARED = re.compile(rf"^\s*(?:(?:abbrev|unfoldable|pub)\s+)*({NAME})\s*(?:\{{[^}}]*\}}\s*)?(?:\([^)]*\)\s*)*:\s*(\S+)")
MADE = re.compile(r"(?:invariant|decreases|ghost)-")
# Where the plain rule gives a name that is taken, or reads badly.
OTHERWISE = {"filing-at": "filing_at_lem", "equalZ": "int_equal"}
STD = re.compile(r"use\s+(?:Rattle\.std|borrow|denote|Prim)[\w.'-]*\s*(?:\.\{([^}]*)\})?")


def spelled(name):
    """The name in snake case, where it is no type."""
    if name[:1].isupper():
        return name
    if name in OTHERWISE:
        return OTHERWISE[name]
    name = name.replace("leZ", "int_le").replace("ltZ", "int_lt")
    return re.sub(r"(?<=[a-z0-9'])([A-Z])", lambda m: "_" + m[1].lower(), name).replace("-", "_")


def texts(crate):
    """The files of a crate that hold names, as paths."""
    for folder, dirs, files in os.walk(os.path.join("crates", crate)):
        dirs[:] = sorted(d for d in dirs if d != "out")
        for f in sorted(files):
            if f.endswith((".rt", ".antt", ".edit")):
                yield os.path.join(folder, f)


def read(path):
    with open(path, encoding="utf-8") as f:
        return f.read()


def declared(crate):
    """The names that the crate's specs/ and proofs/ declare, without those of the toolchain."""
    found = set()
    for path in texts(crate):
        if not path.endswith(".antt"):
            continue
        for line in read(path).splitlines():
            m = DECLARED.match(line)
            if m and not m[2].startswith("goal.") and not MADE.match(m[1]) and "use " not in line[:8]:
                found.add(m[1])
    return found


def from_std(text):
    """The names that a file imports from the standard library."""
    return {n.strip() for m in STD.finditer(text) for n in (m[1] or "").split(",")}


def below():
    """Each crate with all that it rests on, itself too."""
    rests = {}
    for line in read("crates.txt").splitlines():
        line = line.split("#")[0].strip()
        if line:
            name, _, deps = line.partition(":")
            rests[name.split()[0]] = set(deps.split())

    def all_of(c):
        return {c}.union(*(all_of(d) for d in rests.get(c, ()) if d in rests))

    return {c: all_of(c) for c in rests}


def main():
    rests = below()
    own = {c: declared(c) for c in rests}
    changes = {c: {n: spelled(n) for d in sorted(rests[c]) for n in own[d] if spelled(n) != n} for c in rests}
    clashes = []
    for c in sorted(rests):
        kept = {n for d in rests[c] for n in own[d] if spelled(n) == n}
        seen = {}
        for old, new in sorted(changes[c].items()):
            if new in kept or new in seen:
                clashes.append(f"{c}: {old} and {seen.get(new, new)}")
            seen[new] = old
    if "--list" in sys.argv[1:]:
        for c in sorted(rests):
            for old in sorted(own[c]):
                if spelled(old) != old:
                    print(f"{c}: {old} -> {spelled(old)}")
    if clashes:
        print("these fall together:\n" + "\n".join(clashes))
    if clashes or "--list" in sys.argv[1:]:
        return 1 if clashes else 0
    for c in sorted(rests):
        for path in texts(c):
            text = read(path)
            std = from_std(text)

            def respell(m):
                return m[1] if m[1] in std else changes[c].get(m[1], m[1])

            lines = []
            for line in text.split("\n"):
                mark = re.search(r"(?<!\S)(--|//)", line)
                code, comment = (line[: mark.start()], line[mark.start() :]) if mark else (line, "")
                parts = re.split(r'("(?:[^"\\]|\\.)*")', code)
                lines.append("".join(p if p.startswith('"') else TOKEN.sub(respell, p) for p in parts) + comment)
            new = "\n".join(lines)
            if new != text:
                with open(path, "w", encoding="utf-8") as f:
                    f.write(new)
    return 0


if __name__ == "__main__":
    raise SystemExit(main())
