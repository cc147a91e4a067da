#!/usr/bin/env python3
"""Brings the names of this repository's own definitions and lemmas to today's spelling, after the kit's port.py.

usage: python3 tools/respell.py     at the top, once

A name that is declared in a specs/ folder or in a lemma file of proofs/ goes from camelCase or with-dashes to snake_case.
A lemma that would then have the name of something else gets `_lem` at its end. Names that Rattle makes, of goals and of steps,
keep their dashes: they are declared nowhere here. In comments only a name between backticks or in camelCase is a name; a word
with a dash is a word.
"""
import glob
import os
import re
import sys

TOKEN = re.compile(r"[^\s(){}\[\].,;:«»\"`|]+")
DECLARED = re.compile(
    r"^\s*(?:(?:abbrev|unfoldable|pub|data|record|ruleset) )*([^\s(){}\[\].,;:«»\"`|=]+)((?:\s*\([^)]*\)|\s*\{[^}]*\})*)\s*:\s")
CAMEL = re.compile(r"^[a-z].*[a-z0-9][A-Z]")

# Lemmas that port.py gave the name that a definition has from now on.
LEMMAS = {"goes_on": "goes_on_lem", "one_by_one": "one_by_one_lem"}


def files(*patterns):
    return sorted(f for p in patterns for f in glob.glob(p, recursive=True))


def sources():
    return files("crates/*/specs/**/*.antt", "crates/*/proofs/*.antt")


def snake(name):
    return "_".join(w if len(w) == 1 else w.lower() for w in re.sub(r"(?<=[a-z0-9])(?=[A-Z])", "_", name).replace("-", "_").split("_"))


def declared():
    names = {}
    for path in sources():
        with open(path, encoding="utf-8") as f:
            for line in f:
                m = DECLARED.match(line)
                if m and not line.lstrip().startswith("--"):
                    names.setdefault(m.group(1), set()).add(path)
    return names


def used():
    """The names that stand in definitions and lemmas, fields behind a dot aside."""
    words = set()
    for path in sources():
        with open(path, encoding="utf-8") as f:
            for line in f:
                text = line.split("--")[0]
                words.update(m.group(0) for m in TOKEN.finditer(text) if text[m.start() - 1:m.start()] != ".")
    return words


def renaming():
    names = declared()
    turn = {n: snake(n) for n in names if not n[0].isupper() and ("-" in n or CAMEL.match(n))}
    taken = used() - set(turn) - set(LEMMAS)
    to, came = dict(LEMMAS), {new: n for n, new in LEMMAS.items()}
    # a definition has the first claim to a name, then a lemma
    for n in sorted(turn, key=lambda n: ("-" in n, n)):
        new = turn[n]
        if new in taken or new in came:
            new += "_lem"
        if new in taken or new in came:
            sys.exit(f"respell: {n} and {came.get(new, 'a name in use')} would both be {new}")
        to[n], came[new] = new, n
    return to


def turned(text, to):
    return TOKEN.sub(lambda m: to.get(m.group(0), m.group(0)), text)


def comment(text, to):
    """In prose: names between backticks, and camelCase ones."""
    text = re.sub(r"`[^`]*`", lambda m: turned(m.group(0), to), text)
    return TOKEN.sub(lambda m: to.get(m.group(0), m.group(0)) if CAMEL.match(m.group(0)) else m.group(0), text)


def line_of(line, mark, to):
    at = line.find(mark)
    if at < 0 or (mark == "--" and not re.match(r"\s*--(\s|$)", line[at - 1:] if at else " " + line)):
        return turned(line, to)
    return turned(line[:at], to) + comment(line[at:], to)


def main():
    to = renaming()
    for path in files("crates/*/specs/**/*.antt", "crates/*/proofs/**/*.antt", "crates/*/src/**/*.rt", "crates/*/must-fail/*.edit"):
        with open(path, encoding="utf-8") as f:
            old = f.read()
        mark = {".antt": "--", ".rt": "//", ".edit": "\0"}[os.path.splitext(path)[1]]
        new = "".join(line_of(line, mark, to) for line in old.splitlines(keepends=True))
        if new != old:
            with open(path, "w", encoding="utf-8") as f:
                f.write(new)
    for n in sorted(to):
        print(n, to[n])


if __name__ == "__main__":
    main()
