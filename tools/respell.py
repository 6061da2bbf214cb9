#!/usr/bin/env python3
"""Spells the repository's own words of antt as today's library does: words in snake case, types and modules in camel case.

usage: python3 tools/respell.py [--list]        at the top of the repository, once, after the kit's own scripts

It takes the names that specs/ and the lemma files of proofs/ define (definitions, lemmas, fields, constructors, and what
is bound in them), and those that an answer binds by a `let`, and writes each with underscores where it had hyphens, and
`sum_by` where it had `sumBy`. It changes proof files, definitions, and the clauses and `ghost use` lines of the sources. A name that a file takes from
another library keeps its spelling in that file. Comments, strings and functions of src/ are left alone; names in
backquotes in README.md and docs/ are turned too. `--list` prints the names, and those that fall together, and changes
nothing.
"""

import os
import re
import sys

TOKEN = re.compile(r"[A-Za-z_][A-Za-z0-9_']*(?:-[A-Za-z0-9_'ℤ]+)*")
DEFINED = re.compile(r"^\s*(?:(?:abbrev|unfoldable|pub|private)\s+)*([A-Za-z_][A-Za-z0-9_'-]*)\s*:(?!:)")
TYPE = re.compile(r"^\s*(?:(?:abbrev|unfoldable|pub)\s+)*(?:record|data)\s+([A-Za-z_][A-Za-z0-9_'-]*)")
LET = re.compile(r"\blet\s+([A-Za-z_][A-Za-z0-9_'-]*)\s*(?:=|:)")
USE = re.compile(r"^\s*(?:pub\s+)?(?:ghost\s+)?use\s+([^\s;{]+?)\.?(?:\{([^}]*)\})?;?\s*$")


def files(root, ends):
    for folder, dirs, names in os.walk(root):
        dirs[:] = sorted(d for d in dirs if d not in ("out", ".git", "must-fail", "data"))
        for name in sorted(names):
            if name.endswith(ends):
                yield os.path.join(folder, name)


def read(path):
    with open(path, encoding="utf-8") as f:
        return f.read()


def lemma_file(path):
    """Whether a file is one of specs/ or directly in proofs/: what a function's folder has answers goals and keeps its names."""
    parts = path.split(os.sep)
    return path.endswith(".antt") and ("specs" in parts or parts[-2] == "proofs")


def without_comment(line):
    at = line.find("--")
    return line if at < 0 else line[:at]


def turned(name):
    name = re.sub(r"(?<=[a-z])([A-Z])", lambda m: "_" + m[1].lower(), name) if name[0].islower() and "-" in name else name
    return name.replace("-", "_")


def names_of(text, lets):
    found = set()
    for line in text.split("\n"):
        line = without_comment(line)
        for pattern in (DEFINED, TYPE):
            m = pattern.match(line)
            if m:
                found.add(m[1])
        if lets:
            found.update(LET.findall(line))
    return found


def foreign(text, crates):
    """The names that a file takes from a library that is not of this repository, or that the check makes."""
    found = set()
    for line in text.split("\n"):
        m = USE.match(without_comment(line))
        if not m:
            continue
        path = m[1].split(".")
        if path[0] == "Rattle" and len(path) > 1 and path[1] in crates and "declared" not in path:
            continue
        for item in (m[2] or "").split(","):
            found.add(item.strip().split(" as ")[0])
    return found


def spans(text, comment):
    """The stretches of a text that are neither comments nor strings."""
    at, start = 0, 0
    while at < len(text):
        if text.startswith(comment, at):
            yield start, at, True
            end = text.find("\n", at)
            end = len(text) if end < 0 else end
            yield at, end, False
            at = start = end
        elif text[at] == '"':
            yield start, at, True
            end = at + 1
            while end < len(text) and text[end] != '"':
                end += 2 if text[end] == "\\" else 1
            yield at, min(end + 1, len(text)), False
            at = start = min(end + 1, len(text))
        else:
            at += 1
    yield start, len(text), True


def code_of(text):
    return " ".join(text[a:b] for a, b, code in spans(text, "--") if code)


def respelled(text, comment, names, kept):
    def one(m):
        word = m[0]
        return turned(word) if word in names and word not in kept else word

    return "".join(TOKEN.sub(one, text[a:b]) if code else text[a:b] for a, b, code in spans(text, comment))


def main(argv):
    crates = set(os.listdir("crates"))
    proofs = list(files("crates", (".antt",)))
    names, lets = set(), {}
    for path in proofs:
        text = read(path)
        if lemma_file(path):
            names |= names_of(text, False)
        lets[path] = {n for n in names_of(text, True) if n in set(LET.findall(text))}
    names = {n for n in names if turned(n) != n}
    taken = {}
    for path in proofs:
        if lemma_file(path):
            for n in names_of(read(path), False):
                taken.setdefault(turned(n), set()).add(n)
    together = {t: sorted(ns) for t, ns in taken.items() if len(ns) > 1}
    if "--list" in argv:
        print("\n".join(sorted(names)))
        print("fall together:", together)
        return 0
    if together:
        print("fall together:", together)
        return 1
    for path in proofs:
        text = read(path)
        local = {n for n in (TOKEN.findall(code_of(text)) if lemma_file(path) else lets[path]) if "-" in n}
        new = respelled(text, "--", names | local, foreign(text, crates))
        if new != text:
            with open(path, "w", encoding="utf-8") as f:
                f.write(new)
    for path in files("crates", (".rt",)):
        text = read(path)
        new = respelled(text, "//", names, foreign(text, crates))
        if new != text:
            with open(path, "w", encoding="utf-8") as f:
                f.write(new)
    for path in ["README.md", *files("docs", (".md",))]:
        text = read(path)
        new = re.sub(r"`[^`\n]+`", lambda m: TOKEN.sub(lambda w: turned(w[0]) if w[0] in names else w[0], m[0]), text)
        if new != text:
            with open(path, "w", encoding="utf-8") as f:
                f.write(new)
    return 0


if __name__ == "__main__":
    raise SystemExit(main(sys.argv[1:]))
