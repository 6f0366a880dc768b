#!/usr/bin/env python3
"""Spells the repository's own definitions, lemmas and fields in snake case, by the table names.tsv beside this file.

usage: tools/respell.py [TOP]     once, at the top of a tree in which port.py ran and nothing else was changed

It goes over specs/, proofs/, the ghost items and clauses of src/, and the edits of every crate. A name that a file imports from a module
that is not the repository's own is left alone in that file, and so are comments, but for what stands between backticks.
"""
import glob
import os
import re
import sys

HERE = os.path.dirname(os.path.realpath(__file__))
TOKEN = re.compile(r"(?<![\w'′-])[A-Za-zα-ωΑ-Ω][\w'′-]*(?<!-)")
FIELD = re.compile(r"\s*(?:pub )?([a-zμκ][\w'-]*(?: [a-zμκ][\w'-]*)*) :")
RECORD = re.compile(r"\s*(?:pub )?record .*where\s*$")
USE = re.compile(r"^\s*(?:ghost )?use ([^\s{]+)\.\{(.*)\};?\s*$")


def fields_of(files):
    """The names of the fields of the repository's own records."""
    found = set()
    for path in files:
        depth = None
        for line in open(path, encoding="utf-8"):
            at = len(line) - len(line.lstrip())
            if RECORD.match(line):
                depth = at
                continue
            if depth is not None and line.strip() and at <= depth and not line.lstrip().startswith("--"):
                depth = None
            match = FIELD.match(line) if depth is not None else None
            if match:
                found |= set(match.group(1).split())
    return found


def joined(text):
    """The text with each `use` item that stands on several lines on one."""
    return re.sub(r"^((?:ghost )?use [^\n;]*\{)([^}]*)\}", lambda m: m.group(1) + " ".join(m.group(2).split()).rstrip(",") + "}", text, flags=re.M)


def foreign(text, crates):
    """The names that a file imports from a module which is not the repository's own."""
    found = set()
    for line in joined(text).split("\n"):
        match = USE.match(line)
        if not match:
            continue
        parts = match.group(1).split(".")
        if parts[0] == "Rattle" and len(parts) > 1 and parts[1] in crates:
            continue
        for name in match.group(2).split(","):
            found.add(name.split(" as ")[0].strip())
    return found


def turn(text, table, keep, fields, walk, comment):
    """The text with its names spelled anew. In a walk, what stands behind a dot is a step of the code or a field."""

    def one(line):
        def name(match):
            word = match.group(0)
            if word in keep or word not in table:
                return word
            if walk and match.start() > 0 and line[match.start() - 1] == "." and word not in fields:
                return word
            return table[word]

        if line.lstrip().startswith(comment):
            return re.sub(r"`[^`]*`", lambda m: TOKEN.sub(lambda n: table.get(n.group(0), n.group(0)), m.group(0)), line)
        return TOKEN.sub(name, line)

    return "\n".join(one(line) for line in text.split("\n"))


def main(top):
    table = dict(line.rstrip("\n").split("\t") for line in open(os.path.join(HERE, "names.tsv"), encoding="utf-8"))
    crates = {os.path.basename(p) for p in glob.glob(os.path.join(top, "crates", "*"))}
    files = [p for p in sorted(glob.glob(os.path.join(top, "crates", "**", "*"), recursive=True)) if p.endswith((".antt", ".rt", ".edit")) and "/out/" not in p]
    fields = fields_of([p for p in files if p.endswith(".antt")])
    # A name in snake case is in the table only where a lemma gives way to a definition: no code cites it.
    code = {a: b for a, b in table.items() if "-" in a or re.search(r"[a-z0-9][A-Z]", a)}
    changed = 0
    for path in files:
        text = open(path, encoding="utf-8").read()
        if path.endswith(".antt"):
            new = turn(text, table, foreign(text, crates), fields, path.endswith("/Proof.antt"), "--")
        elif path.endswith(".rt"):
            new = turn(text, code, foreign(text, crates), fields, False, "//")
        else:
            new = turn(text, code, set(), fields, False, "#")
        if new != text:
            open(path, "w", encoding="utf-8").write(new)
            changed += 1
    print(f"respell: {changed} of {len(files)} files changed")


if __name__ == "__main__":
    main(sys.argv[1] if len(sys.argv) > 1 else ".")
