#!/usr/bin/env python3
"""Counts the places that docs/DESIGN-PASS.md speaks of, in crates/*/src/*.rt and crates/*/proofs.

    python3 tools/places.py [--list POINT] [FOLDER]

FOLDER is a checkout (this one, if none is given). With --list the places of one point are printed."""
import glob
import os
import re
import sys


def functions(text):
    """(name, line, parameters, body) of every function"""
    for m in re.finditer(r"^ *(?:pub(?:\(crate\))? )?(?:extern \"C\" )?fn (\w+)", text, re.M):
        i = text.find("(", m.end())
        depth, j = 0, i
        while True:
            depth += {"(": 1, ")": -1}.get(text[j], 0)
            j += 1
            if depth == 0:
                break
        indent = re.match(r" *", text[m.start():]).group(0)
        opens = text.find("\n" + indent + "{\n", j)
        semi = text.find(";", j)
        if opens == -1:
            continue
        ends = text.find("\n" + indent + "}\n", opens)
        yield m.group(1), text.count("\n", 0, m.start()) + 1, text[i + 1:j - 1], text[opens:ends]


def parameters(text):
    return [p.strip().replace("mut ", "") for p in re.split(r",(?![^<\[(]*[>\])])", text) if p.strip()]


def counted_by_hand(body):
    """while loops whose condition names a number that the body only ever raises, or lowers, by one"""
    n = 0
    for m in re.finditer(r"^( *)while (.*) \{$", body, re.M):
        end = body.find("\n" + m.group(1) + "}", m.end())
        inner = body[m.end():end]
        for v in set(re.findall(r"\b([a-z]\w*)\b(?!\()", m.group(2))):
            ups = re.findall(r"\b%s = (.*);" % v, inner) + ["+" + x for x in re.findall(r"\b%s [+-]= (.*?)[;,]?$" % v, inner, re.M)]
            if ups and all(u in (v + " + 1", v + " - 1", "+1") for u in ups):
                n += 1
                break
    return n


def places(root):
    found = {str(k): [] for k in range(1, 9)}
    for path in sorted(glob.glob(os.path.join(root, "crates/*/src/*.rt"))):
        text = open(path).read()
        short = os.path.relpath(path, root)

        def at(point, line, what):
            found[point].append("%s:%d: %s" % (short, line, what))

        for m in re.finditer(r"^(?:pub(?:\(crate\))? )?enum (\w+) \{\n(.*?)\n\}", text, re.M | re.S):
            body = re.sub(r"\{[^}]*\}", "", re.sub(r"//.*", "", m.group(2)))
            variants = re.findall(r"^ {4}(\w+)(\(?)", body, re.M)
            line = text.count("\n", 0, m.start()) + 1
            if len(variants) == 2 and (variants[0][1] == "" or variants[1][1] == "" or "Refused" in (variants[0][0], variants[1][0])) \
                    and (variants[0][1] or variants[1][1] or "Open" in (variants[0][0], variants[1][0])):
                at("1", line, "enum %s of the shape of Option or Result" % m.group(1))
            elif any(v[0] == "Refused" and v[1] for v in variants):
                at("1", line, "enum %s with a refusal beside its answers" % m.group(1))
        for m in re.finditer(r"^(?:pub(?:\(crate\))? )?const (SYMBOL|NAME|RUN|COMPLEMENT|REFUSED|ANYTHING|CHAIN|LIST|NOWHERE|NO_MOVE|PASS): \w+ = \d+;", text, re.M):
            at("1", text.count("\n", 0, m.start()) + 1, "number %s" % m.group(1))
        all_names = set(re.findall(r"fn (\w+)", text))
        for name, line, given, body in functions(text):
            ps = parameters(given)
            if name.endswith("_in") and name[:-3] in all_names or name == "match_in":
                at("2", line, "a simple form and a form %s" % name)
            names = [p.split(":")[0] for p in ps]
            if "brings: bool" in ps or "listed: bool" in ps:
                at("1", line, "flag with a value beside it in %s" % name)
            if re.match(r"simple_|wide$|read_entry$|store_number$|narrow_node$|is_narrow$", name) or name == "store" and "stored" not in short:
                at("2", line, "twin %s" % name)
            for _ in range(counted_by_hand(body)):
                at("3", line, "loop in %s" % name)
            if re.search(r"match \w+ \{\n(?: +[\w:]+(?:\(_\))? => (?:true|false),\n)+ +\}", body) or re.fullmatch(r"\s*\{\s*\w+ as \w+\s*", body):
                at("4", line, "comparison or conversion %s" % name)
            if {"table", "classes"} <= set(names) and len(names) > 3:
                at("5", line, "table and classes in %s" % name)
            for m in re.finditer(r"let mut (\w+) = \[.*; \w+\];", body):
                if re.search(r"\b%s\[(depth|size|n|at|used)\b" % m.group(1), body):
                    at("6", line, "buffer %s with a length beside it in %s" % (m.group(1), name))
    for path in sorted(glob.glob(os.path.join(root, "crates/*/proofs/*/Answers.antt"))):
        text = open(path).read()
        seen = {}
        for m in re.finditer(r"^pub (\S+) : goal.*\n(?:unfolding.*\n)?\1 c = ((?:.|\n(?!\n))*)", text, re.M):
            seen.setdefault(re.sub(r"\.\d+(\.\d+)*$", "", m.group(2).strip()), []).append(m.group(1))
        for body, names in seen.items():
            if len(names) > 1 and len(body) > 80:
                found["8"].append("%s: one answer %d times (%s)" % (os.path.relpath(path, root), len(names), names[0]))
    return found


def main():
    args = sys.argv[1:]
    listed = None
    if args[:1] == ["--list"]:
        listed, args = args[1], args[2:]
    found = places(args[0] if args else os.path.join(os.path.dirname(os.path.abspath(__file__)), ".."))
    for point in sorted(found):
        if listed is None:
            print("point %s: %d" % (point, len(found[point])))
        elif listed == point:
            print("\n".join(found[point]))


main()
