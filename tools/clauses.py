#!/usr/bin/env python3
"""Writes what a lent buffer holds in the clauses of src/ as today's language does, and makes plain values `Copy`.

usage: tools/clauses.py FILE.rt ..     once, after port.py and tools/respell.py

In a clause `old x` becomes `x.now` of a `&` and `x.old` of a `&mut`, and `new x` becomes `x.new`; the import of these words goes where no
clause has them any more. `#[derive(Drop)]` becomes `#[derive(Clone, Copy)]`.
"""
import re
import sys

HEAD = re.compile(r"\s*(?:pub(?:\([^)]*\))? )?(?:unsafe )?(?:extern \"C\" )?fn \w+")
NAME = r"(«\w+»|[A-Za-z_]\w*)"


def parameters(head):
    """The type of each parameter of a function, by its name."""
    start = head.index("(", re.search(r"\bfn \w+", head).start())
    depth, text = 0, ""
    for mark in head[start:]:
        depth += mark in "([<"
        depth -= mark in ")]" or (mark == ">" and not text.endswith("-"))
        text += mark
        if depth == 0:
            break
    found, depth, one = {}, 0, ""
    for mark in text[1:-1] + ",":
        depth += mark in "([<"
        depth -= mark in ")]>"
        if mark != "," or depth:
            one += mark
            continue
        if ":" in one:
            name, kind = one.split(":", 1)
            found[re.sub(r"^mut ", "", name.strip())] = kind.strip()
        one = ""
    return found


def turned(line, kinds):
    """The line with its words for what is lent in today's form."""

    def word(match):
        kind = kinds.get(match.group(2).strip("«»"))
        if kind is None or not kind.startswith("&"):
            return match.group(0)
        lent = re.match(r"&(?:'\w+ )?mut\b", kind)
        return match.group(2) + ("." + match.group(1) if lent else ".now")

    line = re.sub(r"\((old|new) " + NAME + r"\)", word, line)
    return re.sub(r"(?<![\w.'-])(old|new) " + NAME + r"(?!\w)", word, line)


def main(paths):
    for path in paths:
        lines = open(path, encoding="utf-8").read().split("\n")
        at = 0
        while at < len(lines):
            if HEAD.match(lines[at]):
                end, head = at, ""
                while end < len(lines):
                    head += " " + lines[end].strip()
                    if lines[end].strip() == "{" or (lines[end].rstrip().endswith("{") and not re.match(r"\s*(requires|ensures|ghost)", lines[end])):
                        break
                    end += 1
                kinds = parameters(head)
                for k in range(at + 1, end):
                    lines[k] = turned(lines[k], kinds)
                at = end
            at += 1
        text = "\n".join(lines).replace("#[derive(Drop)]", "#[derive(Clone, Copy)]")
        clauses = "\n".join(line for line in text.split("\n") if re.match(r"\s*(requires|ensures)", line))

        def kept(match):
            names = [name.strip() for name in match.group(1).split(",")]
            names = [name for name in names if re.search(r"(?<![\w.'-])" + name + r" ", clauses)]
            return "ghost use Rattle.term.specs.Moment.{" + ", ".join(names) + "};\n" if names else ""

        text = re.sub(r"ghost use Rattle\.term\.specs\.Moment\.\{([^}]*)\};\n", kept, text)
        open(path, "w", encoding="utf-8").write(text)


if __name__ == "__main__":
    main(sys.argv[1:])
