#!/usr/bin/env python3
"""Lists the must-fail edits whose text no longer stands once in the file that they change.

usage: tools/edits.py [TOP]     TOP: the top of the repository; without it, that of this file

It proves nothing: it reads crates/*/must-fail/*.edit as `rt` does. Each pair `old:`, `new:` is applied to what the pairs before it
made of the file that the last `file:` names, and its old text must stand there exactly once. The status is 1 if one doesn't fit.
"""
import glob
import os
import sys


def fault(edit, crate):
    """Says why the edit doesn't fit the crate's files, or nothing if it does."""
    path, old, texts, was = None, None, {}, {}
    for line in open(edit, encoding="utf-8").read().split("\n"):
        if line.startswith("file: "):
            path = line[len("file: ") :].strip()
        elif line.startswith("old: "):
            old = line[len("old: ") :]
        elif line.startswith("new:"):
            new = line[len("new:") :].removeprefix(" ")
            if not path or not old:
                return "a 'new:' line stands before any 'file:' or 'old:' line"
            if path not in texts:
                if not os.path.isfile(os.path.join(crate, path)):
                    return f"there is no file {path}"
                was[path] = texts[path] = open(os.path.join(crate, path), encoding="utf-8").read()
            found = texts[path].count(old)
            if found != 1:
                return f"stands {found} times in {path}: {old}"
            texts[path], old = texts[path].replace(old, new), None
        elif line and not line.startswith("#"):
            return f"this line is not read: {line}"
    if old is not None:
        return "an 'old:' line has no 'new:' line"
    return None if texts != was else "it changes nothing"


def main(top):
    edits = sorted(glob.glob(os.path.join(top, "crates", "*", "must-fail", "*.edit")))
    unfit = 0
    for edit in edits:
        said = fault(edit, os.path.dirname(os.path.dirname(edit)))
        if said:
            unfit += 1
            print(f"{os.path.relpath(edit, top)}: {said}")
    print(f"edits: {len(edits) - unfit} fit, {unfit} do not")
    return 1 if unfit else 0


if __name__ == "__main__":
    here = os.path.dirname(os.path.realpath(__file__))
    sys.exit(main(sys.argv[1] if len(sys.argv) > 1 else os.path.dirname(here)))
