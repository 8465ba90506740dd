#!/usr/bin/env python3
"""Brings the names of definitions and laws to snake case: sources, definitions, proofs, must-fail edits and pages.

usage: tools/respell.py, at the top of the repository, once, right after the kit's port.py.
A name like `firstOverfull-found` becomes `first_overfull-found`. Types, modules and constructors in capitals stay, strings too.
"""

import os
import re
import sys

WORD = re.compile(r"[A-Za-zμ][\w'₀-₉]*(?:-[\w'₀-₉]+)*")
HUMP = re.compile(r"(?<=[a-z0-9])([A-Z])")
STRING = re.compile(r'b?"(?:[^"\\\n]|\\.)*"')

# two laws that would have the name of a definition in their file: rule 3 of the kit's names
LAWS = {
    "crates/allot/specs/InFrame.antt": ("by_number", "by_number_lem"),
    "crates/amounts/specs/End.antt": ("held_all", "held_all_lem"),
}


def snake(part):
    if not part or not (part[0].islower() or part[0] == "μ") or not HUMP.search(part):
        return part
    part = part.replace("getD", "get_or")
    return HUMP.sub(lambda m: "_" + m.group(1).lower(), part)


def respelled(word):
    return "-".join(snake(p) for p in word.split("-"))


def outside_strings(text, turn):
    out, at = [], 0
    for m in STRING.finditer(text):
        out += [turn(text[at : m.start()]), m.group(0)]
        at = m.end()
    return "".join(out) + turn(text[at:])


def turn(text):
    return WORD.sub(lambda m: respelled(m.group(0)), text)


def sources(root):
    for folder, dirs, files in os.walk(os.path.join(root, "crates")):
        dirs[:] = sorted(d for d in dirs if d != "out")
        for f in sorted(files):
            if f.endswith((".rt", ".antt")):
                yield os.path.join(folder, f)


def pages(root):
    for folder, dirs, files in os.walk(root):
        dirs[:] = sorted(d for d in dirs if d not in ("out", ".git", "target", "tests", "link", "bench"))
        for f in sorted(files):
            if f.endswith((".md", ".edit")):
                yield os.path.join(folder, f)


def rewrite(path, change):
    with open(path, encoding="utf-8", newline="") as f:
        old = f.read()
    new = change(old)
    if new != old:
        with open(path, "w", encoding="utf-8", newline="") as f:
            f.write(new)
    return new != old


def main():
    root = "."
    if len(sys.argv) > 1 or not os.path.isdir("crates"):
        print(__doc__, file=sys.stderr)
        raise SystemExit(2)
    for path, (law, name) in LAWS.items():
        rewrite(os.path.join(root, path), lambda t: re.sub(rf"(?<![\w.'-]){law}(?![\w'-])", name, t))
    changed = sum([rewrite(p, lambda t: outside_strings(t, turn)) for p in sources(root)])
    changed += sum([rewrite(p, turn) for p in pages(root)])
    print(f"respell: {changed} files")


main()
