#!/usr/bin/env python3
"""Brings the repository's own definitions and lemmas to snake case: usEd becomes us_ed, in each part of a name between dashes.

usage: python3 tools/snake_names.py          at the top of the repository, once, behind port.py

Types, modules and facts begin with a capital and keep it. In .rt files such names stand in clauses and comments alone.
Must-fail edits and the pages of docs/ that name theorems are turned by the same rule.
"""

import collections
import os
import re
import sys

TOKEN = re.compile(r"(?<![\w'-])(?:[a-z][\w']*-)*[\wℕ'-]*[a-z0-9'][A-Z][\w'-]*")
PART = re.compile(r"(?<=[a-z0-9])(?=[A-Z])")
# A name of a fact or type keeps its capital behind a dash; literals of bytes are no names.
# Lemmas that port.py gave an underscore, and that would fall together with a definition: they have their dash back.
DASHED = ("turn_alone", "step_left", "left_alone", "cuts_fit", "by_pages")
LITERAL = re.compile(r"^b'.'")
ACRONYM = re.compile(r"[A-Z]{2,}")


def part(p):
    if not p or not p[0].islower() or ACRONYM.search(p):
        return p
    return PART.sub("_", p).lower()


def name(w):
    if LITERAL.match(w):
        return w
    return "-".join(part(p) for p in w.split("-"))


def files(root):
    for folder, dirs, names in os.walk(os.path.join(root, "crates")):
        dirs[:] = sorted(d for d in dirs if d != "out")
        for f in sorted(names):
            if f.endswith((".rt", ".antt", ".edit")):
                yield os.path.join(folder, f)
    yield os.path.join(root, "README.md")
    for f in ("CLAIMS.md", "DECISIONS.md", "DIFFERENCES.md"):
        yield os.path.join(root, "docs", f)


def turned(text, seen):
    def one(m):
        new = name(m[0])
        if new != m[0]:
            seen[m[0]] = new
        return new

    return TOKEN.sub(one, text)


def main():
    root = "."
    seen, words, news = {}, {}, {}
    for path in files(root):
        with open(path, encoding="utf-8") as f:
            old = f.read()
        if "/proofs/" in path and path.endswith(".antt"):
            for w in DASHED:
                old = re.sub(rf"(?<![\w'-]){w}(?![\w'-])", w.replace("_", "-"), old)
        here = {}
        news[path] = turned(old, here)
        had = set(re.findall(r"[\wℕ'◌-]+", old))
        for a, b in here.items():
            if b in had:
                print(f"look: {path}: {a} falls together with {b}")
        seen.update(here)
        words[path] = old
    clash = collections.defaultdict(set)
    for a, b in seen.items():
        clash[b].add(a)
    for b, olds in sorted(clash.items()):
        if len(olds) > 1:
            print(f"look: {' and '.join(sorted(olds))} are both {b}")
    if "--list" in sys.argv:
        print("\n".join(f"{a} {b}" for a, b in sorted(seen.items())))
        return
    for path, new in news.items():
        if new != words[path]:
            with open(path, "w", encoding="utf-8") as f:
                f.write(new)
    print(f"{len(seen)} names turned")


if __name__ == "__main__":
    main()
