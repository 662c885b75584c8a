#!/usr/bin/env python3
"""Counts the forms of an older language in crates/*/src, a row for each point of docs/DESIGN-PASS.md.

    python3 tools/count_forms.py            the counts
    python3 tools/count_forms.py --list     the places too

It goes by text: what it finds is a place to look at, and the page says what became of each.
"""
import difflib
import glob
import re
import sys

WORDS = re.compile(r"[A-Za-z_]\w*|\d\w*|\S")
KEEP = set("fn let mut if else while loop for in return match self true false as u8 u64 usize bool".split())


def sources():
    for path in sorted(glob.glob("crates/*/src/**/*.rt", recursive=True)):
        lines = open(path).read().split("\n")
        yield path, [re.sub(r"//.*", "", line) for line in lines]


def blocks(lines, start):
    """The lines from start to where the braces that open there close."""
    depth, out, opened = 0, [], False
    for line in lines[start:]:
        out.append(line)
        depth += line.count("{") - line.count("}")
        opened = opened or "{" in line
        if opened and depth <= 0:
            break
    return out


def bodies():
    """Each function with the tokens of its body: names and numbers stand for any."""
    for path, lines in sources():
        for n, line in enumerate(lines):
            m = re.match(r"\s*(?:pub(?:\(crate\))? )?(?:extern \"C\" )?fn (\w+)", line)
            if not m:
                continue
            at = n
            while at < len(lines) and not re.search(r"(^|[^=]) ?\{$", lines[at].rstrip()):
                at += 1
            body = blocks(lines, at)[1:-1] if at < len(lines) else []
            shape = []
            for word in WORDS.findall(" ".join(body)):
                if re.match(r"[A-Za-z_]", word):
                    shape.append(word if word in KEEP else "x")
                else:
                    shape.append("0" if word[0].isdigit() else word)
            yield path, n + 1, m.group(1), shape


def own_options():
    """Enums of two variants of which one holds a value; structs with a flag beside other fields."""
    for path, lines in sources():
        for n, line in enumerate(lines):
            m = re.match(r"\s*(?:pub(?:\(crate\))? )?(enum|struct) (\w+).*\{", line)
            if not m:
                continue
            inside = [l.strip() for l in blocks(lines, n)[1:-1] if l.strip() and not l.strip().startswith("ghost")]
            if m.group(1) == "enum":
                if len(inside) == 2 and any("(" in l for l in inside):
                    yield path, n + 1, "enum " + m.group(2)
            elif any(re.search(r": bool,?$", l) for l in inside) and len(inside) > 1:
                yield path, n + 1, "struct " + m.group(2)


def handed_back():
    """Structs that hand a changed value back beside an answer: made where &mut was not to be had."""
    for path, lines in sources():
        for n, line in enumerate(lines):
            m = re.match(r"(?:pub(?:\(crate\))? )?struct (\w+).*\{", line)
            if not m:
                continue
            inside = [l.strip() for l in blocks(lines, n)[1:-1] if l.strip()]
            held = [l for l in inside if re.search(r": (FreeList|GenArena|Tables|RegionTracker|Remapper|Script|Progress|RemapCursor|FreeListIterator|ArenaIterator|Tally),$", l)]
            if held and re.match(r"(Allocated|Freed|Created|Outcome|Changed|Allowed|Inserted|Fed|Yielded|Gone|Visited|Printed|Going)$", m.group(1)):
                yield path, n + 1, "struct " + m.group(1)


def numbers_for_kinds():
    for path, lines in sources():
        for n, line in enumerate(lines):
            if re.search(r"\bif (call|kind|width|letter) == ", line):
                yield path, n + 1, line.strip()


def twins():
    found = [b for b in bodies() if len(b[3]) >= 16]
    seen = set()
    for i, a in enumerate(found):
        for b in found[i + 1:]:
            if abs(len(a[3]) - len(b[3])) > max(len(a[3]), len(b[3])) * 0.1:
                continue
            if a[3] == b[3] or difflib.SequenceMatcher(None, a[3], b[3], autojunk=False).ratio() >= 0.94:
                for c in (a, b):
                    if (c[0], c[1]) not in seen:
                        seen.add((c[0], c[1]))
                        yield c[0], c[1], "fn %s (like %s)" % (c[2], (b if c is a else a)[2])


def counted_loops():
    """Loops that raise or lower a number of their test, or a counter, by a constant."""
    for path, lines in sources():
        for n, line in enumerate(lines):
            if not re.search(r"\b(while .*|loop) \{$", line):
                continue
            body = blocks(lines, n)
            if any(re.match(r"\s*(\w+) [+-]= \w+;", l) for l in body[1:]):
                yield path, n + 1, line.strip()


def by_hand():
    """Comparisons of an address by its number, tests that give a bool back by branches, and greatest or least by hand."""
    for path, lines in sources():
        for n, line in enumerate(lines):
            if re.search(r"\w\.0 (<|<=|==|!=|>|>=) |(<|<=|==|!=|>|>=) \w+(\.\w+)*\.0\b", line) and "prove!" not in line:
                yield path, n + 1, line.strip()
            elif re.match(r"\s*(pub(\(crate\))? )?fn (and|or|lesser|greater|at_most|plus|past|number|copy\w*)\(", line):
                yield path, n + 1, line.strip()


def functions():
    """Each function with its parameters."""
    for path, lines in sources():
        text = "\n".join(lines)
        for m in re.finditer(r"fn (\w+)(?:<[^>]*>)?\(([^)]*)\)", text):
            yield path, text[: m.start()].count("\n") + 1, m.group(1), m.group(2)


def travellers():
    """Functions that take the pool's four slices, or the stream's three slices and a length, one by one."""
    for path, n, name, parameters in functions():
        names = set(re.findall(r"(\w+):", parameters))
        if {"words", "next", "links", "gens"} <= names:
            yield path, n, "fn %s (pool)" % name
        elif {"words", "next", "segments", "n"} <= names:
            yield path, n, "fn %s (stream)" % name


def lengths():
    """A slice or an array that goes with a length of its own."""
    beside = r"(segments|list|line|groups|numbers|free): &(mut )?\[[^\]]*\],\s*(n|len|many): (usize|u64)"
    for path, n, name, parameters in functions():
        if re.search(beside, parameters):
            yield path, n, "fn " + name
    for path, lines in sources():
        text = "\n".join(lines)
        for m in re.finditer(r"struct (\w+) \{([^}]*)\}", text):
            if re.search(r"\blen: usize", m.group(2)) or ("free: [usize" in m.group(2) and "list: FreeList" in m.group(2)):
                yield path, text[: m.start()].count("\n") + 1, "struct " + m.group(1)


def switches():
    for path, lines in sources():
        for n, line in enumerate(lines):
            if re.search(r"match (task|change|call|t) \{|if (call|width) == |\b(read|write|exec|supervisor|uncacheable|device): bool", line):
                yield path, n + 1, line.strip()


def answers():
    for path in sorted(glob.glob("crates/*/proofs/**/Answers.antt", recursive=True)):
        for n, line in enumerate(open(path)):
            if re.match(r"pub [\w◌-]+ : goal\.", line):
                yield path, n + 1, line.strip()


POINTS = [
    ("1 enums of Option's or Result's shape, flags with values", own_options),
    ("1 changed values handed back beside an answer", handed_back),
    ("1 numbers for kinds", numbers_for_kinds),
    ("2 functions of one shape", twins),
    ("3 loops that count", counted_loops),
    ("4 equality, order, copies by hand", by_hand),
    ("5 parameters that travel together", travellers),
    ("6 buffers with lengths", lengths),
    ("7 switches", switches),
    ("8 answers in proofs", answers),
]

if __name__ == "__main__":
    for name, find in POINTS:
        places = list(find())
        print("%4d  %s" % (len(places), name))
        if "--list" in sys.argv and not name.startswith("8"):
            for path, n, what in places:
                print("        %s:%d: %s" % (path, n, what[:100]))
