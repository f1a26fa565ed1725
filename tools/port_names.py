#!/usr/bin/env python3
"""Brings this repository's own antt names to the spelling of today's Rattle. Run once, at the top, after port.py.

usage: python3 tools/port_names.py [FOLDER]    prints each name that changes; a name that falls together with another stops it

Definitions, lemmas and variables are in snake case. A dash stays in a lemma's name only behind an operation of the kit, as in `length-paint`, or where the
name would else be another's. Types, modules and constants keep their capitals. What the files of src/ declare keeps its name.
"""
import collections
import os
import re
import sys

ROOT = sys.argv[1] if len(sys.argv) > 1 else "."
TOKEN = re.compile(r"[^\s(){};,.\"`]+")
DECLARED = re.compile(r"^(\s*)((?:abbrev|unfoldable|pub|data|record)\s+)*([^\s:(){},]+)\s*(?:\{ℓ\w*\}\s*)?:\s")
WORDS = "add sub mul div mod le lt ge eq ne neg zero suc pos shr abs".split()


def files(*endings):
    for folder, dirs, names in os.walk(os.path.join(ROOT, "crates")):
        dirs[:] = sorted(d for d in dirs if d != "out")
        for name in sorted(names):
            if name.endswith(endings):
                yield os.path.relpath(os.path.join(folder, name), ROOT)


def read(path):
    with open(os.path.join(ROOT, path), encoding="utf-8") as f:
        return f.read()


def snake(word):
    return re.sub(r"(?<=[a-z0-9])([A-Z])", lambda m: "_" + m.group(1).lower(), word) if word[:1].islower() else word


def declared():
    """Each declared name with its files."""
    where = collections.defaultdict(set)
    for path in files(".antt"):
        for line in read(path).split("\n"):
            m = None if re.match(r"\s*(--|use |pub use )", line) else DECLARED.match(line)
            if m and (not m.group(1) or m.group(2) or len(m.group(1)) == 2):
                where[m.group(3)].add(path)
    return where


def imported():
    """The names that files import of the kit."""
    found = set()
    for path in files(".antt", ".rt"):
        for m in re.finditer(r"use (\S+)\.\{([^}]*)\}", read(path)):
            if not re.match(r"Rattle\.(?!std)", m.group(1)):
                found |= {w.strip() for w in m.group(2).split(",")}
    return found


def table():
    where, kit = declared(), imported()
    taken = {snake(n) for n in where if "-" not in n} | kit
    new = {n: snake(n) for n in where if "-" not in n and snake(n) != n and n not in kit}
    for n in sorted(where):
        if "-" not in n or n in kit or not n[0].islower() or all(p.endswith("/Proof.antt") for p in where[n]):
            continue
        parts = [snake(p) for p in n.split("-")]
        of_kit = len(parts) == 2 and (parts[0] in kit or parts[0] in WORDS)
        out = "-".join(parts) if of_kit or "_".join(parts) in taken else "_".join(parts)
        taken.add(out)
        if out != n:
            new[n] = out
    # a variable; and two lemmas that would have their definition's name
    new |= {"usePrev": "use_prev", "same_place": "same_place_lem", "other_place": "other_place_lem"}
    return new


def turned(text, new, code):
    """The text with its tokens renamed: all of them, or between backticks only."""
    one = lambda m: new.get(m.group(0), m.group(0))
    return TOKEN.sub(one, text) if code else re.sub(r"`([^`\n]+)`", lambda m: "`" + TOKEN.sub(one, m.group(1)) + "`", text)


def rewritten(path, text, new):
    mark = "--" if path.endswith(".antt") else "//" if path.endswith(".rt") else None
    if path.endswith(".edit"):
        return "\n".join(turned(line, new, True) if re.match(r"(old|new): ", line) else line for line in text.split("\n"))
    if mark is None:
        return turned(text, new, False)
    lines = []
    for line in text.split("\n"):
        head, dash, rest = line.partition(mark)
        lines.append(turned(head, new, True) + dash + turned(rest, new, False))
    return "\n".join(lines)


def together(path, old, new):
    """Two names of one file that become one: names that stand bare, which hide one another, and not those behind a dot or in a path."""
    seen = collections.defaultdict(set)
    mark = "--" if path.endswith(".antt") else "//"
    for line in old.split("\n"):
        line = line.split(mark)[0]
        line = re.sub(r"use \S+?(\.\{|$)", "{", line)
        if path.endswith(".rt"):
            line = re.sub(r"\b(fn|mod) \w+|\b\w+(::|\()", " ", line)
        for t in re.findall(r"(?<![\w.:])[^\s(){};,.\"`:]+", line):
            seen[new.get(t, t)].add(t)
    return [f"{path}: {' and '.join(sorted(s))} would both be {n}" for n, s in seen.items() if len(s) > 1]


def main():
    new = table()
    for n in sorted(new):
        print(f"{n} -> {new[n]}")
    clash, out = [], {}
    docs = [os.path.join("docs", n) for n in sorted(os.listdir(os.path.join(ROOT, "docs"))) if n.endswith(".md") and not n.startswith("PORT")]
    docs += [os.path.join("docs/landings", n) for n in sorted(os.listdir(os.path.join(ROOT, "docs/landings")))] + ["README.md", "oracle/README.md"]
    for path in list(files(".antt", ".rt", ".edit")) + docs:
        old = read(path)
        if path.endswith((".antt", ".rt")):
            clash += together(path, old, new)
        out[path] = rewritten(path, old, new)
    if clash:
        sys.exit("\n".join(clash))
    for path, text in out.items():
        if text != read(path):
            with open(os.path.join(ROOT, path), "w", encoding="utf-8") as f:
                f.write(text)


main()
