#!/usr/bin/env python3
"""Brings the repository's own definitions and lemmas to the spelling of today's Rattle: words in snake case.

usage: python3 tools/port/respell.py [--list]      at the top of a checkout, once, after the toolchain's own script

A name that a file of specs/ or proofs/ defines is respelled wherever it stands: in specs, proofs, clauses of the sources,
must-fail edits, README and docs. `aThenB` becomes `a_then_b`, `all-many` becomes `all_many`; a dash stays between two names
of functions, as in `length-drop`. Names of the sources, of generated goals, and texts stay. --list prints the names alone.
"""

import collections
import os
import re
import sys

NAME = r"[^\W\d](?:[\w'₀-₉]|-(?=[\w]))*"
TOKEN = re.compile(r"(?<![\w'₀-₉\-◌])" + NAME)
DEFINES = re.compile(r"^(\s*)((?:pub |abbrev |unfoldable |data |record )*)(" + NAME + r")((?:\s*(?:\{[^}]*\}|\([^)]*\)))*)\s*:(?!=)\s*(.*)$")
STD = set("length take drop map append get_or get set replicate reverse max min sum add mul sub le lt eq zero suc cons nil div mod pow and or not".split())


def files(root, ends, under):
    for top in under:
        at = os.path.join(root, top)
        if os.path.isfile(at):
            yield at
        for folder, dirs, names in os.walk(at):
            dirs[:] = sorted(d for d in dirs if d not in ("out", "target", ".git", "port", "landings"))
            for n in sorted(names):
                if n.endswith(ends):
                    yield os.path.join(folder, n)


def read(path):
    with open(path, encoding="utf-8") as f:
        return f.read()


def defined(root):
    """The names that files of specs/ and proofs/ define, with the places; those of goals and their proofs are not among them."""
    found = collections.defaultdict(set)
    for p in files(root, ".antt", ["crates"]):
        for line in read(p).split("\n"):
            m = DEFINES.match(line)
            if not m or m.group(3) in ("use", "let", "where", "in"):
                continue
            name, kind = m.group(3), m.group(5)
            if p.endswith("Proof.antt") and (kind.startswith("tie.") or re.match(r"\{M : Type 1\}", kind) or name.startswith(("invariant-", "decreases-", "ghost-"))):
                continue
            found[name].add(p)
    return found


def snake(part):
    return re.sub(r"(?<=[a-z0-9])([A-Z])", lambda m: "_" + m.group(1).lower(), part)


def functions(names):
    """Names that a dash may stand between: those with no dash that specs define, respelled, and the library's."""
    return STD | {snake(n) for n, places in names.items() if "-" not in n and n[0].islower() and any("/specs/" in p for p in places)}


def respelled(name, known):
    if name[0].isupper():
        return name
    parts = [snake(p) for p in name.split("-")]
    out = parts[0]
    for i in range(1, len(parts)):
        left = any("_".join(parts[k:i]) in known for k in range(i))
        right = any("_".join(parts[i:k]) in known for k in range(i + 1, len(parts) + 1))
        out += ("-" if left and right else "_") + parts[i]
    return out


def source_words(root):
    """Words of the sources that may hide a definition in a clause: what parameters and fields are called."""
    found = set()
    for p in files(root, ".rt", ["crates"]):
        text = re.sub(r"//[^\n]*", "", read(p))
        text = re.sub(r"ghost use [^;]*;", "", text)
        for m in re.finditer(r"\b([a-z_]\w*)\s*:\s*[&\[\(A-Za-z]", text):
            found.add(m.group(1))
    return found


def renames(root):
    """Old name to new. Where two names would fall together, the one that is no definition, or the one that a name of the sources
    would hide, ends in `_lem`, as the library's own do."""
    names = defined(root)
    known = functions(names)
    words = source_words(root)
    to = {n: respelled(n, known) for n in names}
    taken = {n for n in names if to[n] == n}
    out = {}
    for n in sorted(names, key=lambda n: ("-" in n, n)):
        new = to[n]
        if new == n:
            continue
        hidden = new in words and any("/specs/" in p for p in names[n])
        while new in taken or hidden:
            new, hidden = new + "_lem", False
        taken.add(new)
        out[n] = new
    return out


def main():
    root = os.getcwd()
    to = renames(root)
    if "--list" in sys.argv:
        for n, new in sorted(to.items()):
            print(n, new)
        print(len(to))
        return 0
    count = 0
    for p in files(root, (".antt", ".rt", ".edit", ".md"), ["crates", "docs", "README.md", "bench", "tests", "rust"]):
        text = read(p)
        new = turned(p, text, to)
        if new != text:
            count += 1
            with open(p, "w", encoding="utf-8") as f:
                f.write(new)
    print(len(to), "names,", count, "files")
    return 0


def turned(path, text, to):
    def one(m):
        w = m.group(0)
        before = text[max(0, m.start() - 4) : m.start()]
        if before.endswith("tie."):
            return w
        return to.get(w, w)

    if path.endswith(".antt") or (path.endswith(".edit") and re.search(r"(?m)^file: .*\.antt", text)):
        return TOKEN.sub(one, text)
    if path.endswith(".md"):
        # in pages, names stand between backticks
        return re.sub(r"`[^`\n]*`", lambda s: TOKEN.sub(lambda m: to.get(m.group(0), m.group(0)) if re.search(r"[A-Z-]", m.group(0)) else m.group(0), s.group(0)), text)
    return TOKEN.sub(lambda m: to.get(m.group(0), m.group(0)) if re.search(r"[A-Z]", m.group(0)) else m.group(0), text)


if __name__ == "__main__":
    raise SystemExit(main())
