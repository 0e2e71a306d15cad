#!/usr/bin/env python3
"""Hands helpers of Answers.antt their place by the goal's own way back, in place of chains of `before`.

usage: python3 tools/port/places.py NAMES CRATE..     at the top of a checkout; NAMES is the folder that `rt names NAMES` wrote

answers.py types a helper over a place by the record of the walk, `Lts.PLACE ..`, and hands it `c.before.before`. Here the
type comes from the function's Goals, and `c.before.before` in the answer to GOAL becomes `(goal.at.GOAL c).PLACE`. A file in
which a helper hands another one a place that has more than its record of the walk stays as it is, and is told.
"""

import json
import os
import re
import sys

ABBREV = re.compile(r"(?m)^abbrev (\S+) : Type 0\n\S+ = Lts\.(\S+) [^\n]*\n\n?")


class Left(Exception):
    """Why a file stays as it is."""


def whole(word):
    return re.compile(r"(?<![\w.\-])" + re.escape(word) + r"(?![\w.\-])")


def turned(text, where, v):
    """The text with its places by today's names."""
    up_of = {p[0]: p[1] for p in v["places"]}
    name_of = {p[0]: n for p, n in zip(v["places"], v["places_by_name"])}
    has_more = {p[0] for p, typed in zip(v["places"], v["typed"]) if typed}
    place_of = {new: at for (_, new), (at, _) in zip(v["needs"], v["asked_at"])}
    kinds = {m.group(1): m.group(2) for m in ABBREV.finditer(text)}
    if any(it not in name_of for it in kinds.values()):
        raise Left("a place with no name of its own")
    text = ABBREV.sub("", text)
    text = re.sub(rf"(?m)^use {re.escape(where)}\.(Lts|Reads|Tie)\n", "", text)
    if re.search(r"\b(Lts|Reads|Tie)\.", text):
        raise Left("names of the walk")
    blocks = re.split(r"(\n\n)", text)
    takes = {}
    for b in blocks:
        for m in re.finditer(r"(?m)^(?:abbrev )?([^\s:]+) : (?:\(\w+ : ([^()\s]+)\)|([^\s()]+) →)", b):
            kind = m.group(2) or m.group(3)
            if kind in kinds:
                takes[m.group(1)] = kinds[kind]
    used = set()

    def up(place, steps):
        for _ in range(steps):
            place = up_of.get(place) if place else None
        return place

    def answer(b, goal):
        at = place_of.get(goal) or place_of.get(re.sub(r"-clause-\w+$", "", goal))
        first = re.search(r"(?m)^" + re.escape(goal) + r" (\S+)", b)
        c = first.group(1) if first else "c"

        def one(m):
            steps = m.group(1).count(".before")
            helper = re.search(r"(?<![\w.\-])([\w\-]+) $", b[: m.start()])
            if at:
                place = up(at, steps - (at in has_more))
            else:
                place = takes.get(helper.group(1)) if helper else None
            if place is None:
                raise Left(f"{goal}: {m.group(0)}")
            used.add(place)
            return c if place == at else f"(goal.at.{goal} {c}).{name_of[place]}"

        return re.sub(r"(?<![\w.\-])" + re.escape(c) + r"((?:\.before)+)(?![\w.\-])", one, b)

    def helper(b):
        roots = {}
        for names, kind in re.findall(r"\(([^():]+) : ([^()\s]+)\)", b):
            roots.update((n, kinds[kind]) for n in names.split() if kind in kinds)
        for kind in re.findall(r"(?m)^(?:abbrev )?\S+ : ([^\s()]+) →", b):
            first = re.search(r"(?m)^(\S+) (\w+)[^=\n]*=", b)
            if kind in kinds and first:
                roots[first.group(2)] = kinds[kind]

        def two(m):
            root, steps = m.group(1), m.group(2).count(".before")
            if root not in roots:
                return m.group(0)
            place = up(roots[root], steps)
            if place is None or place in has_more:
                raise Left(f"a helper hands on {m.group(0)}")
            return root + ".before" * (steps + (roots[root] in has_more))

        b = re.sub(r"(?<![\w.\-])([\w₀-₉]+)((?:\.before)+)(?![\w.\-])", two, b)
        for kind, place in kinds.items():
            if whole(kind).search(b):
                used.add(place)
                b = whole(kind).sub(name_of[place], b)
        return b

    out = []
    for b in blocks:
        m = re.search(r"(?m)^pub (\S+) : goal\.(\S+)\s*$", b)
        out.append(answer(b, m.group(1)) if m and m.group(1) == m.group(2) else helper(b))
    text = "".join(out)
    imports = {name_of[p] for p in used if re.search(r"(?<![\w\-])" + re.escape(name_of[p]) + r"(?![\w\-])", text)}
    m = re.search(rf"(?m)^use {re.escape(where)}\.Goals\.\{{([^}}]*)\}}\n", text)
    if m:
        imports |= {it.strip() for it in m.group(1).split(",")}
        text = text.replace(m.group(0), "")
    if imports:
        line = f"use {where}.Goals as goal\n"
        text = text.replace(line, line + f"use {where}.Goals.{{{', '.join(sorted(imports))}}}\n")
    return text


def main(argv):
    for crate in argv[2:]:
        with open(os.path.join(argv[1], "crates", crate, "names.json"), encoding="utf-8") as f:
            table = json.load(f)
        for key, v in sorted(table.items()):
            if ".Lts" not in key or not key.startswith(f"Rattle-{crate}-proofs."):
                continue
            path = key.split(".", 1)[1].rsplit(".Lts", 1)[0]
            where = f"Rattle.{crate}.proofs.{path}"
            file = os.path.join("crates", crate, "proofs", *path.split("."), "Answers.antt")
            if not os.path.exists(file):
                continue
            with open(file, encoding="utf-8") as f:
                text = f.read()
            if f"use {where}.Lts\n" not in text or not ABBREV.search(text):
                continue
            try:
                text = turned(text, where, v)
            except Left as why:
                print(f"{crate} {path}: left: {why}")
                continue
            with open(file, "w", encoding="utf-8") as f:
                f.write(text)
    return 0


if __name__ == "__main__":
    raise SystemExit(main(sys.argv))
