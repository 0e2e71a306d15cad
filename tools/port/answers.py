#!/usr/bin/env python3
"""Turns proofs that walk the code by the older kit's needs into Invariants.antt and Answers.antt.

usage: python3 tools/port/answers.py NAMES CRATE..     at the top of a checkout; NAMES is the folder that `rt names NAMES` wrote

For each proofs/F/Proof.antt of the crates it writes F's invariants and answers under today's names of goals and steps, and takes the
Proof.antt away. What the check finds alone, as `omega arith`, gets no answer. It says what it could not place.
"""

import json
import os
import re
import sys

W = r"[^\s(){}\[\].;,@\"«»\\→≡]+"
PATH = re.compile(r"(?<![\w'₀-₉.\-])([A-Za-z_][\w'₀-₉\-]*)((?:\." + W + ")*)")
TRIVIAL = {"omega arith", "search rules"}


def norm(it):
    return it.replace("_", "-")


def chunks(text):
    """Top-level declarations, each with the comment above it."""
    out, cur = [], []
    for block in re.split(r"\n(?:[ \t]*\n)+", text.strip("\n")):
        lines = block.split("\n")
        first = next((l for l in lines if not l.lstrip().startswith("--")), "")
        if cur and first.startswith((" ", "\t")):
            cur.append("")
            cur += lines
            out[-1] = "\n".join(cur)
            continue
        cur = list(lines)
        out.append(block)
    return out


class Function:
    def __init__(self, crate, path, names, ensures):
        self.crate, self.path, self.v = crate, path, names
        v = names
        self.ensures = ensures
        self.parent, self.at, self.new = {}, {}, {}
        self.steps, self.own = {}, {}
        for i, (place, up, (old, new), _callee, _) in enumerate(v["places"]):
            self.parent[norm(place)] = norm(up) if up else None
            self.new[norm(place)] = place
            self.own[norm(place)] = (norm(old), new)
            self.steps.setdefault(norm(old), new)
            self.at[norm(place)] = i
        self.view = {norm(p[0]) for p, t in zip(v["places"], v["typed"]) if t}
        self.needs = {}
        for (old, new), (where, _) in zip(v["needs"], v["asked_at"]):
            self.needs[norm(old)] = (new, norm(where))
        self.args = {a.split(".")[-1]: b.split(".")[-1] for a, b in v["args"] if a.startswith(".args")}
        self.asked = v["asked"]
        self.loops = [(norm(l[0][0]), l[0][1], l[1], ch) for l, ch in zip(v["loops"], v["changed"])]
        self.clauses = {}
        for p, c in zip(v["places"], v["clauses"]):
            if c:
                self.clauses[norm(p[2][0])] = c["fields"]
        self.pre = v["pre"]["fields"] if v["pre"] else []
        self.said = []
        self.helpers = {}
        self.chains = set()

    def say(self, text):
        self.said.append(f"{self.crate} {self.path}: {text}")

    def up(self, place, k):
        for _ in range(k):
            place = self.parent.get(place) if place else None
        return place

    def has_step(self, place, step):
        while place:
            if self.own[place][0] == norm(step):
                return True
            place = self.parent.get(place)
        return False

    def clause_path(self, fields, rest):
        """`.1.0.k` of nested pairs to `.name.k`."""
        if len(fields) < 2:
            return (("." + fields[0]) if fields else "") + "".join("." + r for r in rest)
        i = 0
        rest = list(rest)
        while True:
            if i == len(fields) - 1:
                return "." + fields[i] + "".join("." + r for r in rest)
            if not rest:
                return None
            d = rest.pop(0)
            if d == "0":
                return "." + fields[i] + "".join("." + r for r in rest)
            if d != "1":
                self.say(f"clause path {d} {rest} in {fields}")
                return None
            i += 1

    def pairs(self, fields, base):
        """The nested pairs of a record of clauses; a list where a tactic reads them."""
        return "⟦" + ", ".join(f"{base}.{f}" for f in fields) + "⟧"

    def paired(self, text):
        def one(m):
            each = m.group(1).split(", ")
            if re.search(r"(?:arith|rules),\s*(?:[^()]*,\s*)?$", text[: m.start()]):
                return ", ".join(each)
            out = each[-1]
            for e in reversed(each[:-1]):
                out = f"({e}, {out})"
            return out

        while "⟦" in text:
            m = re.search(r"⟦([^⟧]*)⟧", text)
            text = text[: m.start()] + one(m) + text[m.end() :]
        return text

    def path_to(self, var, place, is_view, target):
        """A term of the target place's record, from a variable of a place's record."""
        n, p = (1 if is_view else 0), place
        if target not in self.new and target + "-unread" in self.new:
            target += "-unread"
        while p and p != target:
            p = self.parent.get(p)
            n += 1
        if p is None:
            self.say(f"no {target} above {place}")
            return var + ".BEFORE"
        return var + ".before" * n

    def term(self, text, env):
        """Rewrites a body. env: variable to (root variable, place, is it a goal's record)."""
        env = dict(env)
        rooted = {v: place for v, (root, place, view) in env.items()}
        # functions that only name a chain of `before` are transparent
        prev = None
        while prev != text:
            prev = text
            for name in sorted(self.chains):
                text = re.sub(r"\(" + re.escape(name) + r" ([\w'₀-₉\-]+(?:\.before|\.ζ[\w-]+)*)\)(?![^\n]*=\s*$)", lambda m: m.group(1) + ".ζ" + name, text)
                text = re.sub(r"\(" + re.escape(name) + r" (\([^()]*\))\)(?=\.)", lambda m: m.group(1) + ".ζ" + name, text)
                # a chain of chains, given to another
                text = re.sub(r"(?<![\w'₀-₉.\-])(" + "|".join(map(re.escape, sorted(self.chains))) + r") \(" + re.escape(name) + r" ([\w'₀-₉\-]+(?:\.before|\.ζ[\w-]+)*)\)", lambda m: m.group(1) + " " + m.group(2) + ".ζ" + name, text)
        out, i = [], 0
        for m in re.finditer(r"let\s+(" + W + r")\s*=\s*|" + PATH.pattern, text):
            if m.start() < i:
                continue
            out.append(text[i : m.start()])
            i = m.end()
            if m.group(1):
                name = m.group(1)
                # is the value a place alone?
                r = re.compile(r"\s*\(?(?:(" + W + r") )?(" + W + r")((?:\.before|\.ζ[\w-]+)*)\)?\s+in(?=\s)").match(text, m.end())
                if r and r.group(2) in env and (r.group(1) is None or r.group(1) in self.chains):
                    root, place, view = env[r.group(2)]
                    env[name] = (root, self.moved(place, r.group(3), r.group(1)), view)
                    i = r.end()
                    # swallow white space after `in`
                    while i < len(text) and text[i] in " \n":
                        i += 1
                    # keep line structure: put back nothing
                    continue
                out.append(m.group(0))
                continue
            var, rest = m.group(2), m.group(3)
            if var not in env:
                out.append(m.group(0))
                continue
            root, place, view = env[var]
            parts = [p for p in rest.split(".")[1:]]
            k = 0
            while parts and (parts[0] == "before" or parts[0].startswith("ζ")):
                p = parts.pop(0)
                place = self.parent.get(place) if p == "before" and place else self.moved(place, "." + p, None)
            if not parts:
                # a place alone
                out.append(f"⟪{root}|{rooted.get(root)}|{place}⟫")
                continue
            out.append(self.field(root, place, parts))
        out.append(text[i:])
        return "".join(out)

    def moved(self, place, rest, chain):
        for p in [x for x in rest.split(".") if x]:
            if p == "before":
                place = self.parent.get(place) if place else None
            else:
                place = self.chain_to.get(p.lstrip("ζ"), place)
        if chain:
            place = self.chain_to.get(chain, place)
        return place

    def field(self, root, place, parts):
        f = parts[0]
        rest = parts[1:]
        if f in ("ranges", "lifetimes", "blocks", "well_formed") and norm(f) not in self.steps:
            if len(rest) and rest[0] in self.args:
                rest = [self.args[rest[0]]] + rest[1:]
            return ".".join([root, f] + rest)
        if f == "args":
            if rest and rest[0] in self.args:
                rest = [self.args[rest[0]]] + rest[1:]
            return ".".join([root, "args"] + rest)
        if f in ("requires", "pre"):
            digits = []
            while rest and rest[0].isdigit():
                digits.append(rest.pop(0))
            p = self.clause_path(self.pre, digits)
            if p is None:
                # a part of the pairs
                k = len(digits)
                return self.pairs(self.pre[k:], f"{root}.requires")
            return f"{root}.requires{p}" + "".join("." + r for r in rest)
        new = self.steps.get(norm(f)) or self.steps.get(norm(f[:1].lower() + f[1:]))
        if new is None:
            self.say(f"no step {f} ({root}.{'.'.join(parts)})")
            return ".".join([root] + parts)
        if norm(f) == "match" or len({n for o, n in self.own.values() if o == norm(f)}) > 1:
            p = place
            while p and self.own[p][0] != norm(f):
                p = self.parent.get(p)
            if p:
                new = self.own[p][1]
            self.say(f"step {f} has several names: took {new}")
        if rest and rest[0] == "inv" and any(l[0] == norm(f) for l in self.loops):
            rest = ["invariant"] + rest[1:]
        if len(rest) > 1 and rest[0] in ("new", "auto") and rest[1] in ("0", "1"):
            callee = next((p[3] for p in self.v["places"] if norm(p[2][0]) == norm(f) and p[3]), None)
            params = self.v["params"].get(callee) if callee else None
            if params:
                i, more = 0, rest[1:]
                while more and more[0] == "1":
                    i, more = i + 1, more[1:]
                if more and more[0] == "0" and i < len(params):
                    return ".".join([root, new, rest[0], params[i]] + more[1:])
            else:
                self.say(f"parameters of {f}: {rest}")
        if rest and rest[0] == "ensures":
            fields = self.clauses.get(norm(f), [])
            digits = []
            more = rest[1:]
            if len(fields) > 1:
                while more and more[0].isdigit():
                    digits.append(more.pop(0))
                p = self.clause_path(fields, digits)
                if p is None:
                    return self.pairs(fields[len(digits):], f"{root}.{new}.ensures")
                return f"{root}.{new}.ensures{p}" + "".join("." + r for r in more)
        return ".".join([root, new] + rest)

    def places_alone(self, text, views):
        """Places that stand alone: given to a helper, they become the record that it takes."""
        for name, kinds in self.helpers.items():
            pos = 0
            while True:
                m = re.compile(r"(?<![\w'₀-₉.\-])" + re.escape(name) + r"(?![\w'₀-₉\-])").search(text, pos)
                if not m:
                    break
                pos = m.end()
                j = m.end()
                for kind in kinds:
                    # next argument
                    a = re.compile(r"\s+").match(text, j)
                    if not a:
                        break
                    j = a.end()
                    if j >= len(text):
                        break
                    s = j
                    if text[j] in "([{":
                        depth = 0
                        while j < len(text):
                            depth += text[j] in "([{"
                            depth -= text[j] in ")]}"
                            j += 1
                            if depth == 0:
                                break
                        while j < len(text) and text[j] == ".":
                            e = re.compile(r"\." + W).match(text, j)
                            j = e.end() if e else j + 1
                    else:
                        e = re.compile(r"[^\s()\[\]{},;]+").match(text, j)
                        if not e:
                            break
                        j = e.end()
                    arg = text[s:j]
                    g = re.fullmatch(r"\(?⟪([^|]*)\|([^|]*)\|([^⟫]*)⟫\)?", arg)
                    if kind and g:
                        new = self.path_to(g.group(1), g.group(2), views.get(g.group(1), False), kind)
                        text = text[:s] + new + text[j:]
                        j = s + len(new)
        def left(m):
            self.say(f"a place alone: {m.group(0)}")
            n = m.group(1)
            return n
        return re.sub(r"⟪([^|]*)\|[^⟫]*⟫", left, text)


def split_decl(chunk):
    lines = chunk.split("\n")
    k = 0
    while k < len(lines) and lines[k].lstrip().startswith("--"):
        k += 1
    comment, body = lines[:k], lines[k:]
    return comment, body


def final_record(body, fields):
    """Makes the tuple that ends a body a record by the clauses' names; None where there is no tuple."""
    # the last tuple at the end of the body
    text = body.rstrip()
    depth, j = 0, len(text) - 1
    while j >= 0 and text[j] in ")":
        # find the opening of this last bracket
        depth = 0
        k = j
        while k >= 0:
            depth += text[k] in ")]}"
            depth -= text[k] in "([{"
            if depth == 0:
                break
            k -= 1
        inner = text[k + 1 : j]
        parts = top_commas(inner)
        if len(parts) == 1 and text[:k].strip() == "" and inner.strip():
            text = text[:k] + inner
            j = len(text.rstrip()) - 1
            text = text.rstrip()
            continue
        if len(parts) < 2:
            return None
        before = text[:k].rstrip()
        if before and not re.search(r"(?:^|[\s(])(?:in|λ [^.]*\.)$", before) and not re.search(r"(?:^|\s)rw [^\n]*$", before):
            return None
        vals = flat(parts, len(fields))
        if vals is None:
            return None
        bare = lambda it: it.strip()
        rec = "record { " + "; ".join(f"{f} = {bare(v)}" for f, v in zip(fields, vals)) + " }"
        return text[:k] + rec + text[j + 1 :]
    return None


def public(chunk):
    """A definition that other files may name."""
    lines = chunk.split("\n")
    i = next(k for k, l in enumerate(lines) if not l.startswith("--"))
    if not re.match(r"(?:abbrev |unfoldable )*pub ", lines[i]):
        m = re.match(r"((?:abbrev |unfoldable )*)(.*)", lines[i])
        mark = m.group(1) or ("" if m.group(2).startswith(("record ", "data ")) else "unfoldable ")
        lines[i] = mark + "pub " + m.group(2)
    return "\n".join(lines)


def by_parts(body, fields):
    """Names what ends a body, nested pairs of clauses, and gives them as a record."""
    cut = 0
    for m in re.finditer(r"(?<=\s)in(?=\s)", body):
        if body[: m.start()].count("(") == body[: m.start()].count(")"):
            cut = m.end()
    last = body[cut:].strip()
    paths, at = [], ""
    for i, f in enumerate(fields):
        paths.append(f"{f} = all{at}" + (".0" if i < len(fields) - 1 else ""))
        at += ".1"
    front = body[:cut].rstrip() + "\n    " if cut else ""
    return f"{front}let all = {last} in\n    record {{ " + "; ".join(paths) + " }"


def top_commas(text):
    parts, depth, cur = [], 0, ""
    for ch in text:
        if ch in "([{":
            depth += 1
        if ch in ")]}":
            depth -= 1
        if ch == "," and depth == 0:
            parts.append(cur)
            cur = ""
        else:
            cur += ch
    if cur.strip():
        parts.append(cur)
    return parts


def flat(parts, n):
    """Nested pairs (a, (b, c)) of n parts, flat."""
    out = []
    parts = list(parts)
    while len(out) < n - 1:
        if len(parts) != 2:
            if len(out) + len(parts) == n:
                return out + parts
            return None
        out.append(parts[0])
        rest = parts[1].strip()
        if len(out) == n - 1:
            out.append(rest)
            return out
        if rest.startswith("(") and rest.endswith(")"):
            parts = top_commas(rest[1:-1])
        else:
            return None
    return out + parts


def own_ensures(root, crate):
    """The names of each function's own clauses, from the sources."""
    found = {}
    for folder, _d, files in os.walk(os.path.join(root, "crates", crate, "src")):
        for f in files:
            if not f.endswith(".rt"):
                continue
            text = open(os.path.join(folder, f), encoding="utf-8").read()
            text = re.sub(r"//[^\n]*", "", text)
            for m in re.finditer(r"\bfn (\w+)", text):
                body = text[m.end() : m.end() + 6000]
                end = re.search(r"\n\{|\n    \{|\n\}", body)
                head = body[: end.start()] if end else body
                found.setdefault((f[:-3], m.group(1)), re.findall(r"ensures (\w+) \{", head))
    return found


def ported(root, crate, names):
    table = json.load(open(os.path.join(names, "crates", crate, "names.json")))
    ens = own_ensures(root, crate)
    said = []
    for key, v in sorted(table.items()):
        if not key.startswith(f"Rattle-{crate}-proofs.") or ".Lts" not in key:
            continue
        path = key.split(".", 1)[1].rsplit(".Lts", 1)[0]
        at = os.path.join(root, "crates", crate, "proofs", *path.split("."))
        file = os.path.join(at, "Proof.antt")
        if not os.path.exists(file):
            continue
        mod = path.split(".")[-2] if "." in path else ("main" if crate == "ebbcandle" else "lib")
        e = ens.get((mod, path.split(".")[-1].lstrip("+")), [])
        f = Function(crate, path, v, e)
        turn(f, file, at)
        said += f.said
    return said


def turn(f, file, at):
    text = open(file, encoding="utf-8").read()
    parts = chunks(text)
    head = [p for p in parts if re.search(r"(?m)^use ", p)]
    uses = [l for p in head for l in p.split("\n")]
    top = [l for l in uses if l.startswith("--")]
    imports = [l for l in uses if l.startswith("use ") and not re.search(r"\.(Statement|Tie)\b", l)]
    decls = [p for p in parts if p not in head]
    invs, answers, kept = [], [], []
    f.chain_to = {}
    infos = []
    for p in decls:
        comment, body = split_decl(p)
        first = body[0]
        m = re.match(r"(?:pub |abbrev |unfoldable )*(\S+)\s*(?:\{[^}]*\}\s*)?:", first)
        if not m:
            f.say(f"not read: {first[:80]}")
            continue
        name = m.group(1)
        # the signature goes on while lines are indented
        k = 1
        while k < len(body) and body[k].startswith((" ", "\t")):
            k += 1
        sig = "\n".join(body[:k])
        infos.append((name, comment, sig, body[k:]))
    for name, comment, sig, body in infos:
        if "statement M" in sig:
            continue
        if re.search(r":\s*tie\.Need-", sig) or re.search(r"tie\.(?:invariant|decreases)-\S+$", sig.strip()):
            continue
        # a helper: which arguments are places
        typ = sig[sig.index(":") + 1 :]
        kinds = []
        for arg in re.split(r"→", typ):
            names_ = re.findall(r"\(([^():]+):\s*tie\.([^\s)]+)", arg)
            if names_:
                for n, pl in names_:
                    for _x in n.split():
                        kinds.append(norm(pl))
            elif re.match(r"\s*tie\.\S+", arg):
                kinds.append(norm(re.match(r"\s*tie\.(\S+)", arg).group(1)))
            else:
                b = re.findall(r"\(([^():]+):", arg)
                kinds += [None] * (sum(len(x.split()) for x in b) or 1)
        last = kinds.pop() if kinds else None
        if last and len([x for x in kinds if x]) == 1 and len(kinds) == 1:
            f.chains.add(name)
            f.chain_to[name] = last
            f.helpers[name] = kinds
        elif any(kinds):
            f.helpers[name] = kinds
    place_names = set()
    for name, comment, sig, body in infos:
        if "statement M" in sig or name in f.chains:
            continue
        m = re.search(r"tie\.(invariant|decreases)-(\S+)\s*$", sig.strip())
        if m and not re.search(r"Need", sig):
            kind, loop = m.group(1), norm(m.group(2))
            hit = [l for l in f.loops if l[0] == loop]
            if not hit:
                f.say(f"no loop {loop}")
                continue
            _old, new, vars_, changed = hit[0]
            clause = "\n".join(body)
            c = re.match(r"(?:unfolding [^\n]*\n)?(\S+)((?:\s+\S+)*?)\s*=(?=\s)", clause)
            given = c.group(2).split()
            to = {}
            for i, (x, ch) in enumerate(zip(vars_, changed)):
                if i < len(given):
                    to[given[i]] = ("l.initial." if ch else "l.") + x
            more = [x for x, ch in zip(vars_, changed) if ch]
            for g, x in zip(given[len(vars_) :], more):
                to[g] = "l." + x
            for extra in given[len(vars_) + len(more) :]:
                to[extra] = "l.fn"
            value = clause[c.end() :]
            value = re.sub(r"(?<![\w'₀-₉.\-])([A-Za-z_][\w'₀-₉\-]*)", lambda w: to.get(w.group(1), w.group(1)), value)
            un = re.match(r"(unfolding [^\n]*\n)", clause)
            invs.append("\n".join(comment + [f"abbrev pub {kind}-{new} : goal.{kind}-{new}"]) + "\n" + (un.group(1) if un else "") + f"{kind}-{new} l =" + value)
            continue
        m = re.search(r":\s*tie\.Need-(\S+)", sig)
        if m:
            old = None
            want = norm(m.group(1))
            for a, b in (("overflow-", ""), ("slice-bounds-", "part-"), ("", ""), ("nonzero-", ""), ("slice-bounds-", "slice-aggregate-"), ("slice-bounds-", "")):
                if want.startswith(a):
                    t = b + want[len(a) :]
                    if t in f.needs:
                        old = t
                        break
            clause = "\n".join(body)
            un = re.match(r"((?:\s*unfolding [^\n]*\n)*)", clause)
            rest = clause[un.end() :]
            c = re.match(r"(\S+)((?:\s+[^\s=]+)*)\s+=(?=\s)", rest)
            value = rest[c.end() :].strip("\n") if c else rest
            if value.strip() in TRIVIAL and not un.group(1):
                continue
            if old is None:
                f.say(f"no need {m.group(1)}: {value.strip()[:100]}")
                continue
            new, place = f.needs[old]
            vars_ = c.group(2).split() if c else ["c"]
            v = vars_[0] if vars_ else "c"
            env = {v: (v, place, place in f.view)}
            value = f.term(value, env)
            value = f.paired(f.places_alone(value, {v: place in f.view}))
            fields = None
            if old.endswith("-requires") or re.search(r"-requires-\d+$", old):
                fields = next((x for n, x in f.asked.items() if norm(n) == old), None)
            elif re.match(r"returns(-\d+)?$", old):
                fields = f.ensures
            if fields and len(fields) > 1:
                rec = final_record(value, fields)
                if rec is not None:
                    value = rec
                elif not value.rstrip().endswith("}"):
                    value = by_parts(value, fields)
                    f.say(f"{new}: by parts {fields}")
            answers.append("\n".join(comment + [f"pub {new} : goal.{new}"]) + "\n" + un.group(1) + f"{new} {v} =" + ("\n" + value if value.startswith("    ") else " " + value.lstrip()))
            continue
        # a helper
        clause = "\n".join(body)
        env, views = {}, {}
        kinds = f.helpers.get(name)
        if kinds:
            un = re.match(r"((?:\s*unfolding [^\n]*\n)*)", clause)
            rest = clause[un.end() :]
            c = re.match(r"(\S+)((?:\s+[^\s=]+)*)\s+=(?=\s)", rest)
            if c:
                for x, kd in zip(c.group(2).split(), kinds):
                    if kd:
                        env[x] = (x, kd, False)
            # binders in the signature
            for n, pl in re.findall(r"\(([^():]+):\s*tie\.([^\s)]+)[^)]*\)", sig):
                for x in n.split():
                    env.setdefault(x, (x, norm(pl), False))

            def place_type(m):
                pl = norm(m.group(1))
                pl = pl if pl in f.new or pl + "-unread" not in f.new else pl + "-unread"
                place_names.add(pl)
                return f.new.get(pl, m.group(1))

            sig = re.sub(r"tie\.([A-Z][^\s)]*)((?:\s+(?:invariant|decreases)-\S+?(?=[\s)]))*)", place_type, sig)
            i = sig.index(":")
            sig = sig[: i + 1] + f.paired(f.places_alone(f.term(sig[i + 1 :], env), views))
            clause = f.paired(f.places_alone(f.term(clause, env), views))
        kept.append("\n".join(comment + [sig]) + "\n" + clause)
    where = f"Rattle.{f.crate}.proofs.{f.path}"
    # what the invariants name of the file's own stands beside them
    shared, left = [], []
    joined = "\n".join(invs)
    own = {re.match(r"(?:--[^\n]*\n)*(?:pub |abbrev |unfoldable )*(\S+)", k).group(1): k for k in kept}
    grew = True
    wanted = set()
    while grew:
        grew = False
        for n, k in own.items():
            if n not in wanted and re.search(r"(?<![\w'₀-₉.\-])" + re.escape(n) + r"(?![\w'₀-₉\-])", joined):
                wanted.add(n)
                joined += k
                grew = True
    shared = [public(k) for n, k in own.items() if n in wanted]
    kept = [k for n, k in own.items() if n not in wanted]
    invs = shared + invs
    if invs:
        t = top + imports + [f"use {where}.Given as goal", ""] + ["\n\n".join(invs)]
        with open(os.path.join(at, "Invariants.antt"), "w", encoding="utf-8") as o:
            o.write("\n".join(t) + "\n")
        top = []
    if answers or kept:
        t = top + imports + ([f"use {where}.Invariants.{{{', '.join(sorted(wanted))}}}"] if wanted else []) + [f"use {where}.Goals as goal"]
        types = []
        if place_names:
            t += [f"use {where}.Lts", f"use {where}.Reads", f"use {where}.Tie"]
            arg = []
            if any(p[3] for p in f.v["places"]):
                arg.append("Tie.the-claims")
            arg += ["Reads.Pre", "Reads.Post"]
            for _o, new, _v, _c in f.loops:
                arg.append(f"goal.the-invariant-{new}")
                arg.append(f"goal.the-decreases-{new}")
            if len(f.pre) > 1 or any(len(x) > 1 for x in f.asked.values()) or f.clauses:
                arg.append("Tie.handed_clauses")
            for pl in sorted(place_names):
                n = f.new.get(pl, pl)
                types.append(f"abbrev {n} : Type 0\n{n} = Lts.{n} " + " ".join(arg))
        whole = "\n\n".join(types + kept + answers)
        whole = re.sub(r"(?<=\w)\.(t\d+)(?!\w)", lambda m: "." + f.args.get(m.group(1), m.group(1)), whole)
        whole = re.sub(r"(?<=[\w)])\.inv(?=[\s).,;\]]|$)", ".invariant", whole)
        t += ["", whole]
        with open(os.path.join(at, "Answers.antt"), "w", encoding="utf-8") as o:
            o.write("\n".join(t) + "\n")
    os.remove(file)


def main(argv):
    root = os.getcwd()
    for crate in argv[2:]:
        for line in ported(root, crate, argv[1]):
            print(line)
    return 0


if __name__ == "__main__":
    raise SystemExit(main(sys.argv))
