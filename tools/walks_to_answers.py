#!/usr/bin/env python3
"""Turns proofs/F/Proof.antt files that only name needs for `tie.spec` into Invariants.antt and Answers.antt.

usage: python3 tools/walks_to_answers.py NAMES CRATE..     NAMES: the folder that `rt names NAMES` wrote at the top

What cannot be placed is printed as 'left:'. The check decides what is right; `rt tidy` drops what is imported in vain.
"""
import json
import os
import re
import sys

ID = r"[^\s(){}\[\].;,:@\"«»`λ]+"


def norm(w):
    return w.replace("-", "_").replace("'", "")


def split_args(text):
    """The arguments of an application, at the top level."""
    out, depth, cur = [], 0, ""
    for ch in text:
        if ch in "({[":
            depth += 1
        if ch in ")}]":
            depth -= 1
        if ch.isspace() and depth == 0:
            if cur:
                out.append(cur)
            cur = ""
        else:
            cur += ch
    if cur:
        out.append(cur)
    return out


class Walk:
    def __init__(self, info):
        self.places = info["places"]
        self.new_places = info["places_by_name"]
        self.needs = info["needs"]
        self.asked = info["asked_at"]
        self.loops = info["loops"]
        self.changed = info["changed"]
        self.arms = info["arms"]
        self.goal_names = dict((norm(o), n) for o, n in info["asked_at"])
        self.args = dict((o.rsplit(".", 1)[1], n.rsplit(".", 1)[1]) for o, n in info["args"] if o.startswith(".args"))
        self.index = {norm(p[0]): i for i, p in enumerate(self.places)}

    def parent(self, i):
        p = self.places[i][1]
        return None if p is None else self.index.get(norm(p))

    def up(self, i, n):
        while n and i is not None:
            i = self.parent(i)
            n -= 1
        return i

    def field(self, i, name):
        """Today's name of the step `name` as seen from place i, or None."""
        k = i
        while k is not None:
            old, new = self.places[k][2]
            if old and norm(old) == norm(name):
                return new
            k = self.parent(k)
        return None

    def inner(self, i, name, rest):
        """The parts behind the step `name`, as they are spelled today."""
        k = i
        while k is not None:
            old, new = self.places[k][2]
            if old and norm(old) == norm(name):
                table = dict(map(tuple, self.places[k][4]))
                return [table.get(rest[0], rest[0])] + rest[1:] if rest else rest
            k = self.parent(k)
        return rest

    def arm(self, i, name, rest):
        """Where an arm has a plainer name for old `name.rest`: (new path, how many parts of rest it takes)."""
        k = i
        while k is not None:
            a = self.arms[k]
            if a:
                for new, old, path in sorted(a[2], key=lambda row: -len(row[2])):
                    if norm(old) == norm(name) and rest[: len(path)] == path:
                        return f"{a[0]}.{new}", len(path)
            k = self.parent(k)
        return None


def definitions(lines):
    """[(comments, name, signature lines, unfolding lines, clause lines)], in order."""
    out, notes, i = [], [], 0
    n = len(lines)
    while i < n:
        l = lines[i]
        if not l.strip():
            notes.append(l)
            i += 1
            continue
        if l.startswith("--"):
            notes.append(l)
            i += 1
            continue
        m = re.match(rf"(?:(?:abbrev|pub|unfoldable)\s+)*({ID})\s*:(?!=)\s*", l)
        block = [l]
        i += 1
        while i < n and (not lines[i].strip() or lines[i][0] in " \t" or (m and re.match(rf"{re.escape(m.group(1))}(?=\s)", lines[i])) or lines[i].startswith("unfolding ")):
            if not lines[i].strip():
                j = i
                while j < n and not lines[j].strip():
                    j += 1
                if j >= n or not (lines[j][0] in " \t" or (m and re.match(rf"{re.escape(m.group(1))}(?=\s)", lines[j]))):
                    break
            block.append(lines[i])
            i += 1
        while notes and not notes[0].strip():
            notes.pop(0)
        out.append((notes, m.group(1) if m else None, block))
        notes = []
    return out


def turn_chain(walk, place, text, var, said):
    """Paths that begin at `var`, known to be at `place`."""
    pat = re.compile(rf"(?<![\w.'-]){re.escape(var)}((?:\.before)*)((?:\.{ID})+)")

    def sub(m):
        ups = m.group(1).count(".before")
        parts = m.group(2)[1:].split(".")
        at = walk.up(place, ups)
        if at is None:
            said.append(f"{m.group(0)}: no such place")
            at = place
        head, rest = parts[0], parts[1:]
        if norm(head) == "well_formed":
            return ".".join([var, "well_formed"] + rest)
        if head == "before":
            return m.group(0)
        if walk.field(place, head) is None:
            # a word of the library that is spelled like the step
            plain = re.sub(r"_lem$", "", head).lower()
            head = plain if walk.field(place, plain) else head
        if head in ("args", "ranges", "requires", "type_inv", "auto", "well_formed", "lifetimes"):
            if rest and head in ("args", "ranges", "auto", "type_inv"):
                rest[0] = walk.args.get(rest[0], rest[0])
                rest[0] = norm(rest[0]) if "'" not in rest[0] else rest[0].replace("-", "_")
            return ".".join([var, head] + rest)
        a = walk.arm(place, head, rest)
        if a:
            path = ".".join([var, a[0]] + walk.inner(at, head, rest[a[1] :]))
            if re.search(r"-own\.keys\d*$", path):
                said.append("opened")
                return f"(opened {path})"
            return path
        new = walk.field(at, head)
        if new is None:
            new = walk.field(place, head)
        if new is None:
            said.append(f"{m.group(0)}: no step {head}")
            return m.group(0)
        rest = walk.inner(at, head, rest)
        if rest[:1] == ["new"] and len(rest) > 1:
            rest[1] = rest[1].replace("-", "_")
        return ".".join([var, new] + rest)

    return pat.sub(sub, text)


def turn_body(walk, place, text, var, said):
    """Aliases `let s = c.before.. in` are written out where only their fields are used."""
    if place is None:
        return text
    pat = re.compile(rf"let ({ID}) = {re.escape(var)}((?:\.{ID})*) in\s*")
    while True:
        m = pat.search(text)
        if not m:
            break
        name, ups = m.group(1), m.group(2)
        head, tail = text[: m.start()], text[m.end() :]
        tail = re.sub(rf"(?<![\w.'-]){re.escape(name)}(?=\.)", var + ups, tail)
        tail = re.sub(rf"(?<![\w.'-]){re.escape(name)}(?![\w.'-])", "(" + var + ups + ")" if ups else var, tail)
        text = head + tail
    return turn_chain(walk, place, text, var, said)


def convert(root, crate, folder, info):
    path = os.path.join(folder, "Proof.antt")
    text = open(path, encoding="utf-8").read()
    if "tie.close" not in text:
        return [f"left: {path}: no tie.close"]
    said = []
    walk = Walk(info)
    module = "Rattle." + crate + "." + os.path.relpath(folder, os.path.join(root, "crates", crate)).replace(os.sep, ".")
    lines = text.split("\n")
    k = 0
    top = []
    while k < len(lines) and (lines[k].startswith("--") or not lines[k].strip()):
        if lines[k].strip():
            top.append(lines[k])
        k += 1
    uses = []
    while k < len(lines) and (lines[k].startswith("use ") or not lines[k].strip() or (uses and lines[k].startswith(" "))):
        if lines[k].strip():
            if lines[k].startswith(" "):
                uses[-1] += "\n" + lines[k]
            else:
                uses.append(lines[k])
        k += 1
    kept = [u for u in uses if not re.search(r"\.(Statement\.\{statement\}|Tie as tie|Reads as [\w'-]+|Lts as [\w'-]+)\s*$", u)]
    defs = definitions(lines[k:])
    spec = next((d for d in defs if any("tie.spec" in l for l in d[2])), None)
    body = "\n".join(spec[2])
    m = re.search(r"tie\.spec\b", body)
    start = m.end()
    depth, end = 0, start
    while end < len(body):
        if body[end] in "({[":
            depth += 1
        if body[end] in ")}]":
            depth -= 1
            if depth < 0:
                break
        end += 1
    args = split_args(body[start:end])
    nl = 2 * sum(1 for _ in walk.loops)
    role = {}
    loop_args = [a for a in args if re.match(r"(invariant|decreases)", a)]
    others = [a for a in args if not re.match(r"(invariant|decreases)", a)]
    inline = []
    exact = len(others) == len(walk.needs)
    if not exact:
        said.append(f"spec has {len(others)} needs, the check asks {len(walk.needs)}")
    for i, a in enumerate(others):
        if exact:
            if re.fullmatch(ID, a):
                role.setdefault(a, i)
            elif not re.fullmatch(r"\(λ [^.]*\. search (?:rules|needs)\)", re.sub(r"\s+", " ", a)):
                inline.append((i, a))
        elif not re.fullmatch(ID, a) and not re.fullmatch(r"\(λ [^.]*\. search (?:rules|needs)\)", re.sub(r"\s+", " ", a)):
            said.append("not placed: " + re.sub(r"\s+", " ", a))
    need_index = {}
    for i, (old, new) in enumerate(walk.needs):
        need_index.setdefault(norm(old), i)

    def find_need(name):
        x = norm(name)
        if x in need_index:
            return need_index[x]
        for pre in ("overflow_", "bounds_", "nonzero_"):
            if x.startswith(pre) and x[len(pre) :] in need_index:
                return need_index[x[len(pre) :]]
        return None

    invariants, answers, rename = [], [], {}
    for notes, name, block in defs:
        if name is None:
            continue
        sig = block[0]
        m = re.search(r":\s*tie\.Need-(" + ID + ")", sig)
        if m:
            i = role.get(name)
            if i is None:
                i = find_need(m.group(1))
            if i is not None:
                rename[name] = (i, walk.needs[i][1])
    for notes, name, block in defs:
        if (notes, name, block) == spec:
            continue
        sig = block[0]
        whole = "\n".join(block)
        if re.search(r":\s*tie\.(invariant|decreases)-", sig):
            kind, loop = re.search(r":\s*tie\.(invariant|decreases)-(" + ID + ")", sig).groups()
            row = next((r for r in walk.loops if norm(r[0][0]) == norm(loop)), walk.loops[0] if walk.loops else None)
            if row is None:
                said.append(f"{name}: no loop")
                continue
            j = walk.loops.index(row)
            new = f"{kind}-{row[0][1]}"
            clause = whole.split("\n", 1)[1]
            unf = ""
            if clause.startswith("unfolding"):
                unf, clause = clause.split("\n", 1)
                unf += "\n"
            m = re.match(rf"{re.escape(name)}\s+(.*?)\s=\s", clause, re.S)
            params = m.group(1).split()
            rest = clause[m.end() :]
            changed = [v for v, c in zip(row[1], walk.changed[j]) if c]
            table = {}
            order = [("initial", v) if c else v for v, c in zip(row[1], walk.changed[j])] + changed
            if len(params) != len(order):
                said.append(f"{name}: {len(params)} parameters, {len(order)} variables")
            for p, v in zip(params, order):
                if p != "_":
                    table[p] = "l.initial." + v[1] if isinstance(v, tuple) else "l." + v
            rest = re.sub(rf"(?<![\w.'-])({'|'.join(sorted(map(re.escape, table), key=len, reverse=True))})(?![\w'-])", lambda m: table[m.group(1)], rest) if table else rest
            invariants.append("\n".join(n for n in notes) + ("\n" if notes else "") + f"abbrev pub {new} : goal.{new}\n{unf}{new} l = {rest}")
            continue
        m = re.search(r":\s*tie\.Need-(" + ID + r")((?:\s+[^\n]*)?)$", sig)
        if m:
            if name not in rename:
                said.append(f"{name}: no goal for {m.group(1)}")
                new = name
                place = None
            else:
                i, new = rename[name]
                place = walk.index.get(norm(walk.asked[i][0]))
            clause = "\n".join(block[1:])
            unf = ""
            while clause.startswith("unfolding"):
                u, clause = clause.split("\n", 1)
                unf += u + "\n"
            m2 = re.match(rf"{re.escape(name)}\s+(.*?)\s*=(?=\s)", clause, re.S)
            params = m2.group(1).split()
            rest = clause[m2.end() :]
            var = params[0] if params else "c"
            rest = turn_body(walk, place, rest, var, said)
            extra = [p for p in params[1:] if not p.startswith("κ")]
            if extra:
                said.append(f"{name}: more parameters {extra}")
            answers.append("\n".join(notes) + ("\n" if notes else "") + f"pub {new} : goal.{new}\n{unf}{' '.join([new, var] + extra)} ={rest}")
            continue
        # a lemma of the file's own
        places = {}

        def named(j):
            new = walk.goal_names.get(norm(walk.places[j][0]))
            if new is None:
                said.append(f"{name}: the place {walk.new_places[j]} has no goal, so no type")
            return new or walk.new_places[j]

        def place_of(m):
            j = walk.index.get(norm(m.group(2)))
            if j is None:
                said.append(f"{name}: no place {m.group(2)}")
                return m.group(0)
            places[m.group(1)] = j
            return f"({m.group(1)} : goal.{named(j)})"

        text2 = re.sub(rf"\(({ID}) : tie\.({ID})(?: (?:invariant|decreases)-[\w-]+)*\)", place_of, whole)
        m3 = re.match(rf"((?:(?:abbrev|pub)\s+)*{re.escape(name)} : )tie\.({ID}) →", text2)
        if m3:
            j = walk.index.get(norm(m3.group(2)))
            mc = re.search(rf"\n{re.escape(name)} ({ID})", text2)
            if j is not None and mc:
                places[mc.group(1)] = j
                text2 = m3.group(1) + "goal." + named(j) + " →" + text2[m3.end() :]
        for v, j in places.items():
            text2 = turn_body(walk, j, text2, v, said)
        if "tie." in text2:
            said.append(f"{name}: names tie")
        answers.append("\n".join(notes) + ("\n" if notes else "") + text2)
    for i, a in inline:
        m = re.match(r"\(λ ([^.]*)\. (.*)\)$", a, re.S)
        new = walk.needs[i][1]
        place = walk.index.get(norm(walk.asked[i][0]))
        if not m:
            said.append(f"{new}: {a}")
            continue
        params = m.group(1).split()
        rest = turn_body(walk, place, m.group(2), params[0], said)
        answers.append(f"pub {new} : goal.{new}\n{new} {params[0]} = {rest}")
    if "opened" in said:
        kept.append("use borrow.Enum.Refused.{opened}")
        said = [x for x in said if x != "opened"]
    joined = "\n\n".join(a.rstrip() for a in answers)
    for old, (i, new) in rename.items():
        joined = re.sub(rf"(?<![\w.'-]){re.escape(old)}(?![\w.'-])(?= c| \(c)", new, joined) if old != new and not re.match(r"returns", old) else joined
    os.remove(path)
    head = "\n".join(top) + ("\n" if top else "")
    if invariants:
        with open(os.path.join(folder, "Invariants.antt"), "w", encoding="utf-8") as f:
            f.write(head + "\n".join(kept) + f"\nuse {module}.Given as goal\n\n" + "\n\n".join(v.rstrip() for v in invariants) + "\n")
    if answers:
        with open(os.path.join(folder, "Answers.antt"), "w", encoding="utf-8") as f:
            f.write(head + "\n".join(kept) + f"\nuse {module}.Goals as goal\n\n" + joined + "\n")
    return [f"left: {folder}: {s}" for s in said]


def main(argv):
    names, crates = argv[0], argv[1:]
    root = "."
    for crate in crates:
        with open(os.path.join(names, "crates", crate, "names.json"), encoding="utf-8") as f:
            infos = json.load(f)
        below = os.path.join(root, "crates", crate, "proofs")
        for folder, dirs, files in sorted(os.walk(below)):
            if "Proof.antt" not in files:
                continue
            key = "Rattle-" + crate + "-proofs." + os.path.relpath(folder, below).replace(os.sep, ".") + ".Lts"
            if key not in infos:
                print(f"left: {folder}: no function of that name")
                continue
            try:
                for s in convert(root, crate, folder, infos[key]):
                    print(s)
            except Exception as e:
                print(f"left: {folder}: {type(e).__name__} {e}")


main(sys.argv[1:])
