#!/usr/bin/env python3
"""The places that docs/DESIGN-PASS.md counts, by point: forms of an older Rattle that still stand in src/ (and, for point 8, in proofs/).

  tools/places.py [--list POINT] [ROOT]      from the project's root

A rule finds a place by how it is written, not by what it means: a row is a place to look at. Tests and comments don't count.
"""
import argparse
import collections
import pathlib
import re

# ---- the sources as functions, structs and enums

WORDS = set("as bool break const continue else enum false fn for if impl in let loop match mod mut pub return self Self struct true while".split())


def bare(text):
    """Without comments, strings and tests; as many lines as before."""
    text = re.sub(r'b?"(?:[^"\\]|\\.)*"', lambda m: '"' + "\n" * m[0].count("\n") + '"', text)
    text = re.sub(r"//[^\n]*", "", text)
    cut = text.find("#[cfg(test)]")
    return text if cut < 0 else text[:cut]


def closing(text, at):
    """The place behind the bracket that closes the one at `at`."""
    depth = 0
    for i in range(at, len(text)):
        if text[i] in "({[":
            depth += 1
        elif text[i] in ")}]":
            depth -= 1
            if depth == 0:
                return i + 1
    return len(text)


Fn = collections.namedtuple("Fn", "file line name params clauses body")


def functions(file, text):
    for m in re.finditer(r"\bfn (\w+)", text):
        open_ = text.find("(", m.end())
        end = closing(text, open_)
        params = text[open_ + 1 : end - 1]
        clauses, at = [], end
        while True:
            brace = text.find("{", at)
            if brace < 0:
                return
            head = re.search(r"(requires|ensures)(?: \w+)? $", text[at:brace])
            stop = closing(text, brace)
            if head is None:
                if ";" not in text[at:brace]:
                    yield Fn(file, text.count("\n", 0, m.start()) + 1, m[1], params, clauses, text[brace:stop])
                break
            clauses.append((head[1], " ".join(text[brace + 1 : stop - 1].split())))
            at = stop


def items(file, text, word):
    for m in re.finditer(rf"\b{word} (\w+)[^{{;]*\{{", text):
        yield file, text.count("\n", 0, m.start()) + 1, m[1], text[m.end() : closing(text, m.end() - 1) - 1]


def shape(body):
    out = []
    for t in re.findall(r"\w+|[^\s\w]", body):
        out.append(t if t in WORDS or not re.match(r"\w", t) else "N" if t[0].isdigit() else "I")
    return " ".join(out).replace(", )", " )").replace(", }", " }")


# ---- the points


def point1(house):
    """Enums with a variant that says that there is no value, or why; flags beside values; sentinels; numbers for kinds."""
    lacking = "Refused|Broken|Short|Bad|Overlong|Other|Failed|Unread|Unwritten|Nothing|End"
    for f, n, name, body in house.enums:
        if name != "Error" and re.search(rf"\b(?:{lacking})\b", body):
            yield f, n, f"enum {name}"
    for f, n, name, body in house.structs:
        if re.search(r"\bbool\b", body):
            yield f, n, f"struct {name}: a flag"
    for f, lines in house.lines.items():
        for n, line in enumerate(lines, 1):
            if re.search(r"//.*(\bor 0\b|\b0 where\b|\b\d+ for any\b|\banswer 0\b|: 0 where|\b0 none\b)", line):
                yield f, n, "a number for none"
    for fn in house.functions:
        for m in re.finditer(r"\b(code|kind|wire|subtype|tag|how|phase)\s*:\s*u(?:8|32|64)\b", fn.params):
            yield fn.file, fn.line, f"fn {fn.name}: a number for {m[1]}"
    for f, n, name, body in house.structs:
        for m in re.finditer(r"\b(code|kind|wire|subtype|tag|how)\s*:\s*u(?:8|32|64)\b", body):
            yield f, n, f"struct {name}: a number for {m[1]}"


def point2(house):
    """Functions whose bodies are alike but for names, types and numbers (25 words and signs or more)."""
    same = collections.defaultdict(list)
    for fn in house.functions:
        s = shape(fn.body)
        if 25 <= len(s.split()) and "_c/" not in fn.file:
            same[s].append(fn)
    for fns in same.values():
        if len(fns) > 1:
            for fn in fns:
                yield fn.file, fn.line, f"fn {fn.name}, as " + ", ".join(g.name for g in fns if g is not fn)


def point3(house):
    """Loops that are no `for`."""
    for f, text in house.bare.items():
        for m in re.finditer(r"\b(while|loop)\b[^\n]*", text):
            yield f, text.count("\n", 0, m.start()) + 1, m[0].strip()


def point4(house):
    """Functions that only map one thing's cases, or take a value apart and make it again; and conversions of bits by hand."""
    for fn in house.functions:
        body = fn.body[1:-1].strip()
        m = re.match(r"(?:let \w+ = [\w.]+;\s*)?match [\w.]+ \{", body)
        if m and closing(body, m.end() - 1) == len(body) and not re.search(r"=> *[^,]*[a-z_.]\(|;|\b(if|match)\b", body[m.end() :]):
            yield fn.file, fn.line, f"fn {fn.name}: case by case"
        elif re.search(r"rebuilt", fn.name):
            yield fn.file, fn.line, f"fn {fn.name}: a copy"
        elif re.search(r"return true;\s*\}\s*false$|\{ 1 \} else \{ 0 \}$", body):
            yield fn.file, fn.line, f"fn {fn.name}: a test or a bit by hand"
        elif re.search(r"!\(\(?!", body) or re.search(r"if \w+ < \w+ \{ \w+ \} else \{ \w+ \}$", body):
            yield fn.file, fn.line, f"fn {fn.name}: the library's"
        elif re.match(r"same", fn.name):
            yield fn.file, fn.line, f"fn {fn.name}: equality"


def parameters(fn):
    return [" ".join(p.split()) for p in re.split(r",(?![^\[<(]*[\]>)])", fn.params) if ":" in p]


def point5(house):
    """Facts in the `requires` of three functions or more of a crate or of several; four parameters or more that travel together in three."""
    facts = collections.defaultdict(list)
    for fn in house.functions:
        for kind, text in fn.clauses:
            if kind == "requires":
                for part in text.split(" × "):
                    facts[part.strip(" ()")].append(fn)
    for fact, fns in facts.items():
        if 3 <= len(fns):
            for fn in fns:
                yield fn.file, fn.line, f"fn {fn.name} requires {fact}"
    runs = collections.defaultdict(set)
    for i, fn in enumerate(house.functions):
        ps = parameters(fn)
        for k in range(len(ps) - 3):
            runs[tuple(ps[k : k + 4])].add(i)
    told = set()
    for run, fns in runs.items():
        if 3 <= len(fns):
            told |= fns
    for i in sorted(told):
        fn = house.functions[i]
        yield fn.file, fn.line, f"fn {fn.name}: parameters that travel together"


def point6(house):
    """Arrays of a fixed length as fields, parameters and locals."""
    for f, text in house.bare.items():
        if "_c/" in f:
            continue
        for m in re.finditer(r"\b(\w+)(?:: |\s*=\s*)\[[\w() ]+; ?(\w+)\]", text):
            if not re.search(r"const \w*$", text[: m.start() + 6]):
                yield f, text.count("\n", 0, m.start()) + 1, f"{m[1]}: [_; {m[2]}]"


def point7(house):
    """Matches on the number of a step, and flags as parameters that choose one."""
    for f, text in house.bare.items():
        for m in re.finditer(r"\bmatch (?:\w+\.)?(code|kind|step|wire|subtype|nth)\b", text):
            yield f, text.count("\n", 0, m.start()) + 1, m[0]
    for fn in house.functions:
        for m in re.finditer(r"\b(counted|asked|drained|how)\s*: (?:bool|u64)", fn.params):
            yield fn.file, fn.line, f"fn {fn.name}: {m[1]}"


def point8(house):
    """Answers that only search, and answers of ten words or more that stand three times or more in a crate."""
    said = collections.defaultdict(list)
    for f in sorted(pathlib.Path(house.root).glob("crates/*/proofs/**/Answers.antt")):
        name = str(f.relative_to(house.root))
        for n, line in enumerate(f.read_text().splitlines(), 1):
            m = re.match(r"([\w-]+)(?: \w+)+ = (.*)", line)
            if m and not line.startswith("pub"):
                if m[2] in ("search rules", "omega arith", "grind arith", "grind (arith, common_steps)"):
                    yield name, n, m[2]
                elif 10 <= len(m[2].split()):
                    said[name.split("/")[1], m[2]].append((name, n))
    for (_, text), places in said.items():
        if 3 <= len(places):
            for f, n in places:
                yield f, n, text[:60]


class House:
    def __init__(self, root):
        self.root = root
        self.bare, self.lines, self.functions, self.structs, self.enums = {}, {}, [], [], []
        for f in sorted(pathlib.Path(root).glob("crates/*/src/**/*.rt")):
            name, text = str(f.relative_to(root)), f.read_text()
            self.lines[name] = text.splitlines()
            self.bare[name] = bare(text)
            self.functions += functions(name, self.bare[name])
            self.structs += items(name, self.bare[name], "struct")
            self.enums += items(name, self.bare[name], "enum")


def main():
    p = argparse.ArgumentParser(usage=__doc__)
    p.add_argument("--list", type=int)
    p.add_argument("root", nargs="?", default=".")
    a = p.parse_args()
    house = House(a.root)
    for k, point in enumerate((point1, point2, point3, point4, point5, point6, point7, point8), 1):
        places = sorted(set(point(house)))
        if a.list is None:
            print(f"{k}  {len(places):4}  {' '.join(point.__doc__.split())}")
        elif a.list == k:
            print("\n".join(f"{f}:{n}: {what}" for f, n, what in places))


if __name__ == "__main__":
    main()
