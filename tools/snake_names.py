#!/usr/bin/env python3
"""Brings this repository's own definitions and lemmas to the kit's spelling: words in snake case, a dash only between two names.

usage: python3 tools/snake_names.py [--check]      at the top, right after port.py

A name declared in an .antt file turns: 'lastByte' to 'last_byte', 'is-sound' to 'is_sound', 'T-unsigned' to 't_unsigned'. The dash stays
between the names of two functions ('length-put': the length of a put). Functions of src/, strings, and names that a library of the kit
declares stay. In comments only what stands in backquotes turns, and in Markdown too. --check writes nothing. It prints the names that
would fall together, and leaves those as they are.
"""
import collections
import os
import re
import sys

WORD = re.compile(r"[^\s(){}\[\].;,:@\"«»`]+")
DECL = re.compile(r"^\s*(?:(?:abbrev|unfoldable|pub|opaque)\s+)*((?:[^\s:(){}\[\],;.λ\"]+\s+)+)(?:\{[^}]*\}\s*)?:(?![:=])")
QUIET = re.compile(r'"(?:\\.|[^"\\\n])*"|--[^\n]*', re.S)
RTQUIET = re.compile(r'"(?:\\.|[^"\\])*"|//[^\n]*', re.S)
SPAN = re.compile(r"`([^`\n]+)`")
USE = re.compile(r"use\s+([\w.◌]+)\.\{([^}]*)\}")
# words of the kit's library, and of functions proved here, that a dash may stand behind or before
HEADS = {"length", "take", "drop", "append", "map", "get_or", "set", "sum", "cond", "pick", "pow", "mod", "div", "suc", "add", "mul", "bit_or", "bit_and", "update", "splice"}

# lemmas that would have their function's name: everywhere, and in one file
LEMMAS = {"all-of", "room-for"}
LOCAL = {"layout/proofs/Joined.antt": "goes_on", "copy_len/proofs/Fields.antt": "header_of", "istream/proofs/Laws.antt": "fed_by"}


def texts(root):
    for top in ("crates", "docs", "README.md", "compare"):
        if os.path.isfile(top):
            yield top
        for folder, dirs, files in os.walk(os.path.join(root, top)):
            dirs[:] = sorted(d for d in dirs if d not in ("out", "target"))
            for f in sorted(files):
                if f.endswith((".antt", ".rt", ".md")):
                    yield os.path.join(folder, f)


def of_function(path):
    """Whether a file belongs to one function's proof: what it declares is named by the check."""
    parts = path.split(os.sep)
    return "proofs" in parts and len(parts) - parts.index("proofs") > 2


def snake(word):
    word = re.sub(r"(?<=[a-z0-9])(?=[A-Z])", "_", word)
    return word.lower()


def spelled(name, heads):
    """The name in snake case: a dash stays only where a function's name stands on either side."""
    parts = [snake(p) for p in name.split("-")]
    groups = [parts[0]]
    for p in parts[1:]:
        groups.append(p)
    out = groups[0]
    last = groups[0]
    for g in groups[1:]:
        if last in heads and g in heads:
            out += "-" + g
            last = g
        else:
            out += "_" + g
            last += "_" + g
    return out


def main(argv):
    root = "."
    check = "--check" in argv
    declared = collections.defaultdict(set)
    specs = set()
    foreign = collections.defaultdict(set)
    everywhere = set()
    for path in texts(root):
        with open(path, encoding="utf-8") as f:
            text = f.read()
        if path.endswith(".md"):
            continue
        for m in USE.finditer(text):
            own = re.match(r"Rattle\.(\w+)\.", m.group(1) + ".")
            if not own or not os.path.isdir(os.path.join(root, "crates", own.group(1))):
                for it in m.group(2).split(","):
                    w = it.split(" as ")[-1].strip()
                    foreign[path].add(w)
                    everywhere.add(w)
        if path.endswith(".antt"):
            for line in text.split("\n"):
                if line.lstrip().startswith(("use ", "--", "pub use")):
                    continue
                m = DECL.match(line)
                if m:
                    for n in m.group(1).split():
                        declared[n].add(path)
                        if "/specs/" in path and line[:1] not in " \t":
                            specs.add(n)
    heads = HEADS | {snake(n) for n in specs if "-" not in n and n[:1].islower()}
    table = {}
    for n, paths in declared.items():
        if all(of_function(p) for p in paths) and not re.search(r"[a-z0-9][A-Z]", n):
            continue
        if n in everywhere or n.startswith("◌"):
            continue
        turns = ("-" in n) or (n[:1].islower() and re.search(r"[a-z0-9][A-Z]", n)) or "′" in n
        if turns and re.fullmatch(r"[\w'′-]+", n):
            new = spelled(n, heads).replace("′", "'")
            if new != n:
                table[n] = new
    back = collections.defaultdict(set)
    for o, n in table.items():
        back[n].add(o)
    tokens = {}
    for path in texts(root):
        if not path.endswith(".md"):
            with open(path, encoding="utf-8") as f:
                t = f.read()
            quiet = QUIET if path.endswith(".antt") else RTQUIET
            tokens[path] = set(WORD.findall(quiet.sub(" ", t)))
    kept = set()
    for n, olds in sorted(back.items()):
        # a lemma that would have its function's name gets `_lem`
        if len(olds) > 1:
            for o in sorted(o for o in olds if "-" in o):
                table[o] = n + "_lem"
        for o in olds:
            n = table[o]
            if o in LEMMAS:
                table[o] = n + "_lem"
                continue
            clash = [p for p in tokens if o in tokens[p] and (n in foreign[p] or n in tokens[p])]
            if clash:
                print("together:", o, "->", n, len(clash), clash[:3])
    if check:
        for o, n in sorted(table.items()):
            print(o, n)
        return
    with open(os.path.join(root, "tools", "snake_names.tsv"), "w", encoding="utf-8") as f:
        for o, n in sorted(table.items()):
            f.write(f"{o}\t{n}\n")

    def turn(text, taken=()):
        return WORD.sub(lambda m: m.group(0) if m.group(0) in taken else table.get(m.group(0), m.group(0)), text)

    def spans(text):
        return SPAN.sub(lambda m: "`" + turn(m.group(1)) + "`", text)

    changed = 0
    for path in texts(root):
        with open(path, encoding="utf-8") as f:
            text = f.read()
        local = [n for p, n in LOCAL.items() if path.endswith(p)]
        whole = text
        for n in local:
            text = re.sub(rf"(?<![\w'-]){n}(?![\w'-])", n + "_lem", text)
        if path.endswith(".md"):
            new = spans(text)
        else:
            quiet = QUIET if path.endswith(".antt") else RTQUIET
            out, at = [], 0
            for m in quiet.finditer(text):
                out.append(turn(text[at : m.start()], foreign[path]))
                out.append(m.group(0) if m.group(0).startswith('"') else spans(m.group(0)))
                at = m.end()
            out.append(turn(text[at:], foreign[path]))
            new = "".join(out)
        if new != whole:
            changed += 1
            with open(path, "w", encoding="utf-8") as f:
                f.write(new)
    print(f"{len(table)} names, {changed} files")


main(sys.argv[1:])
