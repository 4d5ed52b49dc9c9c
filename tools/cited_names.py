#!/usr/bin/env python3
"""Tells names in backquotes that the pages cite and the tree doesn't have.

usage: python3 tools/cited_names.py      at the top

The pages are README.md, docs/*.md but PORT.md, DESIGN-PASS.md and LOOK-BACK.md (which have what went), compare/*.md and crates/*/README.md. A name is there where a source, a script, a file or a folder
has it. In docs/SENTENCES.md, a name that follows a file must be declared in that file. Names of the Rust, of the processor and of
what went are listed below. The status is 1 where a name is missing.
"""
import glob
import os
import re
import sys

# the Rust's own, which has no part here; an instruction; what went; a variable; parts of names; marks of a script's row
KNOWN = set("""require check_install push_raw write_id_type commit_pending on_header on_fixlen_len on_array_count advance_after_element payload_chunk
step_fixlen_val NoFlush push_byte Handoff Handover config from_raw bsr TMPDIR shm _bits _slowly K V J
ARCHITECTURE SENTENCES DECISIONS DIFFERENCES CHANGES PORT DESIGN-PASS LOOK-BACK NOTICE cited_names""".split())
TOPS = ("crates", "compare", "examples", "include", "tools", "sofab", "crates.txt", ".ci")


def tree():
    names = set()
    for top in TOPS:
        files = [top] if os.path.isfile(top) else []
        for folder, dirs, inside in os.walk(top):
            dirs[:] = [d for d in dirs if d not in ("out", "target", "__pycache__")]
            names.update(dirs)
            files += [os.path.join(folder, f) for f in inside]
        for path in files:
            name = os.path.basename(path)
            names.update((name, os.path.splitext(name)[0]))
            if name.endswith(".md") or name in ("snake_names.tsv", "cited_names.py"):
                continue
            with open(path, encoding="utf-8", errors="ignore") as f:
                text = f.read()
            names.update(re.findall(r"[\w'-]+", text))
            names.update(re.findall(r"\w+", text))
    return names


def declared(path, name):
    with open(path, encoding="utf-8") as f:
        for line in f:
            head = re.split(r":(?!=)|:=|=", line.split("--")[0])[0]
            if name in re.findall(r"[^\s(){}\[\].;,\"«»|]+", head):
                return True
    return False


def main():
    names = tree() | KNOWN
    missing = []
    pages = ["README.md"] + sorted(p for p in glob.glob("docs/*.md") if os.path.basename(p) not in ("PORT.md", "DESIGN-PASS.md", "LOOK-BACK.md"))
    for page in pages + sorted(glob.glob("compare/*.md") + glob.glob("crates/*/README.md")):
        with open(page, encoding="utf-8") as f:
            for number, line in enumerate(f, 1):
                for span in re.findall(r"`([^`\n]+)`", line):
                    if span.startswith(("rattle-kit-", "rt ")):
                        continue
                    for word in re.findall(r"[A-Za-z_][\w'-]*", span):
                        if word not in names:
                            missing.append(f"{page}:{number}: {word} (in `{span}`)")
                if page != "docs/SENTENCES.md" or not line.startswith("|"):
                    continue
                for group in line.strip().strip("|").split(" | ")[-1].split(";"):
                    place = re.search(r"(\w+/(?:specs|proofs)/\w+)", group)
                    path = place and f"crates/{place.group(1)}.antt"
                    if path and not os.path.exists(path):
                        missing.append(f"{page}:{number}: no file {path}")
                    elif path:
                        missing += [f"{page}:{number}: {n} is not declared in {path}" for n in re.findall(r"`([^`]+)`", group) if not declared(path, n)]
    print("\n".join(missing + [f"{len(missing)} names missing"]))
    return 1 if missing else 0


sys.exit(main())
