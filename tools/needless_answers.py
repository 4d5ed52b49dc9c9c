#!/usr/bin/env python3
"""Takes away the answers of a crate's proofs that the check finds alone.

usage: python3 tools/needless_answers.py CRATE..      from the project's root

All answers to goals (proofs/FUNCTION/Answers.antt) are taken away and the crate is checked without them; those whose goals the check
proves then stay away, if the crate still proves so. What it says of a crate: the functions, and how many answers of each went.
The crates below must have been checked before. Look at what is left of a file: a helper that nothing uses any more goes by hand.
"""
import pathlib
import re
import shutil
import subprocess
import sys
import tempfile


def check(crate):
    """Whether the crate proves, and what was said."""
    said = subprocess.run(["rt", "check", "--fix-imports"], cwd=crate, capture_output=True, text=True)
    text = said.stdout + said.stderr
    last = re.findall(r"^logic=(\S+)", text, re.M)
    return bool(last) and last[-1] == "proved", text


def without(text, names):
    """A file of answers without those."""
    kept = [part for part in text.split("\n\n") if not any(re.match(rf"pub {re.escape(n)} :", part.strip()) for n in names)]
    return "\n\n".join(kept).rstrip("\n") + "\n"


def needless(crate, answers, text):
    """By file, the answers that the check without any didn't ask for; a function that stands on an unproved one tells nothing."""
    asked = {}
    for at, goals in re.findall(r"no proof: expected answers in \./proofs/(\S+)/Answers\.antt; `search` did not prove ([^\n]*)", text):
        asked[at] = re.findall(r"`([^`]+)`", goals.split("; it calls")[0])
    proved = set(re.findall(r"^fn (\S+): proved", text, re.M))
    out = {}
    for file, was in answers.items():
        at = str(file.parent.relative_to(crate / "proofs"))
        there = re.findall(r"^pub (\S+) :", was, re.M)
        if at in asked:
            out[file] = [n for n in there if n not in asked[at]]
        elif crate.name + "::" + at.replace("/", "::") in proved:
            out[file] = there
    return {file: names for file, names in out.items() if names}


def tried(crate):
    proofs = crate / "proofs"
    answers = {f: f.read_text() for f in sorted(proofs.rglob("Answers.antt")) if f.parent != proofs}
    if not answers:
        return "has no answers"
    with tempfile.TemporaryDirectory() as safe:
        kept = pathlib.Path(safe) / "proofs"
        shutil.copytree(proofs, kept)
        for file in answers:
            file.unlink()
        _, text = check(crate)
        shutil.rmtree(proofs)
        shutil.copytree(kept, proofs)
        gone = needless(crate, answers, text)
        for file, names in gone.items():
            left = without(answers[file], names)
            if re.search(r"^pub ", left, re.M):
                file.write_text(left)
            else:
                file.unlink()
        while gone:
            proves, text = check(crate)
            if proves:
                return "; ".join(f"{file.parent.relative_to(proofs)}: {len(names)}" for file, names in gone.items())
            open_ = set(re.findall(r"^fn (\S+): (?:not proved|no proof)", text, re.M))
            back = [f for f in gone if crate.name + "::" + str(f.parent.relative_to(proofs)).replace("/", "::") in open_]
            for file in back or list(gone):
                file.parent.mkdir(parents=True, exist_ok=True)
                file.write_text(answers[file])
                del gone[file]
        shutil.rmtree(proofs)
        shutil.copytree(kept, proofs)
        return "needs all"


def main():
    if len(sys.argv) < 2:
        sys.exit(__doc__)
    for name in sys.argv[1:]:
        print(f"{name}: {tried(pathlib.Path('crates') / name)}", flush=True)


main()
