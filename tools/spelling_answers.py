#!/usr/bin/env python3
"""Spells in snake case what tools/spelling.py passed by: the definitions and lemmas of modules named Answers or Invariants that are lemma files and
no function's answers (crates/NAME/specs/Answers.antt, crates/NAME/proofs/Answers.antt), in crates/*/{src,specs,proofs,must-fail}.
usage: python3 tools/spelling_answers.py [--check]      at the top of the repository, once; the spellings are added to tools/spelling.tsv
"""
import glob
import os
import sys

sys.path.insert(0, os.path.dirname(os.path.abspath(__file__)))
from spelling import CHOSEN, DECL, TOKEN, bare_names, files, imports, read, snake, turn_antt, turn_rt, turns

# Where a definition has the plain spelling, the lemma gets _lem: here, and a lemma of this name in one file.
LEMMAS = {"sent-bytes": "sent_bytes_lem"}
HERE = {"./crates/run_history/proofs/Columns.antt": {"next_rolls": "next_rolls_lem"}}


def main():
    check = "--check" in sys.argv
    names = {}
    for name in ("Answers", "Invariants", "Proof"):
        for path in sorted(glob.glob(f"crates/*/specs/{name}.antt") + glob.glob(f"crates/*/proofs/{name}.antt")):
            for line in read(path).splitlines():
                m = DECL.match(line)
                if m and turns(m[1]):
                    names[m[1]] = LEMMAS.get(m[1]) or CHOSEN.get(m[1], snake(m[1]))
    everywhere = {path: read(path) for path in files(".")}
    for path, text in everywhere.items():
        kept = imports(text)
        text = TOKEN.sub(lambda m: HERE.get(path, {}).get(m[0], m[0]), text)
        bare = bare_names(text) if path.endswith(".antt") else set(TOKEN.findall(text))
        for it in sorted(bare & set(names)):
            if it not in kept and names[it] in bare:
                print("meets:", path, it, names[it])
        now = turn_antt(text, names, kept) if path.endswith(".antt") else turn_rt(text, names, kept)
        if now != everywhere[path]:
            print(path)
            if not check:
                with open(path, "w", encoding="utf-8") as f:
                    f.write(now)
    for path in sorted(glob.glob("crates/*/must-fail/*.edit")):
        text = read(path)
        now = "\n".join(TOKEN.sub(lambda m: names.get(m[0], m[0]), line) if line.startswith(("old:", "new:")) else line for line in text.split("\n"))
        if now != text:
            print(path)
            if not check:
                with open(path, "w", encoding="utf-8") as f:
                    f.write(now)
    if not check:
        known = dict(line.split("\t") for line in read("tools/spelling.tsv").splitlines() if "\t" in line)
        known.update(names)
        with open("tools/spelling.tsv", "w", encoding="utf-8") as f:
            f.writelines(f"{a}\t{b}\n" for a, b in sorted(known.items()))
    print(len(names), "names:", *(f"{a}>{b}" for a, b in sorted(names.items())))


main()
