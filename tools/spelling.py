#!/usr/bin/env python3
"""Spells the repository's own definitions, lemmas, fields and constructors in snake case, in crates/*/{src,specs,proofs}.

usage: python3 tools/spelling.py [--check]      at the top of the repository, once, right after port.py

    foldBytes, below-head -> fold_bytes, below_head

Types, modules and facts (an upper-case first letter), names that a file takes from a library, Rust's names, exported names, strings and
comments' prose stay; a comment's code spans turn. Where a definition in camel case and a lemma or a field with dashes would fall together, the latter
gets _lem. The spellings are written to tools/spelling.tsv: old, tab, new.
"""

import collections
import os
import re
import sys

NAME = r"[^\s(){}.;,@\"«»]+"
OWN = re.compile(r"^(Rattle\.(?!std\b|core\b|std_alloc\b|std_collections\b|std_heap\b|std_io\b|libc\b|io\b|os\b)|package\b)")
DECL = re.compile(r"^ *(?:(?:unfoldable|abbrev|pub|opaque|syntax) )*(" + NAME + r")(?: \{[^{}\n]*\})* : ")
MADE = ("Proof.antt", "Answers.antt", "Invariants.antt")
# Where the plain spelling is a field's of specs/.
CHOSEN = {"inWindow": "is_in_window", "goesOn": "is_going_on", "forward-rolls": "forward_rolls", "reverse-rolls": "reverse_rolls"}
TOKEN = re.compile(r"--[^\n]*|\{-.*?-\}|\"(?:[^\"\\\n]|\\.)*\"|" + NAME, re.S)
SPAN = re.compile(r"`[^`\n]+`")


def snake(name):
    return re.sub(r"(?<=[a-z0-9])[A-Z]", lambda m: "_" + m[0].lower(), name).replace("-", "_")


def is_camel(name):
    return name[0].islower() and re.search(r"[a-z0-9][A-Z]", name) is not None


def turns(name):
    return name[0].islower() and name[0].isascii() and re.fullmatch(r"[A-Za-z0-9_'₀-₉′-]+", name) is not None and ("-" in name or is_camel(name))


def files(root):
    for folder, dirs, names in os.walk(os.path.join(root, "crates")):
        dirs[:] = sorted(d for d in dirs if d not in ("out", "must-fail", "data"))
        for it in sorted(names):
            if it.endswith((".antt", ".rt")):
                yield os.path.join(folder, it)


def read(path):
    with open(path, encoding="utf-8") as f:
        return f.read()


def imports(text):
    """The names that a file takes from libraries."""
    out = set()
    for path, items in re.findall(r"(?m)^ *(?:pub )?(?:ghost )?use ([^\s;{]+?)(?:\.\{([^}]*)\})?(?= as | *;| *$)", text):
        if OWN.match(path):
            continue
        for it in items.split(","):
            it = it.strip()
            if it:
                out.add(it.split(" as ")[-1].strip())
                out.add(it.split(" as ")[0].strip())
    return out


def ghost_parts(text):
    """The parts of a .rt file that antt reads, as pairs of places: clauses, ghost blocks, ghost use items."""
    out, at = [], 0
    head = re.compile(r"//[^\n]*|\"(?:\\.|[^\"\\])*\"|\bghost use\b[^;]*;|\b(?:requires|ensures)\*?(?: \w+)? \{|\bghost(?: \w+)?(?:: | = | )?\{|\bghost invariant\b[^{]*\{")
    while True:
        m = head.search(text, at)
        if not m:
            return out
        at = m.end()
        if m[0].startswith(("//", '"')):
            continue
        if m[0].startswith("ghost use"):
            out.append((m.start(), m.end()))
            continue
        depth, start = 1, m.end()
        while depth:
            depth += {"{": 1, "}": -1}.get(text[at], 0)
            at += 1
        out.append((start, at - 1))


def bare_names(text):
    """The names of a file that stand alone: no field, no label of a record, no part of a path."""
    text = re.sub(r"(?m)^ *(?:pub )?use [^{\n]*", " ", text)
    text = re.sub(r"--[^\n]*", " ", text)
    text = re.sub(r"\." + NAME, " ", text)
    text = re.sub(r"(?<=[{;\s])" + NAME + r"(?= = )", " ", text)
    return set(TOKEN.findall(text))


def table(root):
    declared = collections.defaultdict(set)
    for path in files(root):
        if not path.endswith(".antt") or os.path.basename(path) in MADE:
            continue
        for line in read(path).splitlines():
            m = DECL.match(line)
            if m:
                declared[m[1]].add(path)
    lets = set()
    for path in files(root):
        if path.endswith(".antt"):
            lets.update(re.findall(r"\blet (" + NAME + r") [:=]", read(path)))
    bare = {path: bare_names(read(path)) for path in files(root) if path.endswith(".antt")}
    rust = set()
    for path in files(root):
        if path.endswith(".rt"):
            rust.update(re.findall(r"\w+", re.sub(r"//[^\n]*|ghost use[^;]*;", " ", read(path))))
    groups = collections.defaultdict(set)
    for name in declared:
        groups[CHOSEN.get(name) or (snake(name) if turns(name) else name)].add(name)
    out = {}
    for new, olds in groups.items():
        for it in olds:
            if turns(it):
                out[it] = CHOSEN.get(it, new)
        if len(olds) < 2:
            continue
        # A definition in camel case keeps the plain spelling, or else the name that has it already.
        first = next((it for it in sorted(olds) if is_camel(it)), new)
        for it in olds - {first}:
            if it not in rust and it not in CHOSEN and not is_camel(it) and any(it in names and first in names for names in bare.values()):
                out[it] = new + "_lem"
    taken = set(declared) | set(out.values())
    for it in lets:
        if turns(it) and it not in out and snake(it) not in taken:
            out[it] = snake(it)
    return {a: b for a, b in out.items() if a != b}


def turn_antt(text, names, kept, spans=True):
    def one(m):
        word = m[0]
        if word.startswith("--") and not word.startswith("--)") or word.startswith("{-"):
            return SPAN.sub(lambda s: turn_antt(s[0][1:-1], names, kept, False).join("``"), word) if spans else word
        if word.startswith('"') or word in kept:
            return word
        return names.get(word, word)

    return TOKEN.sub(one, text)


def turn_rt(text, names, kept):
    out, at = [], 0
    for a, b in ghost_parts(text):
        out += [text[at:a], turn_antt(text[a:b], names, kept, False)]
        at = b
    out.append(text[at:])
    joined = "".join(out)
    return re.sub(r"(?m)//[^\n]*", lambda m: SPAN.sub(lambda s: turn_antt(s[0][1:-1], names, kept, False).join("``"), m[0]), joined)


def main():
    check = "--check" in sys.argv
    names = table(".")
    meets = []
    for path in files("."):
        text = read(path)
        kept = imports(text)
        if path.endswith(".antt"):
            now = turn_antt(text, names, kept)
            before = bare_names(text)
        else:
            now = turn_rt(text, names, kept)
            before = set()
            for a, b in ghost_parts(text):
                before |= set(TOKEN.findall(text[a:b]))
            before |= set(re.findall(r"(?<![\w.])(\w+): ", text))
        for it in sorted(before):
            if it in names and it not in kept and (names[it] in before or any(names.get(o) == names[it] for o in before - {it})):
                meets.append((path, it, names[it]))
        if not check and now != text:
            with open(path, "w", encoding="utf-8") as f:
                f.write(now)
    if not check:
        os.makedirs("tools", exist_ok=True)
        with open("tools/spelling.tsv", "w", encoding="utf-8") as f:
            f.writelines(f"{a}\t{b}\n" for a, b in sorted(names.items()))
    for it in meets:
        print("meets:", *it)
    print(len(names), "names;", len(meets), "meet another")


if __name__ == "__main__":
    main()
