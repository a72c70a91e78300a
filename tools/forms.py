#!/usr/bin/env python3
"""Counts, in crates/*/src, places written in an older form, by the points of docs/DESIGN-PASS.md. usage: tools/forms.py [-v] [ROOT]"""
import collections
import glob
import re
import sys

words = [it for it in sys.argv[1:] if it != "-v"]
told = "-v" in sys.argv
root = words[0] if words else "."
files = {it[len(root) + 1 :]: open(it).read() for it in sorted(glob.glob(f"{root}/crates/*/src/**/*.rt", recursive=True))}
plain = {name: re.sub(r"//[^\n]*", "", text) for name, text in files.items()}


def tell(point, what, places):
    print(f"{point}\t{len(places)}\t{what}")
    if told:
        for it in places:
            print(f"\t\t{it}")


def line(text, at):
    return text[:at].count("\n") + 1


def functions(text):
    """Yields the name, the head (parameters, result, clauses) and the body of each function, and where it begins."""
    for it in re.finditer(r"\bfn (\w+)", text):
        body = re.compile(r"\{[ \t]*$", re.M).search(text, it.end())
        if body:
            depth, at = 0, body.start()
            end = at
            while True:
                depth += {"{": 1, "}": -1}.get(text[end], 0)
                end += 1
                if depth == 0:
                    break
            yield it.group(1), text[it.start() : at], text[at:end], it.start()


# 1: own enums with the variants of an Option (one with fields, one without) or a Result (one of them Refused)
enums = []
for name, text in plain.items():
    for it in re.finditer(r"\benum (\w+) \{\n(.*?)\n\s*\}\n", text, re.S):
        variants = re.findall(r"^\s*(\w+)\s*(\(.*?\)|\{.*?\})?,", it.group(2), re.M | re.S)
        fields = sorted(bool(args) for _, args in variants)
        if any(variant == "Refused" for variant, _ in variants) or fields == [False, True] or (len(fields) > 2 and fields.count(True) == 1):
            enums.append(f"{name}:{line(text, it.start())} {it.group(1)} {' '.join(variant for variant, _ in variants)}")
tell(1, "own enums of the shape of Option or Result", enums)

# 2: functions of four lines or more whose bodies are the same but for names of types and numbers
bodies = collections.defaultdict(list)
for name, text in plain.items():
    for f, head, body, at in functions(text):
        key = re.sub(r"\b([A-Z]\w*|\d[\w.]*|u8|u16|u32|u64|usize)\b", "T", " ".join(body.split()))
        if len(body.strip().splitlines()) >= 6:
            bodies[key].append(f"{name}:{line(text, at)} {f}")
twins = [" = ".join(it) for it in bodies.values() if len(it) > 1]
tell(2, "groups of functions that differ only in types, sizes or constants", twins)

# 3: while loops whose condition or body counts an index
loops, others = [], []
for name, text in plain.items():
    for it in re.finditer(r"\bwhile ([^\n]*)\{\n", text):
        indent = re.match(r"\s*", text[text.rindex("\n", 0, it.start()) + 1 :]).group(0)
        end = text.index(f"\n{indent}}}", it.end())
        body = text[it.end() : end]
        counted = any(re.search(rf"\b{v} [+-]= [\w.]+;", body) for v in re.findall(r"\b[a-z_]\w*\b", it.group(1)))
        (loops if counted else others).append(f"{name}:{line(text, it.start())} while {it.group(1).strip()}")
tell(3, "while loops that count an index", loops)
tell(3, "other while loops", others)

# 4: functions that std has, under its names or others
named = r"min|max|max_u32|since|time_left|time_word|less|flag|one_if|set_word|be16|be32|either|both|copy|copy_each|copy_short|copy_unchecked|clear_keys|clear_deadlines|clear_rows|position_index|deadline_set|is_refused|to_byte"
tell(4, "functions by hand that std has", [f"{name}:{line(text, at)} {f}" for name, text in plain.items() for f, _, _, at in functions(text) if re.fullmatch(named, f)])

# 5: a fact of a `requires` that stands in the contracts of three or more functions of a crate; lists of four parameters and more that three or more share
facts, together = collections.defaultdict(set), collections.defaultdict(set)
for name, text in plain.items():
    crate = name.split("/")[1]
    for f, head, _, at in functions(text):
        for clause in re.findall(r"\brequires\b[ \w]*\{(.*?)\}", head, re.S):
            for fact in re.sub(r"\.(old|now)\b", "", " ".join(clause.split())).split(" × "):
                facts[crate, fact.strip()].add(f)
        names = [it for it in re.findall(r"^\s*(?:mut )?(\w+: [^,\n]+),?$", head, re.M)]
        for k in range(len(names) - 3):
            together[crate, tuple(names[k : k + 4])].add(f)
tell(5, "facts in the requires of three or more functions of a crate", [f"{c}: {fact} ({len(fs)})" for (c, fact), fs in sorted(facts.items()) if len(fs) > 2])
tell(5, "functions with four neighbouring parameters that three or more functions of the crate have", sorted({f"{c}: {f}" for (c, _), fs in together.items() if len(fs) > 2 for f in fs}))

# 6: a length beside an array, rows of numbers with named columns, two slices side by side
tell(6, "structs with a length beside an array", [f"{name}:{line(text, it.start())} {it.group(1)}" for name, text in plain.items() for it in re.finditer(r"struct (\w+) \{[^}]*\b(?:len|count): usize,[^}]*\[\w+; \w+\]", text)])
tell(6, "types of rows of numbers", [f"{name}:{line(text, it.start())} {it.group(1)}" for name, text in plain.items() for it in re.finditer(r"\btype (\w+) = \[u64; \d+\]", text)])
tell(6, "functions over keys and deadlines side by side", [f"{name}:{line(text, at)} {f}" for name, text in plain.items() for f, head, _, at in functions(text) if re.search(r"\bkeys: &(?:mut )?\[u32\]", head) and re.search(r"\bdeadlines: &(?:mut )?\[u64\]", head)])

# 7: function pointers and tables of functions
tell(7, "function pointers, tables of functions", [f"{name}:{line(text, it.start())}" for name, text in plain.items() for it in re.finditer(r": fn\(|\[fn\(|dyn ", text)])

# 8: lines of answers and invariants
answers = glob.glob(f"{root}/crates/*/proofs/**/Answers.antt", recursive=True) + glob.glob(f"{root}/crates/*/proofs/**/Invariants.antt", recursive=True)
print(f"8\t{sum(len(open(it).readlines()) for it in answers)}\tlines of Answers and Invariants, in {len(answers)} files")
