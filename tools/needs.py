"""Fills the needs of a function's Proof.antt from a script, for work on proofs; no test uses it.

Of the older Rattle: it fits the text up to commit dcf1847, where proofs walked the code. Today a proof is Invariants.antt and Answers.antt, and
`rt check --start F` writes the files to begin with.

    from needs import answer, loop
    answer('packet', 'Packet/payload', ['use mathlib.Core.Path.{sym}'], {'returns': ('payloadOf', 'sym (.. @from-bytes .ensures ..)')})

`answer(CRATE, FUNCTION, USES, {NEED: (UNFOLDING, BODY)})` replaces the answer of each need, after `rt goals CRATE`, in the folder of the
repository. In a body `@name` stands for the path to the place that has the field `name`: `@if4 .taken`, `@args .store .now`, `@pre .0`.
`loop(CRATE, FUNCTION, INVARIANT, MEASURE)` sets a loop's invariant and measure.
"""
import glob
import re


def places(path):
    """The records of an Lts.antt with their fields, and the place of each need."""
    records, needs, current = {}, [], None
    lines = open(path, encoding="utf-8").read().split("\n")
    for i, line in enumerate(lines):
        found = re.match(r"\s+pub record ([\w\-'·]+) : Type 0 where", line)
        if found:
            current = found.group(1)
            records[current] = []
            continue
        found = re.match(r"\s+pub ([\w\-'₀-₉]+) : (.*)", line)
        if found and current:
            records[current].append((found.group(1), found.group(2)))
            continue
        found = re.match(r"\s+Need-([\w\-']+) =", line)
        if found:
            for after in lines[i : i + 3]:
                place = re.search(r"\(c : ([\w\-']+)\)", after)
                if place:
                    needs.append((found.group(1), place.group(1)))
                    break
    return records, dict(needs)


def depths(records, place):
    """How many `.before` lead from a place to each field."""
    found, depth = {}, 0
    while place in records:
        for name, _ in records[place]:
            if name != "before":
                found.setdefault(name, depth)
        before = [kind for name, kind in records[place] if name == "before"]
        if not before:
            break
        place, depth = before[0].strip(), depth + 1
    return found


def answer(crate, function, uses, answers):
    path = f"crates/{crate}/proofs/{function}/Proof.antt"
    text = "\n".join(
        line
        for line in open(path, encoding="utf-8").read().split("\n")
        if not re.match(r"-- src| *use .* as (reads|lts)$|use .*-reads$", line)
    )
    generated = glob.glob(f"target/goals/{crate}/*/proofs/{function}/Lts.antt")
    records, needs = places(generated[0]) if generated else ({}, {})
    for need, (unfolding, body) in answers.items():
        if "@" in body:
            depth = depths(records, needs[need])
            body = re.sub(r"@([\w\-']+)", lambda m: " ".join(["c"] + [".before"] * depth[m.group(1)] + ["." + m.group(1)]), body)
        name = re.escape(need)
        pattern = rf"^({name} : tie\.Need-{name}[^\n]*)\n(?:unfolding [^\n]*\n)?{name} (c κs|c) =.*?(?=\n\n|\Z)"
        found = re.search(pattern, text, re.M | re.S)
        if not found:
            raise SystemExit(f"{path}: no need {need}")
        lines = [found.group(1)] + ([f"unfolding {unfolding}"] if unfolding else []) + [f"{need} {found.group(2)} = {body}"]
        text = text[: found.start()] + "\n".join(lines) + text[found.end() :]
    lines = text.strip().split("\n")
    heads = {use.split(".{")[0] for use in uses}
    kept = [line for line in lines if line.startswith("use ") and line.split(".{")[0] not in heads]
    rest = [line for line in lines if not line.startswith("use ")]
    with open(path, "w", encoding="utf-8") as out:
        out.write("\n".join(uses + kept) + "\n\n" + "\n".join(rest).strip() + "\n")


def loop(crate, function, invariant, measure):
    path = f"crates/{crate}/proofs/{function}/Proof.antt"
    text = open(path, encoding="utf-8").read()
    for kind, body in (("Inv-loop", invariant), ("μ-loop", measure)):
        text = re.sub(rf"({kind} : tie\.\w+-loop\n{kind} [^=]*=).*?\n\n", lambda m: f"{m.group(1)} {body}\n\n", text, flags=re.S)
    open(path, "w", encoding="utf-8").write(text)
