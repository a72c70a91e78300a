#!/usr/bin/env python3
"""Spells the repository's names in the code spans of its pages as crates/ has them today: by tools/spelling.tsv, and else in snake case, each only
where a name in crates/ is spelled so. Prose stays.
usage: python3 tools/pages.py [--check]      at the top of the repository; it may be run again. --check writes nothing
Last it lists the names in spans that are still in the older spelling, in camel case or with dashes."""
import os
import re
import sys

PAGES = ["README.md", "include/pindrelo.h", "docs", "docs/changes"]
TOKEN = re.compile(r"[^\s(){}\[\].;,@\"«»:`=/<>|&*+?!\\λ→≡≤∀∃∷⌜⌝#$%^~]+")
SPAN = re.compile(r"`[^`\n]+`")
OLDER = re.compile(r"[a-z][\w']*(-[\w']+)+|[a-z][a-z0-9_']*[A-Z][\w']*")


def pages():
    for it in PAGES:
        for name in sorted(os.listdir(it)) if os.path.isdir(it) else [""]:
            path = os.path.join(it, name) if name else it
            if os.path.isfile(path) and name != "PORT.md":
                yield path


def read(path):
    with open(path, encoding="utf-8") as f:
        return f.read()


def names():
    """What stands in crates/, but for comments."""
    found = set()
    for folder, dirs, files in os.walk("crates"):
        dirs[:] = [it for it in dirs if it not in ("out", "must-fail")]
        for it in files:
            if it.endswith((".rt", ".antt")):
                found.update(TOKEN.findall(re.sub(r"--.*|//.*", "", read(os.path.join(folder, it)))))
    return found


def main():
    here, spelled = names(), dict(line.split("\t") for line in read("tools/spelling.tsv").splitlines() if "\t" in line)

    def name(found):
        old = found[0]
        snake = re.sub(r"(?<=[a-z0-9])[A-Z]", lambda m: "_" + m[0].lower(), old).replace("-", "_")
        if spelled.get(old) in here:
            return spelled[old]
        return snake if OLDER.fullmatch(old) and old not in here and snake in here else old

    for page in pages():
        old = read(page)
        new = SPAN.sub(lambda span: "`" + TOKEN.sub(name, span[0][1:-1]) + "`", old)
        if new != old and "--check" not in sys.argv:
            with open(page, "w", encoding="utf-8") as f:
                f.write(new)
        left = {it for span in SPAN.findall(new) for it in TOKEN.findall(span[1:-1]) if OLDER.fullmatch(it)}
        print(page, "changed" if new != old else "as it was", *sorted(left))


main()
