#!/usr/bin/env python3
"""Respells the tree's own definitions and lemmas: a name such as isBeyond becomes is_beyond. A dash between the parts of a lemma's name stays.

    python3 tools/snake_names.py        at the top of the repository, once

Names are those that specs/ and proofs/ declare outside the folders of functions. They are respelled in definitions, proofs, contracts, edits and documents;
text in quotes in the sources, and the names of functions, stay.
"""

import os
import re
import sys

TOKEN = re.compile(r"[A-Za-z_][A-Za-z0-9_'⁺⁻₀-₉]*(?:-[A-Za-z0-9_'⁺⁻₀-₉]+)*")
DECLARED = re.compile(r"^\s*(?:(?:pub|abbrev|unfoldable|open|mutual)\s+)*([a-z][A-Za-z0-9_'⁺⁻₀-₉-]*)\s*:(?!=)")
OF_FUNCTIONS = ("Proof.antt", "Invariants.antt", "Answers.antt")
# Names that would fall together with another that is used beside them.
OTHERWISE = {
    "oneByOne": "deliveries_one_by_one",
    "selfIn": "own_in_book",
    "knownFrom": "all_known_from",
    "kindFits": "fits_kind",
    "rowsFit": "fits_rows",
    "sameView": "is_same_view",
}


def snake(name):
    name = OTHERWISE.get(name, name)
    name = re.sub(r"([a-z0-9])([A-Z])", lambda m: m.group(1) + "_" + m.group(2).lower(), name)
    return re.sub(r"[A-Z]", lambda m: m.group(0).lower(), name)


def paths(*endings):
    for folder, dirs, files in os.walk("crates"):
        dirs[:] = [d for d in dirs if d != "out"]
        for f in files:
            if f.endswith(endings):
                yield os.path.join(folder, f)


def read(path):
    with open(path, encoding="utf-8") as f:
        return f.read()


def main():
    names = {}
    for path in paths(".antt"):
        if "/proofs/" in path and os.path.basename(path) in OF_FUNCTIONS:
            continue
        for line in read(path).split("\n"):
            m = DECLARED.match(line)
            if m and re.search(r"[a-z0-9][A-Z]", m.group(1)):
                names[m.group(1)] = snake(m.group(1))

    def respell(text):
        return TOKEN.sub(lambda m: names.get(m.group(0), m.group(0)), text)

    def source(text):
        return "".join(p if p.startswith('"') else respell(p) for p in re.split(r'("(?:[^"\\\n]|\\.)*")', text))

    changed = 0
    documents = ["README.md"] + ["docs/" + f for f in sorted(os.listdir("docs")) if f.endswith(".md")]
    for path in [*paths(".antt", ".rt", ".edit", "more-edits.txt"), *documents]:
        before = read(path)
        after = (source if path.endswith(".rt") else respell)(before)
        if after != before:
            with open(path, "w", encoding="utf-8") as f:
                f.write(after)
            changed += 1
    print(len(names), "names,", changed, "files")
    return 0


if __name__ == "__main__":
    sys.exit(main())
