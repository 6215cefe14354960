#!/usr/bin/env python3
"""Respells this repository's own definitions and lemmas, once, after the kit's port.py: python3 tools/respell.py, at the top.

tools/names.tsv has a row for each name: old, a tab, new. A name turns where it stands as a whole word, in specs/, proofs/ and the
clauses and imports of src/. In a function's proof files the parts of a goal's or a step's name that come from the source keep the
source's spelling: put-number-last-requires is put_number-last-requires. Functions, exported names, strings, inputs, outputs and edits stay."""
import glob
import re

WORD = re.compile(r"[^\s(){}.;,@\"«»\[\]|]+")
# words that the kit writes with an underscore in the names of goals and steps
KIT = ["overflow-add", "overflow-sub", "overflow-mul", "overflow-shl", "overflow-shr", "overflow-cast", "overflow-step", "invariant-of", "slice-bounds", "offset-bounds", "nonzero-div", "nonzero-rem", "type-inv", "in-ok", "in-err", "in-default", "split-at-mut", "saturating-sub", "checked-add", "copy-from-slice", "leading-zeros", "is-some", "is-err", "is-ok", "as-slice"]


def table():
    rows = {}
    for line in open("tools/names.tsv", encoding="utf-8"):
        old, new = line.rstrip("\n").split("\t")
        rows[old] = new
    return rows


def source_names():
    """The functions and variables of src/ whose names have an underscore, longest first."""
    found = set()
    for path in glob.glob("crates/*/src/**/*.rt", recursive=True):
        text = open(path, encoding="utf-8").read()
        found |= set(re.findall(r"\bfn (\w+_\w+)", text)) | set(re.findall(r"\blet (?:mut )?(\w+_\w+)", text)) | set(re.findall(r"\b(\w+_\w+): ", text))
    return sorted({n for n in found if n == n.lower()} | {k.replace("-", "_") for k in KIT}, key=len, reverse=True)


def main():
    rows, sources = table(), source_names()
    paths = glob.glob("crates/*/specs/*.antt") + glob.glob("crates/*/proofs/**/*.antt", recursive=True) + glob.glob("crates/*/src/**/*.rt", recursive=True)
    for path in sorted(paths):
        old = open(path, encoding="utf-8").read()
        new = WORD.sub(lambda m: rows.get(m[0], m[0]), old)
        if path.endswith(("Answers.antt", "Invariants.antt")):
            for name in sources:
                new = re.sub(r"(?<![\w])" + re.escape(name.replace("_", "-")) + r"(?![\w])", name, new)
        if new != old:
            open(path, "w", encoding="utf-8").write(new)


main()
