#!/usr/bin/env python3
"""Brings the names of this repository's own definitions, fields and lemmas to snake case: usage: snake_names.py, at the top of the checkout.

A name counts as our own if a file of specs/ or a lemma file of proofs/ defines it, and no file imports it from a library.
Names that the prover makes (they stand in Answers, Invariants and Choices alone) stay as they are, as do types.
"""

import glob
import os
import re

WORD = r"[^\s(){}.,;:=→λ×⌜⌝⟨⟩«»\[\]\"]+"
DEFINED = re.compile(r"\s*(?:(?:abbrev|opaque|unfoldable|pub|instance)\s+)*(?:(?:record|data)\s+)?((?:" + WORD + r"\s+)*?" + WORD + r")(?:\s[({][^=:]*.*)?\s:(?:\s|$)")
USED = re.compile(r"^\s*(?:pub )?use ([\w.'·+-]+)\.\{([^}]*)\}", re.M)
MADE = re.compile(r"/proofs/.*/(Answers|Invariants|Choices|Proof)\.antt$")

# Two names that would fall together, and names after an operator or a word that is gone.
CHOSEN = {
    "far-axis": "far_axis_is",
    "near-axis": "near_axis_is",
    "corner-prunes": "corner_prunes_is",
    "add-*ℤ": "add_times",
    "neg-*ℤ": "neg_times",
    "getD-mapped": "slice_index_mapped",
}


def snake(name):
    if name in CHOSEN:
        return CHOSEN[name]
    name = name.replace("-", "_")
    return re.sub(r"([a-z0-9'])([A-Z])", lambda m: m[1] + "_" + m[2].lower(), name)


def lemma_files():
    for folder in ("specs", "proofs"):
        yield from sorted(glob.glob(f"crates/*/{folder}/**/*.antt", recursive=True))


def renamed():
    """The names to be turned, each with its new spelling."""
    own, library = set(), set()
    for path in lemma_files():
        with open(path, encoding="utf-8") as f:
            text = f.read()
        for m in USED.finditer(text):
            parts = m[1].split(".")
            if parts[0] != "Rattle" or not os.path.isdir(os.path.join("crates", parts[1])):
                library |= {n.strip().split(" as ")[0].strip() for n in m[2].split(",")}
        if MADE.search(path):
            continue
        for line in text.split("\n"):
            m = DEFINED.match(re.sub(r"--.*", "", line))
            if m:
                own |= set(m[1].split())
    old = {n for n in own if n[0].islower() and ("-" in n or re.search(r"[a-z0-9'][A-Z]", n)) and re.match(r"[a-z][\w'*-]*$", n)}
    return {n: snake(n) for n in sorted(old - library)}


def main():
    names = renamed()
    met = {}
    for old, new in names.items():
        if new in met:
            raise SystemExit(f"{old} and {met[new]} would both be {new}")
        met[new] = old
    longest = sorted(names, key=len, reverse=True)
    pattern = re.compile(r"(?<![\w'·-])(?:" + "|".join(map(re.escape, longest)) + r")(?![\w'·-])")
    for path in [*lemma_files(), *sorted(glob.glob("crates/*/src/**/*.rt", recursive=True))]:
        with open(path, encoding="utf-8") as f:
            text = f.read()
        turned = pattern.sub(lambda m: names[m[0]], text)
        if turned != text:
            with open(path, "w", encoding="utf-8") as f:
                f.write(turned)
    print(f"{len(names)} names turned")


if __name__ == "__main__":
    main()
