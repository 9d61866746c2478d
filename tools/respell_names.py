#!/usr/bin/env python3
"""Respells the names that this repository declares in specs/ and in the lemma files of proofs/.

usage: python3 tools/respell_names.py      at the top of the repository, once, after port.py

Words joined by hyphens are joined by underscores (with-cell, with_cell), types by capitals (Behind-first, BehindFirst).
Names that Rattle makes, such as those of goals and of what an answer cites, keep their hyphens, and so do names of std.
It stops without a change where two of them would fall together; a function of src/ may have the name of a definition.
"""
import os
import re
import sys

WORD = r"[A-Za-z_][A-Za-z0-9_']*(?:-[A-Za-z0-9_']+)*"
DECLARED = re.compile(r"^\s*(?:(?:abbrev|unfoldable|pub|mutual)\s+)*(" + WORD + r")((?:\s+" + WORD + r")*)\s+:\s")
LET = re.compile(r"\blet\s+(" + WORD + r")\b")
BOUND = re.compile(r"[({]((?:" + WORD + r"\s+)+):\s")
LAMBDA = re.compile(r"λ\s+((?:" + WORD + r"\s*)+)\.")
IMPORTED = re.compile(r"use Rattle\.std\.[\w.'+-]*\{([^}]*)\}")
TOKEN = re.compile(r"(?<![A-Za-z0-9_'-])" + WORD + r"(?![A-Za-z0-9_'-])")
GENERATED = ("Answers.antt", "Invariants.antt", "Proof.antt")


def files():
    for folder, dirs, names in os.walk("crates"):
        dirs[:] = sorted(d for d in dirs if d != "out")
        for name in sorted(names):
            if name.endswith((".antt", ".rt")):
                yield os.path.join(folder, name)


def read(path):
    with open(path, encoding="utf-8") as f:
        return f.read()


def declared():
    found, imported = set(), set()
    for path in files():
        text = read(path)
        for group in IMPORTED.findall(text):
            imported |= {w.strip().split(" as ")[0] for w in group.split(",")}
        if not path.endswith(".antt") or os.path.basename(path) in GENERATED:
            continue
        for line in text.split("\n"):
            if line.lstrip().startswith("--"):
                continue
            m = DECLARED.match(line)
            if m:
                found |= {m.group(1), *m.group(2).split()}
            found |= set(LET.findall(line))
            for group in BOUND.findall(line) + LAMBDA.findall(line):
                found |= set(group.split())
    return {n for n in found if "-" in n} - imported, found | imported


def respelt(name):
    if name[0].isupper():
        return "".join(part[0].upper() + part[1:] for part in name.split("-"))
    return name.replace("-", "_")


def main():
    names, others = declared()
    to = {n: respelt(n) for n in sorted(names)}
    clash = [f"{n} and {t}" for n, t in to.items() if t in others] + [n for n in to if list(to.values()).count(to[n]) > 1]
    if clash:
        print("would fall together:", "; ".join(clash))
        return 1
    for path in files():
        text = read(path)
        new = TOKEN.sub(lambda m: to.get(m.group(0), m.group(0)), text)
        if new != text:
            with open(path, "w", encoding="utf-8") as f:
                f.write(new)
    print(len(to), "names respelt")
    return 0


sys.exit(main())
