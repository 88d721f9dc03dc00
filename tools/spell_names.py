#!/usr/bin/env python3
"""Brings the repository's own definitions and lemmas to the spelling of the kit: words in snake case, facts and types in upper camel case.

usage: python3 tools/spell_names.py [--show]     at the top of the repository, once, after the kit's port.py

It reads which names specs/ and proofs/ declare, makes a row for each that has a dash, or a capital and a `_`, and lets the kit's own
snake.py write them. Goals that Rattle names, and the functions of src/, keep their names. --show prints the rows and writes nothing.
"""
import os
import re
import subprocess
import sys
import tempfile

SNAKE = "/opt/rattle/port/notes/2026-11-18-names-are-in-snake-case/snake.py"
WORDS = r"(?:(?:abbrev|unfoldable|pub|record|data|ruleset) +)*"
DECLARED = re.compile(r"^( *)(" + WORDS + r")([^\s:=(){}λ→.,;]+)((?: +(?:[({].*[)}]))*) +: +(.*)$")


def declared(path):
    """The names that a file declares, but for the answers to Rattle's goals."""
    for line in open(path, encoding="utf-8"):
        found = DECLARED.match(line.rstrip("\n"))
        if not found or re.match(r"goal\.", found[5]):
            continue
        if found[1] and not (found[2] or len(found[1]) in (2, 4)):
            continue
        if found[3] in ("let", "in", "→", "--"):
            continue
        yield found[3]


# `NotTheNames` is the refusal of that name
OTHERWISE = {"Not-the-names": "IsNotTheNames"}


def respelled(name):
    if name in OTHERWISE:
        return OTHERWISE[name]
    if name[0].isupper():
        return "".join(part[:1].upper() + part[1:] for part in re.split("[-_]", name))
    return name.replace("-", "_")


def rows(root):
    names = set()
    for folder, _, files in os.walk(os.path.join(root, "crates")):
        if re.search(r"/crates/[^/]+/(specs|proofs)(/|$)", folder):
            for f in files:
                if f.endswith(".antt"):
                    names.update(declared(os.path.join(folder, f)))
    odd = lambda n: "-" in n.strip("-") or n[0].isupper() and "_" in n
    return {n: respelled(n) for n in sorted(names) if odd(n) and respelled(n) != n}


def main(root):
    table = rows(root)
    if "--show" in sys.argv:
        for old, new in table.items():
            print(old, new, sep="\t")
        return 0
    with tempfile.NamedTemporaryFile("w", suffix=".tsv", encoding="utf-8", delete=False) as f:
        f.writelines(f"{old}\t{new}\n" for old, new in table.items())
    done = subprocess.run([sys.executable, SNAKE, "--table", f.name, "--only", "antt,rt", "--code", "--skip-behind", "c,l,g,w", os.path.join(root, "crates")])
    os.unlink(f.name)
    return done.returncode


if __name__ == "__main__":
    raise SystemExit(main("."))
