#!/usr/bin/env python3
"""Respells the repository's own definitions and lemmas as this Rattle spells names.

usage: python3 tools/respell.py        at the top of the repository, once, behind Rattle's own port.py

Words are in snake case and facts in camel case, where they had dashes. The names of goals in Answers.antt and Invariants.antt
are Rattle's and stay, as do functions, strings, inputs and outputs. Names that would fall together stop it before it writes.
"""

import os
import re
import sys

NAME = r"[^\s:(){}\[\],;.=λ⌜⌝«»]+"
DECLARED = re.compile(r"^\s*(?:(?:abbrev|unfoldable|pub|data|record|ruleset)\s+)*(" + NAME + r")(?:\s+[({].*)?\s*:(?!=)\s*(.*)$")
RENAMED = re.compile(r"\bas\s+(" + NAME + r")")


def texts():
    for folder, dirs, files in os.walk("crates"):
        dirs[:] = sorted(d for d in dirs if d != "out")
        for f in sorted(files):
            if f.endswith((".rt", ".antt")):
                yield os.path.join(folder, f)


# where a function of src/ has the name in snake case already
TAKEN = {"criterion-name": "name_of_criterion", "level-name": "name_of_level", "object-name": "name_of_object"}


def respelled(name):
    if name in TAKEN:
        return TAKEN[name]
    parts = name.split("-")
    if name[0].isupper():
        return "".join(p[0].upper() + p[1:] for p in parts)
    return "_".join(parts)


def own_names(path, text):
    """The names that a file declares, or takes under another name, but not those of goals."""
    for line in text.splitlines():
        if path.endswith(".antt"):
            m = DECLARED.match(line)
            if m and not m.group(2).startswith("goal."):
                yield m.group(1)
        if line.lstrip().startswith(("use ", "ghost use ", "pub use ")):
            yield from RENAMED.findall(line)


def main():
    read = {}
    for p in texts():
        with open(p, encoding="utf-8") as f:
            read[p] = f.read()
    own = {n for p, t in read.items() for n in own_names(p, t)}
    table = {n: respelled(n) for n in sorted(own) if re.fullmatch(r"[A-Za-z][A-Za-z0-9'_]*(-[A-Za-z0-9'_]+)+", n)}
    words = {w for t in read.values() for w in re.findall(r"[A-Za-z0-9_'-]+", t)}
    clash = sorted(f"{old} and {new}" for old, new in table.items() if new in words or list(table.values()).count(new) > 1)
    if clash:
        print("these fall together: " + "; ".join(clash))
        return 1
    token = re.compile(r"(?<![A-Za-z0-9_'·-])(" + "|".join(re.escape(n) for n in sorted(table, key=len, reverse=True)) + r")(?![A-Za-z0-9_'·-])")
    for p, t in read.items():
        new = token.sub(lambda m: table[m.group(1)], t)
        if new != t:
            with open(p, "w", encoding="utf-8") as f:
                f.write(new)
    for old, new in table.items():
        print(f"{old} -> {new}")
    return 0


if __name__ == "__main__":
    sys.exit(main())
