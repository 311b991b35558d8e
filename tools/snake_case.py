#!/usr/bin/env python3
"""Brings the definitions and lemmas that this repository declares to snake case.

usage: python3 tools/snake_case.py      at the top of the repository, once, after the kit's port.py

A name counts as declared where a file of specs/ or proofs/ gives it a type, or a lemma of a proof's own file does.
The goals that a proof answers, and what it chooses for a loop, have the names that Rattle gives them, and stay.
Each name is replaced as a whole word in specs, proofs, clauses, planted bugs, README and docs/.
"""

import os
import re

WORD = re.compile(r"[^\s(){}\[\],;.:`\"]+")
DECLARED = re.compile(r"\s*(?:(?:abbrev|unfoldable|pub|record|data)\s+)*((?:[^\s(){}\[\],;.:=]+\s+)*)(?:[({].*)?:\s+(.*)$")
GIVEN = ("goal.", "Given.")
# Names that the kit's script only half turned, and lemmas that would fall together with the kit's functions.
HALF = {"at_least_lem": "at_least", "getD-put": "get_or_put", "bit-and": "bit_of_and", "bit-or": "bit_of_or"}


def files(*ends):
    for folder, dirs, names in os.walk("."):
        dirs[:] = sorted(d for d in dirs if d not in (".git", "out", "target"))
        for name in sorted(names):
            if name.endswith(ends):
                yield os.path.join(folder, name)


def read(path):
    with open(path, encoding="utf-8") as f:
        return f.read()


def declared():
    found = set()
    for path in files(".antt"):
        for line in read(path).splitlines():
            m = DECLARED.match(line)
            if m and not m.group(2).startswith(GIVEN):
                found.update(m.group(1).split())
    return found


def snake(name):
    return name.replace("-", "_")


def main():
    names = declared()
    renamed = {n: snake(n) for n in names if re.fullmatch(r"[A-Za-z][\w'-]*", n) and "-" in n}
    renamed.update(HALF)
    together = sorted((n, s) for n, s in renamed.items() if s in names or sum(1 for t in renamed.values() if t == s) > 1)
    for n, s in together:
        print(f"falls together: {n} and {s}")
    for path in files(".antt", ".rt", ".edit", ".md"):
        old = read(path)
        new = WORD.sub(lambda m: renamed.get(m.group(), m.group()), old)
        if new != old:
            with open(path, "w", encoding="utf-8") as f:
                f.write(new)
    print(f"{len(renamed)} names in snake case")


if __name__ == "__main__":
    main()
