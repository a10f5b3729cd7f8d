#!/usr/bin/env python3
"""Prints what each function of a crate cost in its last check from nothing, in seconds, and for what.

    rm -rf crates/NAME/out/incremental; (cd crates/NAME && rt check --jobs 1); python3 bench/gate/functions.py NAME

A check keeps each part of a proof in a file as soon as it is done, so the time between two files is what the later one took.
`borrows` grows with the ways out of a function and with what it owns there, `search` with the goals that no answer names.
"""
import os
import re
import sys
from collections import defaultdict

KINDS = {"Lts": "borrows", "Proof": "search", "Answers": "answers", "Tie": "code", "Code": "code", "Goals": "code"}


def kept(folder):
    """The files that a check kept, in the order in which they were written: the time of each, and its name."""
    for at, _, names in os.walk(folder):
        for name in names:
            if name.endswith(".oantt"):
                yield os.stat(f"{at}/{name}").st_mtime, name.removesuffix(".oantt").removesuffix(".decls")


def part_of(name):
    """The function that a file's name tells, and what part of its proof."""
    words = re.sub(r"^Rattle-\w+-(specs|proofs)\.?", r"\1.", name).split(".")
    for at, word in enumerate(words):
        kind = KINDS.get(word.split("-")[0])
        if kind:
            return ".".join(words[1:at]), kind
    return ".".join(words[1:]) or name, "definitions" if words[0] == "specs" else "lemmas"


def main():
    crate, most = sys.argv[1], int(sys.argv[2]) if len(sys.argv) > 2 else 30
    files = sorted(kept(f"crates/{crate}/out/incremental"))
    if not files:
        print(f"crates/{crate}/out/incremental holds nothing: check the crate first", file=sys.stderr)
        return 1
    spent, kinds = defaultdict(lambda: defaultdict(float)), defaultdict(float)
    for (before, _), (time, name) in zip(files, files[1:]):
        function, kind = part_of(name)
        spent[function][kind] += time - before
        kinds[kind] += time - before
    print("all: " + ", ".join(f"{kind} {time:.1f}" for kind, time in sorted(kinds.items(), key=lambda it: -it[1])))
    for function, row in sorted(spent.items(), key=lambda it: -sum(it[1].values()))[:most]:
        shown = ", ".join(f"{kind} {time:.1f}" for kind, time in sorted(row.items(), key=lambda it: -it[1]) if time >= 0.1)
        print(f"{sum(row.values()):7.1f}  {function}: {shown}")
    return 0


if __name__ == "__main__":
    sys.exit(main())
