#!/usr/bin/env python3
"""Holds docs/errors.md, behind its head, against what `bin/dtman-unproved explain` prints; with `--write` the entries are taken anew."""
import subprocess
import sys

PAGE = "docs/errors.md"
PROGRAM = "bin/dtman-unproved"


def explained(*words):
    return subprocess.run([PROGRAM, "explain", *words], capture_output=True, text=True, check=True).stdout


def entry(number):
    """What is printed of an error: its meaning, a list, and where there are some the lines of its input, which the page shows as they are."""
    meaning, advice, *lines = explained(number).split("\n\n", 2)
    return "\n\n".join([meaning, advice, *(f"```\n{it}```\n" for it in lines)])


def main():
    with open(PAGE, encoding="utf-8") as file:
        page = file.read()
    head = page.partition("\n## ")[0]
    numbers = [line.split()[0] for line in explained().splitlines()]
    made = "\n".join([head, *map(entry, numbers)])
    if sys.argv[1:] == ["--write"]:
        with open(PAGE, "w", encoding="utf-8") as file:
            file.write(made)
    elif made != page:
        print(f"{PAGE} isn't what {PROGRAM} explains: `python3 .ci/errors.py --write` takes it anew", file=sys.stderr)
        return 1
    print(f"{PAGE}: {len(numbers)} errors, as they are explained")
    return 0


if __name__ == "__main__":
    sys.exit(main())
