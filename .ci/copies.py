#!/usr/bin/env python3
"""Compares the board that the tests parse, which stands in their source, with examples/board.dts."""
import re
import sys

TESTED = "crates/dt_tests/src/source/sources/board.rt"
ESCAPES = {"n": "\n", "t": "\t", '"': '"', "\\": "\\"}


def meant(literal):
    """The text of a literal's escapes; a backslash at a line's end takes the white space behind it."""
    literal = re.sub(r"\\\n\s*", "", literal)
    return re.sub(r"\\(x[0-9a-f]{2}|.)", lambda found: chr(int(found[1][1:], 16)) if found[1][0] == "x" else ESCAPES[found[1]], literal)


def main():
    with open(TESTED, encoding="utf-8") as file:
        tested = meant(re.search(r'pub const BOARD: &\[u8\] = b"(.*)";', file.read(), re.DOTALL)[1])
    with open("examples/board.dts", encoding="utf-8") as file:
        if file.read() == tested:
            return 0
    print(f"{TESTED} isn't examples/board.dts", file=sys.stderr)
    return 1


if __name__ == "__main__":
    sys.exit(main())
