#!/usr/bin/env python3
"""Deletes each lexeme of sources, writes it twice, and exchanges it with the next, and gives the texts to `compile`.

Each answer has to be a number of sources, or a blob whose text, as `dump` prints it, is a source of the same blob.
"""
import re
import sys

from trials import tried

SOURCES = ("examples/board.dts", "examples/hat.dts", "examples/sensor-board.dts")
FORMS = """
/dts-v1/; /plugin/; /memreserve/ 0x1000 (1 ? 2 : -3);
/ { a: b: c { p, q = "s\\x41\\"", [0a 0B l: 0c], <1 &a (~0x10 << 2 || 3 && !4)>; r; /delete-property/ r; d { }; }; };
&a { e = /bits/ 16 <0xffff (0 - 1)>, &a, &{/c/d}; /delete-node/ d; f: f { phandle = <7>; }; };
&out { t = <&a &out>; }; &{/c} { };
/delete-node/ &f;
"""
LEXEME = re.compile(
    r"/\*.*?\*/|//[^\n]*|\s+"
    r'|"(?:[^"\\]|\\.)*"|&\{[^}]*\}|&\w+|/[a-z][a-z0-9-]*/|\w+:|0[xX][0-9a-fA-F]+|[\w,.+*#?@-]+'
    r"|\|\||&&|==|!=|<=|>=|<<|>>|.",
    re.DOTALL,
)
GAP = re.compile(r"/\*|//|\s")
SOURCE_NUMBERS = (*range(10, 17), *range(20, 29))


def lexemes(text):
    """The lexemes, each with the gap behind it, and what stands before the first."""
    parts = [""]
    for part in LEXEME.findall(text):
        if GAP.match(part):
            parts[-1] += part
        else:
            parts.append(part)
    return parts


def changes(text):
    """Each change, with the text that has it."""
    parts = lexemes(text)
    for at in range(1, len(parts)):
        before, one, after = parts[:at], parts[at], parts[at + 1 :]
        yield f"without lexeme {at}", before + after
        yield f"lexeme {at} twice", before + [one, " ", one] + after
        if after:
            yield f"lexeme {at} behind the next", before + [after[0], " ", one, " "] + after[1:]


def trial(text):
    def task(room):
        room.put("in", text.encode())
        for options in ("", " --symbols"):
            made = room.run("compile in out" + options, "out")
            if room.refused(made, SOURCE_NUMBERS, "out"):
                continue
            room.put("text", room.run("dump out").printed)
            again = room.run("compile text again", "again")
            if again.status or room.contents("again") != room.contents("out"):
                room.fault(again)

    return task


def main():
    wrong = 0
    texts = {"forms": FORMS}
    for path in SOURCES:
        with open(path, encoding="ascii") as file:
            texts[path] = file.read()
    for name, text in texts.items():
        count, faults = tried({}, ((f"{name}, {what}", trial("".join(parts))) for what, parts in changes(text)))
        print(f"{name}: {len(lexemes(text)) - 1} lexemes, {count} changes, {faults} wrong answers", flush=True)
        wrong += faults
    return 1 if wrong else 0


if __name__ == "__main__":
    sys.exit(main())
