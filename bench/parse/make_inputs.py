#!/usr/bin/env python3
"""Writes sources of 16 MiB to a folder that a parser could be slow on, or take much memory for.

one-value       one property of one value, 8 million cells
bytes           one byte string of 16 million digits
string          one string
properties      4 million empty properties of one node
labels          1 million labels before one property
comment         one comment
parentheses     16 million parentheses, which are too deep
expressions     parentheses nested 60 deep, again and again
blanks          nothing but blanks
nodes           4 million empty nodes
references      5 million references in cells
reservations    1 million reservations
items           4 million items
pieces          5 million empty pieces of one value
names           8 million empty properties of one node, named by one byte
strings         3 million properties that hold an empty string
chains          4 million nodes, each the only one of another, 63 deep
deep            3 million nodes, 64 deep, with a property each
only-child      2 million nodes with one child each
labelled        2 million empty nodes with a label each
board           the items of the example board, again and again
"""
import os
import sys

SIZE = 16 * 1024 * 1024
HEAD = b"/dts-v1/; / {"


def filled(head, unit, tail=b""):
    return head + unit * ((SIZE - len(head) - len(tail)) // len(unit)) + tail


INPUTS = {
    "one-value": filled(HEAD + b"p = <", b"1 ", b">; };"),
    "bytes": filled(HEAD + b"p = [", b"0a", b"]; };"),
    "string": filled(HEAD + b'p = "', b"ab", b'"; };'),
    "properties": filled(HEAD, b"abc;", b"};"),
    "labels": filled(HEAD, b"labelabcdefghi: ", b"p; };"),
    "comment": filled(b"/dts-v1/; /* ", b"xx", b" */ / { };"),
    "parentheses": filled(HEAD + b"p = <", b"("),
    "expressions": filled(HEAD + b"p = <", b"(" * 60 + b"1" + b")" * 60 + b" ", b">; };"),
    "blanks": b" " * SIZE,
    "nodes": filled(HEAD, b"a{};", b"};"),
    "references": filled(HEAD + b"p = <", b"&a ", b">; };"),
    "reservations": filled(b"/dts-v1/;", b"/memreserve/ 1 1;", b"/ { };"),
    "items": filled(b"/dts-v1/;", b"/{};"),
    "pieces": filled(HEAD + b"p = ", b"<>,", b"<>; };"),
    "names": filled(HEAD, b"a;", b"};"),
    "strings": filled(HEAD, b'a="";', b"};"),
    "chains": filled(HEAD, b"a{" * 63 + b"};" * 63, b"};"),
    "deep": filled(HEAD, b"a{b;" * 64 + b"};" * 64, b"};"),
    "only-child": filled(HEAD, b"a{b{};};", b"};"),
    "labelled": filled(HEAD, b"a:b{};", b"};"),
}


def board():
    path = os.path.join(os.path.dirname(os.path.abspath(__file__)), "../../examples/board.dts")
    with open(path, "rb") as file:
        text = file.read()
    return filled(b"/dts-v1/;\n", text[text.index(b"\n/ {") :])


def main(folder):
    os.makedirs(folder, exist_ok=True)
    INPUTS["board"] = board()
    for name, text in INPUTS.items():
        with open(os.path.join(folder, name + ".dts"), "wb") as file:
            file.write(text)


if __name__ == "__main__":
    main(sys.argv[1])
