#!/usr/bin/env python3
"""Writes sources of some MB to a folder that a compiler could be slow on: `make_inputs.py FOLDER MB`.

references          nodes with a label each, and a reference to the one before
plain               the same nodes without references
children            one node's children, all named differently
properties          one node's properties, all named differently
labels              labels of one node
labelled            labelled children, each referred to from one list
references-to-one   references to one node
extensions-by-label a node extended by its label again and again
extensions-by-path  nodes extended by their paths
roots               the root defined again and again
deletes-by-name     children made and deleted by name
deletes-by-label    children made and deleted by label
label-anew          one label given anew after each delete
phandles            given phandles from 1 on
deep                chains of nodes 60 deep
names               properties of many nodes, all named differently
paths               references to a node with a long path, outside cells (asks for more bytes than a blob may have)
"""
import itertools
import os
import sys

HEAD = "/dts-v1/;\n"


def filled(size, head, units, tail=""):
    """As many units between head and tail as fit."""
    parts = [head]
    length = len(head) + len(tail)
    for unit in units:
        length += len(unit)
        if length > size:
            break
        parts.append(unit)
    parts.append(tail)
    return "".join(parts)


def count():
    return itertools.count()


def chains():
    """Chains of nodes, each 60 deep."""
    for n in count():
        yield f"c{n}{{" + "".join(f"d{k}{{" for k in range(58)) + "a;" + "};" * 59


INPUTS = {
    "references": lambda size: filled(size, HEAD + "/{n0: n0{};", (f"n{n}: n{n}{{r=<&n{n - 1}>;}};" for n in itertools.count(1)), "};"),
    "plain": lambda size: filled(size, HEAD + "/{n0: n0{};", (f"n{n}: n{n}{{r=<1>;}};" for n in itertools.count(1)), "};"),
    "children": lambda size: filled(size, HEAD + "/{a{", (f"c{n}{{}};" for n in count()), "};};"),
    "properties": lambda size: filled(size, HEAD + "/{a{", (f"p{n};" for n in count()), "};};"),
    "labels": lambda size: filled(size, HEAD + "/{", (f"l{n}: " for n in count()), "a{};};"),
    "labelled": lambda size: labelled(size),
    "references-to-one": lambda size: filled(size, HEAD + "/{a: a{};r{r=<", itertools.repeat("&a "), ">;};};"),
    "extensions-by-label": lambda size: filled(size, HEAD + "/{a: a{};};", (f"&a{{p{n};}};" for n in count())),
    "extensions-by-path": lambda size: filled(size, HEAD + "/{a{b{c{};};};};", (f"&{{/a/b/c}}{{p{n};}};" for n in count())),
    "roots": lambda size: filled(size, HEAD, itertools.repeat("/{a;};")),
    "deletes-by-name": lambda size: filled(size, HEAD + "/{", (f"c{n}{{}};/delete-node/ c{n};" for n in count()), "};"),
    "deletes-by-label": lambda size: filled(size, HEAD + "/{};", (f"/{{l{n}: c{n}{{}};}};/delete-node/ &l{n};" for n in count())),
    "label-anew": lambda size: filled(size, HEAD + "/{};", (f"/{{l: c{n}{{a{{}};}};}};/delete-node/ &l;" for n in count())),
    "phandles": lambda size: filled(size, HEAD + "/{", (f"c{n}{{phandle=<{n + 1}>;}};" for n in count()), "};"),
    "deep": lambda size: filled(size, HEAD + "/{", chains(), "};"),
    "names": lambda size: filled(size, HEAD + "/{", (f"c{n}{{p{n};}};" for n in count()), "};"),
    "paths": lambda size: filled(
        size, HEAD + "/{" + "".join("n" * 255 + "{" for _ in range(60)) + "q: q{};" + "};" * 60 + "r{p=", itertools.repeat("&q,"), "&q;};};"
    ),
}


def labelled(size):
    """Labelled children, and one list with a reference to each."""
    children, references = [], []
    length = len(HEAD) + 16
    for n in count():
        child, reference = f"l{n}: c{n}{{}};", f"&l{n} "
        length += len(child) + len(reference)
        if length > size:
            break
        children.append(child)
        references.append(reference)
    return HEAD + "/{r{r=<" + "".join(references) + ">;};" + "".join(children) + "};"


def main(folder, megabytes):
    os.makedirs(folder, exist_ok=True)
    size = min(int(float(megabytes) * 1024 * 1024), 16 * 1024 * 1024)
    for name, text_of in INPUTS.items():
        with open(os.path.join(folder, name + ".dts"), "w", encoding="ascii") as file:
            file.write(text_of(size))


if __name__ == "__main__":
    main(sys.argv[1], sys.argv[2])
