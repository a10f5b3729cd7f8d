#!/usr/bin/env python3
"""Whether two answers are the same tree: `same_tree.py BASE OWN THEIRS`, each printed by `dtman dump`; the status says it.

They are, where they differ in the order of siblings, and in the numbers of the overlay's phandles and of what refers to them:
fdtoverlay raises these by the base's greatest phandle, and dtman, as Linux, by one more. Any cell of the overlay that holds the number
of such a phandle is taken for a reference to it.
"""
import filecmp
import sys


def entries(path):
    """The values by their node's path and their name, and each node by its path."""
    above, found = [], {}
    with open(path, encoding="ascii") as file:
        for line in file:
            line = line.strip("\t\n")
            if line == "};":
                above.pop()
            elif line.endswith(" {"):
                above.append(line[:-2])
                found["/".join(above)] = ""
            else:
                name, _, value = line.rstrip(";").partition(" = ")
                found["/".join(above) + ":" + name] = value
    return found


def numbers(value):
    """A value's cells, or nothing where it is printed otherwise."""
    return [int(cell, 16) for cell in value[1:-1].split()] if value.startswith("<") else []


def same(base, own, theirs):
    if own.keys() != theirs.keys():
        return False
    given = {number for key in own if key.endswith(":phandle") and own[key] != theirs[key] for number in numbers(own[key])}

    def alike(mine, yours):
        return len(mine) == len(yours) and all(a == b + (a in given or b + 1 in given) for a, b in zip(mine, yours))

    changed = (key for key in own if not own[key] == theirs[key] == base.get(key))
    return all(
        alike(numbers(own[key]), numbers(theirs[key])) if own[key].startswith("<") else own[key] == theirs[key] for key in changed
    )


def main(base, own, theirs):
    return 0 if filecmp.cmp(own, theirs, shallow=False) or same(entries(base), entries(own), entries(theirs)) else 1


if __name__ == "__main__":
    sys.exit(main(*sys.argv[1:]))
