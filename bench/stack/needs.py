#!/usr/bin/env python3
"""Prints how much stack `bin/dtman` needs for the inputs that take the most of it; with the word `check`, whether the sizes in docs/commands.md do.

A size counts where the answer is that of 8 MB. Where the stack begins differs by some KB from run to run, so each is tried five times.
"""
import os
import subprocess
import sys
import tempfile

PROGRAM = os.path.abspath("bin/dtman")
AMPLE = 8192
TOLD_SIZES = {"compile": 256, "probe": 512}
OTHERS = 96

# An operator of each rank, each binding more tightly than the one before it.
RISING = "1 || 1 && 1 | 1 ^ 1 & 1 == 1 < 1 << 1 + 1 * "


def nested(body, levels=64):
    """A source whose lowest node has this body, as deep as a tree goes, or less."""
    return "/dts-v1/; / { " + "".join(f"n{it}: n{it} {{ " for it in range(1, levels + 1)) + body + " };" * (levels + 1)


SOURCES = {
    "small": "/dts-v1/; / { n1: n1 { }; n64: n64 { }; };",
    "nodes": nested("r = <&n1 &n64>, &n64;"),
    "parentheses": nested("p = <" + "(" * 64 + "1" + ")" * 64 + ">;"),
    "choices": nested("p = <" + "(1 ? 2 : " * 32 + "3" + ")" * 32 + ">;"),
    "operators": nested("p = <" + ("(" + RISING) * 64 + "1" + ")" * 64 + ">;"),
    "sum": "/dts-v1/; / { p = <(" + "1 + " * 1000000 + "1)>; };",
    "string": '/dts-v1/; / { s = "' + "a" * 8000000 + '"; };',
    "cells": "/dts-v1/; / { p = <" + "1 " * 4000000 + ">; };",
    "devices": nested('compatible = "a";').replace("{ n", '{ compatible = "a"; n'),
    "plugin": "/dts-v1/; /plugin/; &n1 { " + "".join(f"m{it}: m{it} {{ " for it in range(60)) + "r = <&n64 &m1>;" + " };" * 61,
    "deep-target": "/dts-v1/; /plugin/; &n64 { y: y { r = <&n1 &y>; }; };",
}
PLUGINS = ("plugin", "deep-target")
NO_BLOBS = ("sum", "cells")

COMMANDS = [
    *(f"compile {it}.dts OUT" + ("" if it in PLUGINS else " --symbols") for it in SOURCES if it != "deep-target"),
    "overlay small.dtb plugin.dtb OUT",
    "dump nodes.dtb",
    "dump string.dtb",
    "plan devices.dtb one.drivers",
    "plan devices.dtb long.drivers --dot",
    "plan devices.dtb long.drivers --html",
    "replay devices.plan long.schedule",
    "probe devices.dtb one.drivers --workers 64",
    "explain 63",
    "--help",
]


def answer(words, size):
    """What a command ends with, prints, tells and writes, with so many KB of stack."""
    limited = ["bash", "-c", f'ulimit -Ss {size} && exec "$@"', "", PROGRAM, *words.split()]
    ran = subprocess.run(limited, env={}, capture_output=True, check=False)
    return ran.returncode, ran.stdout, ran.stderr, contents_of("OUT")


def contents_of(path):
    if not os.path.exists(path):
        return b""
    with open(path, "rb") as file:
        return file.read()


def suffices(words, size, wanted):
    return all(answer(words, size) == wanted for _ in range(5))


def least(words, wanted):
    """The least size in steps of 4 KB that suffices."""
    low, high = 0, AMPLE
    while high - low > 4:
        middle = (low + high) // 8 * 4
        low, high = (low, middle) if suffices(words, middle, wanted) else (middle, high)
    return high


def make_inputs():
    """Writes the inputs into the folder that this runs in."""
    for name, text in SOURCES.items():
        with open(f"{name}.dts", "w", encoding="ascii") as file:
            file.write(text)
        if name not in NO_BLOBS:
            symbols = [] if name in PLUGINS else ["--symbols"]
            subprocess.run([PROGRAM, "compile", f"{name}.dts", f"{name}.dtb", *symbols], check=True)
    remark = "# " + "a" * 4000000 + "\n"
    for name, text in {"one.drivers": "driver x a\n", "long.drivers": remark + "driver x " + "a " * 1000000 + "\n"}.items():
        with open(name, "w", encoding="ascii") as file:
            file.write(text)
    plan = subprocess.run([PROGRAM, "plan", "devices.dtb", "one.drivers"], check=True, capture_output=True).stdout
    with open("devices.plan", "wb") as file:
        file.write(plan)
    with open("long.schedule", "w", encoding="ascii") as file:
        file.write(remark + "begin /n1\nfinish /n1 settled\n")


def main():
    with tempfile.TemporaryDirectory(prefix="dtman-stack-") as room:
        os.chdir(room)
        make_inputs()
        lacking = []
        for words in COMMANDS:
            wanted = answer(words, AMPLE)
            promised = TOLD_SIZES.get(words.split()[0], OTHERS)
            if "check" not in sys.argv[1:]:
                print(f"| `{words}` | {least(words, wanted)} |", flush=True)
            elif wanted[0] or answer(words, promised) != wanted:
                lacking.append(f"dtman {words} ended with {wanted[0]}, or needs more than {promised} KB of stack")
        print("\n".join(lacking), end="\n" if lacking else "", file=sys.stderr)
        return 1 if lacking else 0


if __name__ == "__main__":
    sys.exit(main())
