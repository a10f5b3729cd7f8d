#!/usr/bin/env python3
"""Compiles each board of a Linux source by dtc and by bin/dtc, and counts the blobs that are dtc's bytes and those that are dtc's trees.

usage: boards.py LINUX [--symbols] [--every N]      (cpp and dtc have to be there; bin/dtc is a link to bin/dtman)
"""
import argparse
import os
import subprocess
import sys
import tempfile

HERE = os.path.dirname(os.path.abspath(__file__))
OURS = os.path.join(HERE, "..", "..", "bin", "dtc")


def boards(linux):
    for folder, _, names in sorted(os.walk(os.path.join(linux, "arch"))):
        for name in sorted(names):
            if name.endswith(".dts"):
                yield os.path.relpath(os.path.join(folder, name), linux)


def preprocess(linux, board, out):
    words = ["cpp", "-nostdinc", "-I", "scripts/dtc/include-prefixes", "-I", "include", "-undef", "-D__DTS__", "-x", "assembler-with-cpp"]
    return subprocess.run([*words, board, out], cwd=linux, capture_output=True, check=False).returncode == 0


def blob(program, linux, board, text, out, options):
    words = [program, "-q", "-b", "0", "-I", "dts", "-O", "dtb", "-i", os.path.dirname(board), "-i", "scripts/dtc/include-prefixes"]
    done = subprocess.run([*words, *options, "-o", out, text], cwd=linux, capture_output=True, check=False)
    if done.returncode != 0:
        return None, done.stderr.decode(errors="replace")
    with open(out, "rb") as file:
        return file.read(), ""


def tree(data):
    """dtc's text of a blob, sorted: two blobs of one tree have one."""
    return subprocess.run(["dtc", "-q", "-s", "-I", "dtb", "-O", "dts"], input=data, capture_output=True, check=False).stdout


def main():
    reader = argparse.ArgumentParser()
    reader.add_argument("linux")
    reader.add_argument("--symbols", action="store_true")
    reader.add_argument("--every", type=int, default=1)
    given = reader.parse_args()
    options = ["-@"] if given.symbols else []
    counts = {"same bytes": 0, "same tree": 0, "another tree": 0, "refused": 0, "refused by dtc": 0}
    with tempfile.TemporaryDirectory() as folder:
        text, out = os.path.join(folder, "board.dts"), os.path.join(folder, "board.dtb")
        for board in list(boards(given.linux))[:: given.every]:
            if not preprocess(given.linux, board, text):
                continue
            theirs, _ = blob("dtc", given.linux, board, text, out, options)
            ours, said = blob(OURS, given.linux, board, text, out, options)
            if theirs is None:
                kind = "refused by dtc"
            elif ours is None:
                kind = "refused"
            elif ours == theirs:
                kind = "same bytes"
            else:
                kind = "same tree" if tree(ours) == tree(theirs) else "another tree"
            counts[kind] += 1
            if kind not in ("same bytes", "refused by dtc"):
                print(f"{kind}: {board} {said.strip()}")
    print(", ".join(f"{number} {kind}" for kind, number in counts.items()))
    return 1 if counts["another tree"] or counts["refused"] else 0


if __name__ == "__main__":
    sys.exit(main())
