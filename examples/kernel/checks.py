#!/usr/bin/env python3
"""Has dtc and bin/dtc check each board of a Linux source, and counts the lines that both tell: by check and path, as often as each tells them.

usage: checks.py LINUX [--all] [--blobs] [--every N]    (cpp and dtc have to be there; bin/dtc is a link to bin/dtman)
       checks.py LINUX --cost N                          (valgrind, too)

With --all all checks are on but `always_fail`; with --blobs the blobs that dtc makes are checked in the place of the sources. --cost tells how many in a
hundred instructions of bin/dtc its checks take, on the N largest boards.
"""
import argparse
import collections
import os
import re
import subprocess
import sys
import tempfile

from boards import OURS, boards, preprocess

TOLD = re.compile(r"(?:Warning|ERROR) \((\w+)\): ([^:\n]*)")
TABLES = os.path.join(os.path.dirname(OURS), "..", "crates", "dtman_check", "src", "table", "table")
ROW = re.compile(r'name: "(\w+)"')
SHARE = re.compile(r"^ *([\d,]+) \([ \d.]*%\)  (PROGRAM TOTALS|.*answer::check_tree)", re.MULTILINE)


def all_on():
    """The options by which each check of dtc's warns."""
    words = []
    for part in ("nodes", "lists", "links"):
        with open(os.path.join(TABLES, f"{part}.rt"), encoding="utf-8") as file:
            words += [word for name in ROW.findall(file.read()) if name != "always_fail" for word in ("-W", name)]
    return words


def told(program, linux, board, given, options):
    """What a program's checks tell of a board, each line by its check and its path."""
    words = [program, "-O", "dtb", "-o", os.devnull, "-i", os.path.dirname(board), *options, given]
    done = subprocess.run(words, cwd=linux, capture_output=True, check=False)
    return collections.Counter(TOLD.findall(done.stderr.decode(errors="replace")))


def made_blob(linux, board, text, out):
    words = ["dtc", "-q", "-q", "-I", "dts", "-O", "dtb", "-i", os.path.dirname(board), "-o", out, text]
    return subprocess.run(words, cwd=linux, capture_output=True, check=False).returncode == 0


def compare(given, folder):
    """Compares the boards one by one, and answers how many lines only one of the two told."""
    text, out = os.path.join(folder, "board.dts"), os.path.join(folder, "board.dtb")
    options = [*(all_on() if given.all else []), "-I", "dtb" if given.blobs else "dts"]
    both, apart = 0, 0
    for board in list(boards(given.linux))[:: given.every]:
        if not preprocess(given.linux, board, text) or (given.blobs and not made_blob(given.linux, board, text, out)):
            continue
        theirs, ours = (told(program, given.linux, board, out if given.blobs else text, options) for program in ("dtc", OURS))
        both += sum((theirs & ours).values())
        for who, lines in (("dtc", theirs - ours), ("dtman", ours - theirs)):
            apart += sum(lines.values())
            for check, path in sorted(lines.elements()):
                print(f"{who} alone: {board}: {check}: {path}")
    print(f"{both} lines by both, {apart} by one alone")
    return apart


def cost(given, folder):
    """Prints the share of the checks in the instructions of a run, of the largest boards."""
    sizes = []
    for board in boards(given.linux):
        text = os.path.join(folder, board.replace(os.sep, "_"))
        if preprocess(given.linux, board, text):
            sizes.append((os.path.getsize(text), board, text))
    counts = os.path.join(folder, "counts")
    for _, board, text in sorted(sizes, reverse=True)[: given.cost]:
        run = ["valgrind", "--tool=callgrind", f"--callgrind-out-file={counts}", OURS, "-O", "dtb", "-o", os.devnull, text]
        subprocess.run(run, cwd=given.linux, capture_output=True, check=False)
        page = subprocess.run(["callgrind_annotate", "--inclusive=yes", counts], capture_output=True, text=True, check=True).stdout
        whole, *checks = (int(count.replace(",", "")) for count, _ in SHARE.findall(page))
        print(f"{100 * max(checks, default=0) / whole:.1f} in 100 of {whole:,}: {board}")


def main():
    reader = argparse.ArgumentParser()
    reader.add_argument("linux")
    reader.add_argument("--all", action="store_true")
    reader.add_argument("--blobs", action="store_true")
    reader.add_argument("--every", type=int, default=1)
    reader.add_argument("--cost", type=int, default=0)
    given = reader.parse_args()
    with tempfile.TemporaryDirectory() as folder:
        if given.cost:
            return cost(given, folder)
        return 1 if compare(given, folder) else 0


if __name__ == "__main__":
    sys.exit(main())
