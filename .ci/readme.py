#!/usr/bin/env python3
"""Runs each command that README and docs/commands.md show with its output, and tells where the program says something else, or README too much.

`readme.py PROGRAM` runs PROGRAM in place of bin/dtman, as bin/dtman-unproved before anything is proved.
"""
import re
import subprocess
import sys

PAGES = ("README.md", "docs/commands.md")
PROGRAM = "bin/dtman"
# What a front page may take.
MOST_WORDS = 1600


def main():
    program = sys.argv[1] if len(sys.argv) > 1 else PROGRAM
    faults = 0
    for page in PAGES:
        with open(page, encoding="utf-8") as file:
            text = file.read()
        blocks = re.findall(r"^```\n\$ (.*?)\n(.*?)^```$", text, re.DOTALL | re.MULTILINE)
        differing = 0
        for command, shown in blocks:
            words = ["bash", "-c", command.replace(PROGRAM, program)]
            done = subprocess.run(words, stdout=subprocess.PIPE, stderr=subprocess.STDOUT, text=True, check=False)
            if done.stdout != shown:
                differing += 1
                print(f"{page} shows another output of: {command}\n{done.stdout}", file=sys.stderr)
        print(f"{page}: {len(blocks)} commands, {differing} with another output")
        faults += differing + (not blocks)
        if page == "README.md" and len(text.split()) > MOST_WORDS:
            faults += 1
            print(f"README has {len(text.split())} words, and {MOST_WORDS} are the most", file=sys.stderr)
    return 1 if faults else 0


if __name__ == "__main__":
    sys.exit(main())
