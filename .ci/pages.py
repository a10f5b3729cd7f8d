#!/usr/bin/env python3
"""Holds the man pages in a folder, as mandoc shows them, against what `bin/dtman --help` prints: `pages.py FOLDER`.

Each line that help lists stands in the page of its command, and the forms of lines in dtman-plan(5) are those that help tells.
"""
import os
import re
import subprocess
import sys

ROOT = os.path.dirname(os.path.dirname(os.path.realpath(__file__)))
sys.path.insert(0, f"{ROOT}/install")
import prose  # noqa: E402


def output(*words):
    return subprocess.run(words, capture_output=True, text=True, check=True).stdout


def plain(text):
    """The words of a text, without the signs that help and pages put around what is left out, named or typed."""
    return " ".join(re.sub(r"\(1\)|[`<>\[\]()‘’']|\.\.\.", "", text).split())


def listed(*words):
    """The lines that a page of help lists."""
    return re.findall(r"^  +([-<\[\w].*)", output(f"{ROOT}/bin/dtman", *words, "--help"), re.MULTILINE)


def shown(page):
    return plain(re.sub(".\b", "", output("mandoc", "-T", "utf8", "-O", "width=1000", f"{sys.argv[1]}/{page}")))


def main():
    told = prose.read()
    lines = [(f"man1/dtman-{name}.1", line) for name in told["Commands"] for line in listed(name)]
    lines += [("man1/dtman.1", line) for line in listed() if not line.startswith("help ")]
    pages = {name: shown(name) for name, _ in lines}
    faults = [f"{name} hasn't: {line}" for name, line in lines if plain(line) not in pages[name]]
    typed = re.findall("`([^`]+)`", " ".join(output(f"{ROOT}/bin/dtman", "--help").split()))
    helped = {it.replace("ok|fail", end) for it in typed for end in ("ok", "fail")}
    faults += [f"--help hasn't: {line}" for title, it in told["Formats"].items() if title != "Reports" for line, _ in it.items if line not in helped]
    print("".join(f"{it}\n" for it in faults), end="", file=sys.stderr)
    print(f"pages: {len(pages)} pages with {len(lines)} lines of --help, {len(faults)} otherwise")
    return 1 if faults else 0


if __name__ == "__main__":
    sys.exit(main())
