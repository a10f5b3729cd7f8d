#!/usr/bin/env python3
"""Holds each block of code in a CALLING.md against the file that it is said to come from, so that every caller there is a proved one.

With the word `--write` the blocks are taken from the crates anew, wherever in its crate the function or impl stands now.
"""
import glob
import re
import sys

BLOCK = re.compile(r"^From `(crates/(\w+)/[^`]+)`:\n\n```rust\n(.*?)^```$", re.DOTALL | re.MULTILINE)
# A function, trait or impl, up to its name.
HEAD = re.compile(r"^( *(?:pub(?:\(crate\))? )?(?:fn \w+|trait \w+|impl \w+ for \w+))\b", re.MULTILINE)


def text_of(path):
    with open(path, encoding="utf-8") as file:
        return file.read()


def item(text, head, has_body):
    """What stands in a file behind this head, with the comments above it, or nothing."""
    indent = head[: len(head) - len(head.lstrip())]
    found = re.search(rf"^(?:{indent}(?:///|#\[).*\n)*{re.escape(head)}\b", text, re.MULTILINE)
    if not found:
        return None
    end = re.compile(rf"^{indent}\}}\n" if has_body else rf"^{indent}\{{\n|(?<= )\{{\n", re.MULTILINE).search(text, found.end())
    return text[found.start() : end.end() if has_body else end.start()]


def renewed(page):
    """The page with each block as the crates have it now."""

    def of(block):
        path, crate, code = block.groups()
        head = HEAD.search(code)[1]
        indent = head[: len(head) - len(head.lstrip())]
        has_body = code.endswith(f"\n{indent}}}\n")
        for place in [path, *sorted(glob.glob(f"crates/{crate}/src/**/*.rt", recursive=True))]:
            try:
                now = item(text_of(place), head, has_body)
            except FileNotFoundError:
                continue
            if now:
                return f"From `{place}`:\n\n```rust\n{now}```"
        return block[0]

    return BLOCK.sub(of, text_of(page))


def main():
    faults = blocks = 0
    pages = sorted(glob.glob("crates/*/CALLING.md"))
    for page in pages:
        text = text_of(page)
        if "--write" in sys.argv[1:]:
            text = renewed(page)
            with open(page, "w", encoding="utf-8") as file:
                file.write(text)
        told = BLOCK.findall(text)
        blocks += len(told)
        if len(told) != text.count("```rust\n") or not told:
            faults += 1
            print(f"{page}: a block of code doesn't say where it comes from", file=sys.stderr)
        for path, _, code in told:
            if not glob.glob(path) or code not in text_of(path):
                faults += 1
                print(f"{page}: {path} has no such code; python3 .ci/callers.py --write takes it anew:\n{code}", file=sys.stderr)
    print(f"callers: {blocks} blocks of code in {len(pages)} pages, {faults} that stand nowhere else")
    return 1 if faults or not pages else 0


if __name__ == "__main__":
    sys.exit(main())
