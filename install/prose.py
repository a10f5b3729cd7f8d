"""What pages.txt has, of which the man pages are made beside what --help prints."""
import os
import re
import textwrap
from dataclasses import dataclass


@dataclass(frozen=True)
class Text:
    """A section: paragraphs, items of a list, examples each with what it shows, and by which numbers a command refuses."""

    about: str
    paragraphs: list
    items: list
    examples: list
    refusals: list


def text_of(about, body):
    examples = re.findall(r"^(.+)\n((?:\t.+\n)+)", body, re.MULTILINE)
    lines = re.sub(r"^.+\n(?:\t.+\n)+", "", body, flags=re.MULTILINE).splitlines()
    items = [match.groups() for match in (re.fullmatch("- `(.+?)`: (.+)", line) for line in lines) if match]
    refusals = [line for line in lines if line.startswith("It refuses by")]
    paragraphs = [line for line in lines if line and line not in refusals and not line.startswith("- `")]
    return Text(about, paragraphs, items, [(shown, textwrap.dedent(typed).rstrip()) for shown, typed in examples], refusals)


def read():
    """The sections by their names, for each title of pages.txt."""
    with open(f"{os.path.dirname(os.path.realpath(__file__))}/pages.txt", encoding="utf-8") as file:
        _, *parts = re.split("^# (.+)\n", file.read(), flags=re.MULTILINE)
    found = {}
    for title, part in zip(parts[::2], parts[1::2]):
        sections = re.findall(r"^## (.+?)(?:: (.+))?\n((?:(?!## ).*\n)*)", part, re.MULTILINE)
        found[title] = {name: text_of(about, body) for name, about, body in sections}
    return found
