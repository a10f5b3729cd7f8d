#!/usr/bin/env python3
"""Writes the man pages and the completions of three shells into a folder: `pages.py PROGRAM FOLDER`.

They have what the program prints by --help (helped.py), and the man pages what pages.txt says beside it (prose.py). The folder gets
man1/, man3/, man5/, bash/, zsh/ and fish/.
"""
import os
import re
import sys
import textwrap

import completions
import helped
import prose as apart

# The day that the pages tell.
DATE = "November 26, 2026"
TOLD = apart.read()
PAGES = TOLD["Pages"]
HEADER = f"{os.path.dirname(os.path.realpath(__file__))}/dtman.h"


# ---- man pages, in mdoc(7)


def plain(text):
    """A line of text: a backslash stands for itself, and a control character at its front doesn't count."""
    text = text.replace("\\", "\\e")
    return f"\\&{text}" if text[:1] in (".", "'") else text


def argument(text):
    """What is typed, as an argument of a macro: a quotation mark within it is named."""
    return '"\\&%s"' % text.replace("\\", "\\e").replace("-", "\\-").replace('"', "\\(dq")


def prose(text):
    """A paragraph: what stands between backticks is literal, NAME(N) is another page, and what begins with - an option."""
    lines = []
    for part in re.split(r"(\(?`[^`]+`[.,;:)]*|\b[a-z-]+\(\d\)[.,;:)]*|(?<!\S)--?[a-z][a-z-]*[.,;:)]*)", text):
        literal = re.fullmatch(r"(\(?)`([^`]+)`([.,;:)]*)", part)
        page = re.fullmatch(r"([a-z-]+)\((\d)\)([.,;:)]*)", part)
        option = re.fullmatch(r"-(-?[a-z][a-z-]*)([.,;:)]*)", part)
        if literal:
            words = [literal[1], argument(literal[2]), *literal[3]]
            lines.append(".Ql " + " ".join(it for it in words if it))
        elif page:
            lines.append(" ".join([".Xr", page[1], page[2], *page[3]]))
        elif option:
            lines.append(" ".join([".Fl", option[1], *option[2]]))
        else:
            # a sentence ends its line
            for sentence in re.split(r"(?<=[.:]) +(?=[A-Z])", part.strip()):
                lines += [plain(it) for it in textwrap.wrap(sentence, 78)]
    return "\n".join(lines)


def listing(entries):
    """A list of what is typed, each with what is said of it."""
    return tagged((f'Li "{typed}"', about) for typed, about in entries)


def display(text):
    return ".Bd -literal -offset indent\n" + plain(text).replace("-", "\\-") + "\n.Ed"


def page(name, section, about, sections):
    head = f".Dd {DATE}\n.Dt {name.upper()} {section}\n.Os\n.Sh NAME\n.Nm {name}\n.Nd {about}"
    return "\n".join([head, *(f".Sh {title}\n{body}" for title, body in sections)]) + "\n"


def small(about):
    return about[0].lower() + about[1:].rstrip(".")


def capital(text):
    return text[0].upper() + text[1:]


def form(command, words):
    """A form of `Usage`, where `[OPTIONS]` stands for each."""
    lines = [f".Nm dtman {command.name}"]
    for left_out, named, typed, more in map(re.Match.groups, words):
        names = re.sub(r"[<>]", "", left_out or named or "").replace("...", " ...") + (" ..." if more else "")
        if typed:
            lines.append(f".Fl {typed[1:]}")
        elif names == "OPTIONS":
            lines += [f".Op Fl {it.words[0][1:]}{f' Ar {it.value}' if it.value else ''}" for it in command.options if "--help" not in it.words]
        elif names == "options":
            lines.append(".Op Ar option ...")
        else:
            lines.append(f".{'Op ' if left_out else ''}Ar {names}")
    return "\n".join(lines)


def paragraphs(texts):
    return "\n.Pp\n".join(prose(it) for it in texts)


def tagged(entries):
    """A list, each entry with what is said of it, whose last full stop may be left out."""
    items = "\n".join(f".It {typed}\n{prose(about.rstrip('.') + '.')}" for typed, about in entries)
    return items and f".Bl -tag -width Ds\n{items}\n.El"


def options_of(options):
    entries = []
    for it in options:
        names = " , ".join(f"Fl {word[1:]}" for word in it.words)
        entries.append((names + (f" Ar {it.value}" if it.value else ""), it.about + (f" (default: {it.default})" if it.default else "")))
    return f"The options are:\n{tagged(entries)}"


def examples_of(text):
    return "\n.Pp\n".join(f"{prose(about)}\n{display(typed)}" for about, typed in text.examples)


def statuses_of(program):
    """The list of statuses in --help, and the paragraph that says how more is told."""
    line, = (it.removeprefix("Statuses: ") for it in program.paragraphs if it.startswith("Statuses: "))
    more, = (it for it in program.paragraphs if "--verbose" in it)
    numbered = re.split(r"(?:^|; )(\d) ", line.rstrip("."))[1:]
    return listing((number, capital(about)) for number, about in zip(numbered[::2], numbered[1::2])) + f"\n.Pp\n{prose(more)}"


def command_page(program, command):
    """The page of a command, or of a tool, whose --help doesn't tell of its operands."""
    text = TOLD["Commands"][command.name]
    links = PAGES["links"].paragraphs if "--links" in completions.words_of(command.options) else []
    operands = tagged((f"Ar {it.name}", it.about) for it in command.operands if it.about)
    described = [paragraphs([*text.paragraphs, *links, *(f"{it}." for it in command.paragraphs)])]
    described += [f"The operands are:\n{operands}"] if operands else []
    described.append(options_of(command.options))
    statuses = [listing(text.items) if text.items else statuses_of(program), *map(prose, text.refusals)]
    sections = [
        ("SYNOPSIS", "\n".join(form(command, it) for it in command.forms)),
        ("DESCRIPTION", "\n.Pp\n".join(described)),
        ("EXIT STATUS", "\n.Pp\n".join(statuses)),
        ("EXAMPLES", examples_of(text)),
        ("SEE ALSO", ".Xr dtman 1" + (" ,\n.Xr dtman-plan 5" if {"DRIVERS", "PLAN"} & {it.name for it in command.operands} else "")),
    ]
    return page(f"dtman-{command.name}", 1, small(command.about), sections)


def program_page(program):
    """The program's page has the paragraphs of --help, but for those that have sections, and for the formats, which have a page."""
    entries = tagged((f"Xr dtman-{it.name} 1", it.about) for it in program.commands)
    limits, = (it.removeprefix("Limits: ") for it in program.paragraphs if it.startswith("Limits: "))
    rest = [it.removeprefix("Files: ") for it in program.paragraphs if not re.match(r"(Statuses|Limits|Formats): ", it) and "--verbose" not in it]
    described = [paragraphs(PAGES["dtman"].paragraphs), f"The commands are:\n{entries}", options_of([*program.options, *helped.ANYWHERE]), paragraphs(rest)]
    pages = sorted(f"dtman-{it.name} 1" for it in program.commands)
    sections = [
        ("SYNOPSIS", ".Nm\n.Ar command\n.Op Ar option ...\n.Op Ar file ...\n.Nm\n.Fl -help | Fl -version"),
        ("DESCRIPTION", "\n.Pp\n".join(described)),
        ("ENVIRONMENT", paragraphs(PAGES["environment"].paragraphs)),
        ("EXIT STATUS", statuses_of(program)),
        ("SEE ALSO", " ,\n".join([*(f".Xr {it}" for it in pages), ".Xr dtman-plan 5"])),
        ("STANDARDS", paragraphs(PAGES["standards"].paragraphs)),
        ("CAVEATS", prose(capital(limits))),
    ]
    return page("dtman", 1, small(program.about), sections)


def plan_page():
    described = [paragraphs(PAGES["dtman-plan"].paragraphs)]
    for title, it in TOLD["Formats"].items():
        described.append(f".Ss {title}\n{paragraphs(it.paragraphs)}\n{listing(it.items)}\n.Pp\n{examples_of(it)}")
    described.append(f".Ss Words\n{paragraphs(PAGES['words'].paragraphs)}")
    sections = [
        ("DESCRIPTION", "\n".join(described)),
        ("SEE ALSO", ".Xr dtman-plan 1 ,\n.Xr dtman-probe 1 ,\n.Xr dtman-replay 1"),
    ]
    return page("dtman-plan", 5, "plans, drivers, schedules and reports of a bus", sections)


def unwrapped(comment):
    """The paragraphs of a comment in C."""
    text = "\n".join(line.strip().removeprefix("*").removeprefix(" ") for line in comment.strip().splitlines())
    return [" ".join(it.split()) for it in re.split(r"\n\n+", text.strip())]


def library_page():
    """What install/dtman.h says, as a page."""
    with open(HEADER, encoding="utf-8") as file:
        header = file.read()
    about, *told_first = unwrapped(re.match(r"/\*(.*?)\*/", header, re.DOTALL)[1])
    calls = re.findall(r"/\*((?:(?!\*/).)*)\*/\n(struct \w+) (\w+)\((.*?)\);", header, re.DOTALL)
    answers = re.search(r"^/\* How a call ended\..*?^};\n\nstruct.*?^};", header, re.DOTALL | re.MULTILINE)[0]
    board, seats = re.search(r"/\*((?:(?!\*/).)*)\*/\n(struct dtman_seat \{.*?^struct dtman_told \{.*?^};)", header, re.DOTALL | re.MULTILINE).groups()
    dtc = re.search(r"^struct dtman_file \{.*?^struct dtman_dtc \{.*?^};", header, re.DOTALL | re.MULTILINE)[0]
    synopsis = [".In dtman.h"]
    for _, answer, name, parameters in calls:
        given = " ".join(f'"{" ".join(it.split())}"' for it in parameters.split(","))
        synopsis.append(f'.Ft "{answer}"\n.Fn {name} {given}')
    body = [prose(about.partition(": ")[2].capitalize()), f".Ss Calls\n.Bl -tag -width Ds"]
    body += [f".It Fn {name}\n{paragraphs(unwrapped(comment))}" for comment, _, name, _ in calls]
    body.append(".El\n.Ss Answers\n" + display(answers.replace("\t", "    ")))
    body.append(".Ss Sources in dtc's language\n" + display(dtc.replace("\t", "    ")))
    body.append(f".Ss The board\n{paragraphs(unwrapped(board.replace('The board: t', 'T')))}\n" + display(seats.replace("\t", "    ")))
    for paragraph in told_first:
        title, _, text = paragraph.partition(". ")
        body.append(f".Ss {title}\n{prose(text)}")
    sections = [
        ("SYNOPSIS", "\n".join(synopsis)),
        ("DESCRIPTION", "\n".join(body)),
        ("SEE ALSO", ".Xr dtman 1 ,\n.Xr dtman-plan 5"),
    ]
    return page("libdtman", 3, "devicetree sources, overlays, blobs and plans over the caller's bytes", sections)


def made(program):
    """The name of each file, and what is in it."""
    files = {f"man1/dtman-{it.name}.1": command_page(program, it) for it in program.commands}
    files.update({"man1/dtman.1": program_page(program), "man3/libdtman.3": library_page(), "man5/dtman-plan.5": plan_page()})
    files.update({"bash/dtman": completions.bash(program), "zsh/_dtman": completions.zsh(program), "fish/dtman.fish": completions.fish(program)})
    return files


def main():
    if len(sys.argv) != 3:
        print("usage: pages.py PROGRAM FOLDER", file=sys.stderr)
        return 2
    for name, text in made(helped.program_of(sys.argv[1], {name: it.about for name, it in TOLD["Commands"].items()})).items():
        path = f"{sys.argv[2]}/{name}"
        os.makedirs(os.path.dirname(path), exist_ok=True)
        with open(path, "w", encoding="utf-8") as file:
            file.write(text)
    return 0


if __name__ == "__main__":
    sys.exit(main())
