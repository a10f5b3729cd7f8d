"""What the program says of itself by `--help`: its commands, their operands and options, and the paragraphs behind them.

A line that isn't of a known form stops the reading, so that nothing which --help lists is left out in silence.
"""
import re
import subprocess
from dataclasses import dataclass

# `-i, --include <DIR>  What it does [default: ..]`; `...` behind the names of one that is counted.
OPTION = re.compile(r" +((?:-\S, )?--[\w-]+)(\.\.\.)?(?: <([^>]+)>)? +(\S.*?)(?: \[default: (.*)\])?")
# An operand, or a command of the program.
ENTRY = re.compile(r" +[<\[]?(\w+)[>\]]?(?:\.\.\.)? +(\S.*)")
# A word of a form behind `Usage`: what may be left out, what is named, what is typed as it is.
WORD = re.compile(r"(?:\[([^\]]+)\]|<([^>]+)>|(-\w))(\.\.\.)?(?: |$)")


@dataclass(frozen=True)
class Operand:
    name: str
    optional: bool
    repeated: bool
    about: str


@dataclass(frozen=True)
class Option:
    """The names of an option, as `-q, --quiet`, and the name of its value where it has one."""

    names: str
    about: str
    counted: bool = False
    value: str = ""
    default: str = ""

    @property
    def words(self):
        return self.names.split(", ")


# Before or behind any command. --help tells of them in a paragraph, and lists them in no page but `--json` in that of `check`.
ANYWHERE = (
    Option("-v, --verbose", "Tells of a refusal where it is and of what, in further lines"),
    Option("--json", "Tells of a refusal as an object of JSON in one line"),
)


@dataclass(frozen=True)
class Command:
    """`forms` are those of `Usage`, each with the matches of WORD in it."""

    name: str
    about: str
    forms: list
    operands: list
    options: list
    paragraphs: list
    is_tool: bool


@dataclass(frozen=True)
class Program:
    """The commands, the tools of dtc's package behind the others, and the errors, each with its number and name."""

    about: str
    commands: list
    options: list
    paragraphs: list
    errors: list


def lines_of(form, lines):
    for line in lines:
        if not form.fullmatch(line):
            raise ValueError(f"--help has a line of no known form: {line}")
    return [form.fullmatch(line).groups() for line in lines]


def said(program, *words):
    return subprocess.run([program, *words], capture_output=True, text=True, check=True).stdout


def blocks_of(program, words):
    """A page of help: what it says before `Usage`, the lines below each title, and its paragraphs."""
    before, titled, paragraphs = "", {}, []
    for block in said(program, *words, "--help").strip("\n").split("\n\n"):
        title, _, rest = block.partition(":")
        text = " ".join(block.split())
        if title in ("Usage", "Commands", "Arguments", "Options"):
            titled[title] = rest.splitlines()
        elif titled:
            paragraphs.append(text)
        else:
            before = text
    return before, titled, paragraphs


def form_of(name, line):
    """The words of a form behind the command's name."""
    words = re.split(rf"(?:^|\s){name}\s", line, maxsplit=1)[-1]
    if WORD.sub("", words):
        raise ValueError(f"--help has a usage of no known form: {line}")
    return list(WORD.finditer(words))


def operands_of(form, told):
    found = []
    for left_out, named, _, more in map(re.Match.groups, form):
        name = re.sub(r"[<>]|\.\.\.", "", left_out or named or "")
        if name and name.lower() != "options":
            found.append(Operand(name, bool(left_out), bool(more) or "..." in (left_out or ""), told.get(name, "")))
    return found


def options_of(lines):
    return [Option(names, about, bool(counted), value or "", default or "") for names, counted, value, about, default in lines_of(OPTION, lines[1:])]


def command_of(program, name, else_about, is_tool):
    """A command by its page of help. Where nothing stands before `Usage`, this may begin with what the command does."""
    about, titled, paragraphs = blocks_of(program, [name])
    usage = [line.strip() for line in titled["Usage"]]
    if len(usage) > 1:
        about = usage.pop(0).capitalize()
    forms = [form_of(name, line) for line in usage]
    told = dict(lines_of(ENTRY, titled.get("Arguments", [""])[1:]))
    return Command(name, about or else_about, forms, operands_of(forms[0], told), options_of(titled["Options"]), paragraphs, is_tool)


def program_of(program, abouts):
    """The program by its help. What `abouts` names and --help doesn't list is a tool, with what it does where its own help has nothing of it."""
    about, titled, paragraphs = blocks_of(program, [])
    listed = [name for name, _ in lines_of(ENTRY, titled["Commands"][1:]) if name != "help"]
    names = [*listed, *(name for name in abouts if name not in listed)]
    commands = [command_of(program, name, abouts.get(name, ""), name not in listed) for name in names]
    errors = [tuple(line.partition(":")[0].split()) for line in said(program, "explain").splitlines()]
    return Program(about, commands, options_of(titled["Options"]), paragraphs, errors)
