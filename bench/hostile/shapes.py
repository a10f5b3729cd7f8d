#!/usr/bin/env python3
"""Runs each command on inputs that could take it long or take it much memory, and prints a row of a table for each: `shapes.py [WORD..]`.

A row has the command, the shape, the size of its inputs, seconds of the processor, the most memory that it held, and how many times its
inputs that is; with words only the shapes whose names have one of them are run. It fails where a command ends by a signal, takes more
than a minute of the processor, or more than 40 times its inputs and 16 MB.
"""
import itertools
import multiprocessing
import os
import resource
import subprocess
import sys
import tempfile

sys.path.insert(0, os.path.join(os.path.dirname(os.path.abspath(__file__)), "..", "dump"))
from flattened import Blob, cells, strings  # noqa: E402

PROGRAM = os.path.abspath("bin/dtman")
SOURCE, BLOB = 2**24, 2**28
MINUTE, TIMES, ALWAYS = 60, 40, 16
GIVEN_UP = 150

HEAD = "/dts-v1/; "
RISING = "1 || 1 && 1 | 1 ^ 1 & 1 == 1 < 1 << 1 + 1 * "
BODY = b"/fragment@0/__overlay__"


# ---- texts


def filled(size, head, units, tail=""):
    """As many units between head and tail as fit, none of them longer than the first by more than a tenth."""
    parts, length = [head], len(head) + len(tail)
    for unit in units:
        length += len(unit)
        if length > size:
            break
        parts.append(unit)
    return "".join([*parts, tail])


def repeated(size, head, unit, tail=""):
    return head + unit * ((size - len(head) - len(tail)) // len(unit)) + tail


def lines(size, units, tail=""):
    return filled(size, "", units, tail)


def chains():
    """Chains of nodes, each 60 deep."""
    for number in itertools.count():
        yield f"c{number}{{" + "".join(f"d{it}{{" for it in range(58)) + "a;" + "};" * 59


def tailed_names():
    """Names of 255 bytes, of each of which 250 tails are names too."""
    yield from ("x" * length + ";" for length in range(250, 0, -1))
    yield from (f"{number:05}" + "x" * 250 + ";" for number in itertools.count())


def nested_in_cells():
    group = "(" + RISING
    return repeated(SOURCE, HEAD + "/{p=<", group * 63 + "1" + ")" * 63 + " ", ">;};")


# ---- blobs


def rooted():
    blob = Blob()
    blob.begin(b"")
    return blob


def ended(blob, count=1):
    for _ in range(count):
        blob.end()
    return blob.bytes()


def labelled_base(symbols):
    """A base whose symbols are these names, and all lead to one node."""
    blob = rooted()
    blob.begin(b"n")
    blob.property(b"phandle", cells(1))
    blob.end()
    blob.begin(b"__symbols__")
    for name in symbols:
        blob.property(name, b"/n\0")
    return ended(blob, 2)


def fixed_overlay(values, size=4):
    """An overlay of one fragment with a property of this size, and fixups with these values by their names."""
    blob = rooted()
    blob.begin(b"fragment@0")
    blob.property(b"target-path", b"/n\0")
    blob.begin(b"__overlay__")
    blob.property(b"r", bytes(size))
    blob.end()
    blob.end()
    blob.begin(b"__fixups__")
    for name, value in values:
        blob.property(name, value)
    return ended(blob, 2)


def place(number):
    return BODY + b":r:%d\0" % (4 * number)


def names(count):
    return [b"s%d" % number for number in range(count)]


def one_place_again():
    return labelled_base([b"s"]), fixed_overlay([(b"s", place(0) * 1_000_000)])


def one_place_by_many():
    many = names(1_000_000)
    return labelled_base(many), fixed_overlay((name, place(0)) for name in many)


def symbols_of_one_node():
    many = names(1_000_000)
    return labelled_base(many), fixed_overlay(((name, place(number)) for number, name in enumerate(many)), 4 * len(many))


def long_targets():
    """Fragments of one node whose path has 16 KB."""
    way = [b"n" * 255] * 60
    base = rooted()
    for name in way:
        base.begin(name)
    overlay = rooted()
    for number in range(8_000):
        overlay.begin(b"f%d" % number)
        overlay.property(b"target-path", b"".join(b"/" + name for name in way) + b"\0")
        overlay.begin(b"__overlay__")
        overlay.property(b"p%d" % number, b"")
        overlay.end()
        overlay.end()
    return ended(base, 61), ended(overlay)


def one_property_again():
    """A million fragments that each set the same property."""
    overlay = rooted()
    for number in range(1_000_000):
        overlay.begin(b"f%d" % number)
        overlay.property(b"target-path", b"/n\0")
        overlay.begin(b"__overlay__")
        overlay.property(b"p", cells(number))
        overlay.end()
        overlay.end()
    return labelled_base([]), ended(overlay)


def local_places():
    """One property of 64 MB, in which each cell is a local fixup."""
    count = 2**24
    blob = rooted()
    blob.begin(b"fragment@0")
    blob.property(b"target-path", b"/n\0")
    blob.begin(b"__overlay__")
    blob.property(b"r", bytes(4 * count))
    blob.end()
    blob.end()
    for name in (b"__local_fixups__", b"fragment@0", b"__overlay__"):
        blob.begin(name)
    blob.property(b"r", cells(*range(0, 4 * count, 4)))
    return labelled_base([]), ended(blob, 4)


def tailed_blob():
    """100,000 names of 255 bytes that have 250 others as tails, and an overlay of nothing."""
    blob = rooted()
    for length in range(250, 0, -1):
        blob.property(b"x" * length, b"")
    for number in range(100_000):
        blob.property(b"%05d" % number + b"x" * 250, b"")
    return ended(blob)


def no_change():
    overlay = rooted()
    overlay.begin(b"fragment@0")
    overlay.property(b"target-path", b"/\0")
    overlay.begin(b"__overlay__")
    return ended(overlay, 3)


def deep_blob():
    """Stems 64 nodes deep, with a property a node: `dump` writes up to 64 tabs for 12 bytes."""
    blob = rooted()
    for number in range(18_000):
        blob.begin(b"s%d" % number)
        for _ in range(63):
            blob.begin(b"n")
            blob.property(b"a", b"")
        for _ in range(64):
            blob.end()
    return ended(blob)


def small_nodes(count):
    blob = rooted()
    for number in range(count):
        blob.begin(b"%x" % number)
        blob.end()
    return ended(blob)


def all_name_all(count, suppliers):
    """Devices with these suppliers each."""
    blob = rooted()
    for number in range(count):
        blob.begin(b"%x" % number)
        blob.property(b"compatible", b"x\0")
        blob.property(b"phandle", cells(number + 1))
        blob.property(b"pinctrl-0", cells(*(it + 1 for it in suppliers(number))))
        blob.end()
    return ended(blob)


def others(number):
    return (it for it in range(MOST) if it != number)


def later(number):
    return range(number + 1, MOST)


MOST = 4096
X_DRIVER = "driver x x\n"


def planned(suppliers):
    return "".join(f"/{number:x} x ok" + "".join(f" /{it:x}" for it in suppliers(number)) + "\n" for number in range(MOST))


def few_devices(*properties):
    blob = rooted()
    blob.begin(b"d")
    for name, value in properties:
        blob.property(name, value)
    return ended(blob, 2)


PREFIX = "p" * 240


def drivers_of_one_prefix():
    return lines(BLOB, (f"driver d{number} {PREFIX}{number}\n" for number in itertools.count()))


def strings_of_one_prefix():
    return "driver d" + "".join(f" {PREFIX}{number}" for number in range(1_000_000)) + "\n"


def late_drivers(string):
    return lines(2**25, (f"driver d{number} {string(number)}\n" for number in itertools.count()))


def wanting(count, size):
    """A plan of unmatched devices with so many strings each."""
    device = (f"/{number:x} - -\n" for number in range(count))
    wants = (f"compatible /{number:x}" + "".join(f" s{number}-{it}" for it in range(size)) + "\n" for number in range(count))
    return "".join(itertools.chain(device, wants))


def sharing(count):
    """A plan of unmatched devices that all have one string."""
    device = (f"/{number:x} - -\n" for number in range(count))
    wants = (f"compatible /{number:x} s\n" for number in range(count))
    return "".join(itertools.chain(device, wants))


def events(kind):
    return kind * 500_000


# Each shape: its name, the command line, and what makes its inputs in their order.
SHAPES = [
    ("nested expressions, ten operators a parenthesis", "compile 0 OUT", lambda: [nested_in_cells()]),
    ("one sum of 4 million terms", "compile 0 OUT", lambda: [repeated(SOURCE, HEAD + "/{p=<(", "1 + ", "1)>;};")]),
    ("16 million signs before an operand", "compile 0 OUT", lambda: [repeated(SOURCE, HEAD + "/{p=<(", "-", "1)>;};")]),
    ("pairs of `[abab..]`", "compile 0 OUT", lambda: [repeated(SOURCE, HEAD + "/{p=[", "ab", "];};")]),
    ("nodes 60 deep", "compile 0 OUT", lambda: [filled(SOURCE, HEAD + "/{", chains(), "};")]),
    ("one-byte properties of one node", "compile 0 OUT", lambda: [repeated(SOURCE, HEAD + "/{", "a;", "};")]),
    ("symbols that all lead to one node", "compile 0 OUT --symbols", lambda: [filled(SOURCE, HEAD + "/{", (f"l{it}: " for it in itertools.count()), "a{};};")]),
    ("references to one node", "compile 0 OUT", lambda: [repeated(SOURCE, HEAD + "/{p=<", "&a ", ">;a: a{};};")]),
    ("local fixups of one property", "compile 0 OUT", lambda: [repeated(SOURCE, HEAD + "/plugin/;&b{p=<", "&a ", ">;a: a{};};")]),
    ("fixups of one label", "compile 0 OUT", lambda: [repeated(SOURCE, HEAD + "/plugin/;&b{p=<", "&a ", ">;};")]),
    ("names of 255 bytes with 250 tails", "compile 0 OUT", lambda: [filled(SOURCE, HEAD + "/{", tailed_names(), "};")]),
    ("names of 50 bytes that begin with `#`, in one line", "compile 0 OUT --dtc", lambda: [repeated(SOURCE, HEAD + "/{/omit-if-no-ref/ x: x{", "#" + "a" * 49 + ";", "};};")]),
    ("references whose brace doesn't close", "compile 0 OUT --dtc", lambda: [repeated(SOURCE, HEAD + "/{p=<", "&{" + "a" * 48 + " ")]),
    ("a million fixups of one place", "overlay 0 1 OUT", one_place_again),
    ("a million symbols' fixups of one place", "overlay 0 1 OUT", one_place_by_many),
    ("a million symbols that lead to one node", "overlay 0 1 OUT", symbols_of_one_node),
    ("8,000 targets with a path of 15 KB", "overlay 0 1 OUT", long_targets),
    ("a million fragments that set one property", "overlay 0 1 OUT", one_property_again),
    ("16 million local fixups of one property", "overlay 0 1 OUT", local_places),
    ("names of 255 bytes with 250 tails", "overlay 0 1 OUT", lambda: [tailed_blob(), no_change()]),
    ("5 million nodes without properties", "overlay 0 1 OUT", lambda: [small_nodes(5_000_000), no_change()]),
    ("nodes 64 deep with a property each", "dump 0", lambda: [deep_blob()]),
    ("5 million nodes without properties", "dump 0", lambda: [small_nodes(5_000_000)]),
    ("names of 255 bytes with 250 tails", "dump 0", lambda: [tailed_blob()]),
    ("4,096 devices that all name all others", "plan 0 1", lambda: [all_name_all(MOST, others), X_DRIVER]),
    ("the same, as a picture", "plan 0 1 --dot", lambda: [all_name_all(MOST, others), X_DRIVER]),
    ("the same, as a page", "plan 0 1 --html", lambda: [all_name_all(MOST, others), X_DRIVER]),
    ("the same, by the links of Linux", "plan 0 1 --links linux", lambda: [all_name_all(MOST, others), X_DRIVER]),
    ("drivers with strings of one prefix of 240 bytes", "plan 0 1", lambda: [few_devices((b"compatible", strings("x"))), drivers_of_one_prefix()]),
    ("a million strings of one such prefix", "plan 0 1", lambda: [few_devices((b"compatible", strings("x"))), strings_of_one_prefix()]),
    ("`fail` of one device, again and again", "plan 0 1", lambda: [few_devices((b"compatible", strings("x"))), repeated(BLOB, "", "fail /d\n")]),
    ("a plan in which all name all others", "replay 0 1", lambda: [planned(others), ""]),
    ("500,000 begins of one device, abandoned", "replay 0 1", lambda: ["/a x ok\n", events("begin /a\nabandon /a\n")]),
    ("500,000 deferrals where all name all others", "replay 0 1", lambda: [planned(others), events("begin /0\nfinish /0 missing /fff\n")]),
    ("late drivers that match nothing", "replay 0 1", lambda: [wanting(MOST, 10), late_drivers(lambda number: f"t{number}")]),
    ("late drivers that each match a device of 100 strings", "replay 0 1", lambda: [wanting(MOST, 100), late_drivers(lambda number: f"s{number}-99")]),
    ("late drivers of the one string that all devices have", "replay 0 1", lambda: [sharing(MOST), late_drivers(lambda number: "s")]),
    ("4,096 devices that all name all others", "probe 0 1 --workers 64", lambda: [all_name_all(MOST, others), X_DRIVER]),
    ("4,096 devices that all name all behind them", "probe 0 1 --workers 64", lambda: [all_name_all(MOST, later), X_DRIVER]),
    ("the same, by one worker", "probe 0 1 --workers 1", lambda: [all_name_all(MOST, later), X_DRIVER]),
]


def measured(words):
    """How a command ends, its seconds of the processor, and the most KB that it held."""
    with open("printed", "wb") as printed, open("told", "wb") as told:
        process = subprocess.Popen([PROGRAM, *words], stdout=printed, stderr=told, preexec_fn=lambda: resource.setrlimit(resource.RLIMIT_CPU, (GIVEN_UP, GIVEN_UP)))
        _, status, taken = os.wait4(process.pid, 0)
    process.returncode = os.waitstatus_to_exitcode(status)
    return process.returncode, taken.ru_utime + taken.ru_stime, taken.ru_maxrss


def write(make):
    """Writes the inputs of a shape to files that are named by their places."""
    for number, data in enumerate(make()):
        with open(str(number), "wb") as file:
            file.write(data.encode() if isinstance(data, str) else data)


def row(name, line, make):
    """Runs a shape, prints its row, and gives whether it kept within the limits."""
    # A process's memory counts for the one that it starts, so this one makes no inputs itself.
    making = multiprocessing.get_context("fork").Process(target=write, args=(make,))
    making.start()
    making.join()
    size = sum(os.path.getsize(it) for it in line.split() if it in ("0", "1"))
    status, seconds, held = measured(line.split())
    with open("told", encoding="utf-8") as file:
        told = file.read().strip()
    times = held * 1024 / max(size, 1)
    is_kept = status in (0, 1) and seconds <= MINUTE and (times <= TIMES or held <= ALWAYS * 1024)
    answer = told or ("written" if line.endswith("OUT") or "OUT " in line else "printed")
    mark = "" if is_kept else f" ({status}) OVER"
    command = " ".join(it for it in line.split() if it not in ("0", "1", "OUT"))
    print(f"| `{command}` | {name} | {size / 1e6:.1f} | {seconds:.1f} | {held / 1024:.0f} | {times:.1f} | {answer}{mark} |", flush=True)
    return is_kept


def main(wanted):
    chosen = [shape for shape in SHAPES if not wanted or any(it in " ".join(shape[:2]) for it in wanted)]
    with tempfile.TemporaryDirectory(prefix="dtman-hostile-") as room:
        os.chdir(room)
        print("| Command | Shape | MB | s | MB held | Times | Answer |\n|---|---|---|---|---|---|---|")
        return 0 if all([row(*shape) for shape in chosen]) else 1


if __name__ == "__main__":
    sys.exit(main(sys.argv[1:]))
