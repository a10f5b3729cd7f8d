#!/usr/bin/env python3
"""Runs the gate, and prints its processor minutes as the table of docs/gate.md: a crate's proofs, tests and edits, and the edits' number.

    RT_JOBS=4 python3 bench/gate/minutes.py .ci/lanes.py rt ci

With no words it runs `rt ci`; over `.ci/build` it tells what the program alone takes. It looks at the processes below the
gate once a second, so what begins and ends between two looks is missed.
"""
import glob
import os
import re
import subprocess
import sys
import time

TICKS = os.sysconf("SC_CLK_TCK")
KINDS = ("proofs", "tests", "edits")


def text_of(path):
    """What a file below /proc holds, or nothing once its process has ended."""
    try:
        with open(path, "rb") as file:
            return file.read()
    except OSError:
        return b""


def processes():
    """Each process that there is: its number, its parent's, its start, and the processor seconds that it took itself."""
    for name in os.listdir("/proc"):
        if not name.isdigit():
            continue
        fields = text_of(f"/proc/{name}/stat").rpartition(b")")[2].split()
        if len(fields) > 19:
            yield int(name), int(fields[1]), int(fields[19]), (int(fields[11]) + int(fields[12])) / TICKS


def crate_of(number):
    """The crate and the kind of work of a process, by its words and its folder."""
    words = text_of(f"/proc/{number}/cmdline").decode(errors="replace").split("\0")
    if "--crate-name" not in words:
        return None
    crate = words[words.index("--crate-name") + 1]
    try:
        folder = os.readlink(f"/proc/{number}/cwd")
    except OSError:
        return None
    if os.path.basename(os.path.dirname(folder)) != "crates":
        return crate, "edits"
    return crate, "tests" if "--test" in words else "proofs"


def watched(gate):
    """The processor minutes of all that a gate starts until it ends, by crate and kind of work; under None those of no crate."""
    below, spent = {gate.pid}, {}
    while gate.poll() is None:
        for number, parent, start, seconds in processes():
            if number in below or parent in below:
                below.add(number)
                row = spent.setdefault((number, start), [None, 0.0])
                row[0] = row[0] or crate_of(number)
                row[1] = max(row[1], seconds)
        time.sleep(1)
    minutes = {}
    for what, seconds in spent.values():
        minutes[what] = minutes.get(what, 0.0) + seconds / 60
    return minutes


def crates():
    """The crates in the order of crates.txt."""
    with open("crates.txt", encoding="utf-8") as file:
        return re.findall(r"^(\w+)\b[^:\n]*:", file.read(), re.MULTILINE)


def table(minutes):
    """The table's lines: a row a crate, and one for all."""
    yield "| Crate | Proofs | Tests | Edits | Their number |"
    yield "|---|---|---|---|---|"
    whole = 0
    for crate in crates():
        number = len(glob.glob(f"crates/{crate}/must-fail/*.edit"))
        whole += number
        cells = [f"{minutes[crate, kind]:.1f}" if (crate, kind) in minutes else "" for kind in KINDS]
        yield f"| `{crate}` | {' | '.join(cells)} | {number or ''} |"
    sums = [sum(it for what, it in minutes.items() if what and what[1] == kind) for kind in KINDS]
    yield f"| all | {' | '.join(f'{it:.0f}' for it in sums)} | {whole} |"


def main():
    begin = time.monotonic()
    gate = subprocess.Popen(sys.argv[1:] or ["rt", "ci"])
    minutes = watched(gate)
    print("", *table(minutes), sep="\n")
    print(f"\nprocessor minutes: {sum(minutes.values()):.0f}, of which {minutes.get(None, 0):.0f} are of no crate")
    print(f"minutes by the clock: {(time.monotonic() - begin) / 60:.0f}")
    return gate.returncode


if __name__ == "__main__":
    sys.exit(main())
