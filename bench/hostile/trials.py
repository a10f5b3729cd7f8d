"""Runs bin/dtman on many small hostile inputs, several side by side, and prints each answer that isn't as promised."""
import os
import re
import subprocess
import sys
import tempfile
from concurrent.futures import ThreadPoolExecutor
from typing import NamedTuple, Optional

PROGRAM = os.path.abspath("bin/dtman")
SECONDS = 20
LINE = re.compile(rb"error (\d+) \w+( line \d+| event \d+)?\n")


class Answer(NamedTuple):
    """How a command ended, what it printed and told, and the number that it was refused with."""

    status: int
    printed: bytes
    told: bytes
    number: Optional[int]


class Room:
    """A folder in which commands are run, and what wasn't as promised there."""

    def __init__(self, folder, inputs):
        self.folder, self.faults = folder, []
        for name, data in inputs.items():
            self.put(name, data)

    def put(self, name, data):
        with open(f"{self.folder}/{name}", "wb") as file:
            file.write(data)

    def contents(self, name):
        """What a file holds, or nothing where there is none."""
        path = f"{self.folder}/{name}"
        if not os.path.exists(path):
            return b""
        with open(path, "rb") as file:
            return file.read()

    def run(self, line, *out):
        """Runs a command line; the files that it is to write are removed before."""
        for name in out:
            if os.path.exists(f"{self.folder}/{name}"):
                os.remove(f"{self.folder}/{name}")
        try:
            ran = subprocess.run([PROGRAM, *line.split()], cwd=self.folder, capture_output=True, timeout=SECONDS, check=False)
        except subprocess.TimeoutExpired:
            return Answer(-1000, b"", b"it didn't end", None)
        told = LINE.fullmatch(ran.stderr)
        return Answer(ran.returncode, ran.stdout, ran.stderr, int(told[1]) if told else None)

    def refused(self, answer, numbers, *out):
        """Whether a command was refused. Then it has to be by one of these numbers, and nothing may be printed or written."""
        if answer.status == 0:
            return False
        if answer.status != 1 or answer.number not in numbers or answer.printed or any(self.contents(it) for it in out):
            self.fault(answer)
        return True

    def fault(self, answer):
        self.faults.append(f"status {answer.status}, printed {answer.printed[:60]}, told {answer.told[:120]}")


def tried(inputs, trials):
    """Does each trial, a name and a task for a room that holds the inputs, and gives how many there were, printing the faults of each."""
    rooms, count, wrong = [], 0, 0
    with tempfile.TemporaryDirectory(prefix="dtman-hostile-") as folder:
        for number in range(len(os.sched_getaffinity(0))):
            os.mkdir(f"{folder}/{number}")
            rooms.append(Room(f"{folder}/{number}", inputs))

        def one(trial):
            name, task = trial
            room = rooms.pop()
            task(room)
            faults = [f"{name}: {it}" for it in room.faults]
            room.faults.clear()
            rooms.append(room)
            return faults

        with ThreadPoolExecutor(len(rooms)) as pool:
            for faults in pool.map(one, trials):
                count += 1
                wrong += len(faults)
                print("".join(f"{it}\n" for it in faults), end="", file=sys.stderr)
    return count, wrong


def compiled(text, *options):
    """The blob of a source."""
    with tempfile.TemporaryDirectory() as folder:
        with open(f"{folder}/source", "w", encoding="ascii") as file:
            file.write(text)
        subprocess.run([PROGRAM, "compile", "source", "blob", *options], cwd=folder, check=True)
        with open(f"{folder}/blob", "rb") as file:
            return file.read()
