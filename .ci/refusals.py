#!/usr/bin/env python3
"""Runs each command while calls of the system fail under it, and prints a line a part, or each answer that isn't as promised.

The one argument is what .ci/refusals.c is compiled to. An answer is the exit status, what came on standard output and on standard
error, and what OUT holds.
"""
import errno
import itertools
import os
import struct
import subprocess
import sys
import tempfile
from concurrent.futures import ThreadPoolExecutor
from typing import NamedTuple, Optional

PROGRAM = os.path.abspath("bin/dtman")
SHIM = os.path.abspath(sys.argv[1])
EXAMPLES = os.path.abspath("examples")
TALLY = struct.Struct("@ll240s")
ENDLESS = 2**62
SHORT, GROWN = 0, -1
OLD = b"what stood there before\n"

BASE = b"/dts-v1/; / { ocp: ocp { }; };"
OVERLAY = b"/dts-v1/; /plugin/; &ocp { d { r = <&e>; }; e: e { }; };"
DTC_SOURCE = b'/dts-v1/; / { b = <\'B\'>; c = /incbin/("drivers", 1, 6); /omit-if-no-ref/ a: a { }; };'
CLOCK = b'/dts-v1/; / { clk: clk { compatible = "fixed-clock"; #clock-cells = <0>; }; uart { compatible = "ns16550a"; clocks = <&clk>; }; };'
BOARD = b'/dts-v1/; /memreserve/ 0x1000 0x1000; / { uart@10000 { reg = <0 0x10000 0x1000>; }; };'
DRIVERS = b"driver fixed fixed-clock\ndriver ns ns16550a\n"
SCHEDULE = b"begin /uart\nbegin /clk\nfinish /clk settled\nfinish /uart missing /clk\n"


class Answer(NamedTuple):
    status: int
    printed: bytes
    told: bytes
    out: Optional[bytes]


class Met(NamedTuple):
    """What a run met of the calls that were to fail."""

    failed: int
    path: str


faults = []


def report(what, answer):
    faults.append(f"{what}: status {answer.status}, printed {answer.printed[:80]}, told {answer.told[:200]}, OUT {answer.out and answer.out[:40]}")


def contents_of(path):
    with open(path, "rb") as file:
        return file.read()


class Case:
    """A command with its inputs, in a folder of its own."""

    def __init__(self, line, folder, inputs):
        self.line, self.folder = line, folder
        self.has_out = "OUT" in line.split()
        os.makedirs(folder)
        for name, data in inputs.items():
            with open(f"{folder}/{name}", "wb") as file:
                file.write(data)
        self.inputs = set(inputs)
        self.ample, _ = self.run()

    def put(self, name, data):
        with open(f"{self.folder}/{name}", "wb") as file:
            file.write(data)

    def out(self):
        return contents_of(f"{self.folder}/OUT") if os.path.lexists(f"{self.folder}/OUT") else None

    def run(self, rule="", old=None):
        """Runs the command under a rule, with OUT holding the old bytes, or missing."""
        if old is not None:
            self.put("OUT", old)
        elif self.has_out and os.path.lexists(f"{self.folder}/OUT"):
            os.remove(f"{self.folder}/OUT")
        self.put("tally", bytes(TALLY.size))
        given = {"LD_PRELOAD": SHIM, "REFUSE": rule, "REFUSE_TALLY": f"{self.folder}/tally"} if rule else {}
        try:
            ran = subprocess.run([PROGRAM, *self.line.split()], env=given, cwd=self.folder, stdin=subprocess.DEVNULL, capture_output=True, timeout=30)
            answer = Answer(ran.returncode, ran.stdout, ran.stderr, self.out())
        except subprocess.TimeoutExpired:
            answer = Answer(-1000, b"", b"it didn't end in 30 seconds", self.out())
        _, failed, path = TALLY.unpack(contents_of(f"{self.folder}/tally"))
        for name in set(os.listdir(self.folder)) - self.inputs - {"OUT", "tally"}:
            faults.append(f"{self.line} ({rule}): left {name} beside OUT")
            os.remove(f"{self.folder}/{name}")
        return answer, Met(failed, path.split(b"\0")[0].decode())

    def ample_over(self, old):
        """The answer where no call fails, OUT holding the old bytes before."""
        return self.ample if self.ample.out is not None else self.ample._replace(out=old)

    def sweep(self, kind, how, judge, endless=False, old=None):
        """Lets the Nth call of a kind fail, for N from 1 until no call does, alone or with all behind it, and gives the number of runs.

        It is more than 1 where the command makes such calls, and the shim meets them.
        """
        old = old if self.has_out else None
        for number in itertools.count(1):
            rule = f"{kind} {number} {ENDLESS if endless else number} {how}"
            answer, met = self.run(rule, old)
            if not (answer == self.ample_over(old) if met.failed == 0 else judge(self, answer, met, old)):
                report(f"{self.line} ({rule}, at {met.path or 'a request'})", answer)
            if met.failed == 0:
                return number
        return 0


def is_ample(case, answer, _met, old):
    return answer == case.ample_over(old)


def is_ample_or_no_memory(case, answer, _met, old):
    return answer in (case.ample_over(old), (1, b"", b"error 0 NoMemory\n", old))


def is_cannot_read(_case, answer, met, old):
    return answer == (3, b"", f"error 80 CannotRead {met.path}\n".encode(), old)


def is_cannot_write(case, answer, met, old):
    """What was printed is a beginning, and OUT is as before. A fault on standard error changes no status."""
    ample = case.ample_over(old)
    if met.path == "stderr":
        return answer[::3] == ample[::3] and answer.printed == ample.printed and ample.told.startswith(answer.told)
    told = f"error 81 CannotWrite {'stdout' if met.path == 'stdout' else 'OUT'}\n".encode()
    # Where more than one write failed, standard error may be among them.
    is_told = told.startswith(answer.told) if met.failed > 1 else answer.told == told
    return answer.status == 3 and is_told and ample.printed.startswith(answer.printed) and answer.out == old


def is_ample_or_cannot_write(case, answer, met, old):
    return is_ample(case, answer, met, old) or is_cannot_write(case, answer, met, old)


def is_cannot_open(case, answer, met, old):
    """Where no new file can be made beside OUT, it is written where it is."""
    return (is_cannot_read if met.path in case.inputs else is_ample_or_cannot_write)(case, answer, met, old)


def side_by_side(task, cases):
    """Does a task for each case, as many at once as there are processors, and gives the sum of their runs."""
    with ThreadPoolExecutor(len(os.sched_getaffinity(0))) as pool:
        return sum(pool.map(task, cases))


def blob_of(source, *options):
    with tempfile.TemporaryDirectory() as folder:
        with open(f"{folder}/source", "wb") as file:
            file.write(source)
        subprocess.run([PROGRAM, "compile", "source", "blob", *options], cwd=folder, check=True)
        return contents_of(f"{folder}/blob")


def inputs_of(room, filling):
    """The inputs of all commands, each longer by as many bytes that say nothing."""
    more = b" " * filling
    value = b"/ { filled = [" + b"00" * filling + b"]; };" if filling else b""
    comment = b"#" + more + b"\n" if filling else b""
    clock = blob_of(CLOCK + value)
    made = {"base.dts": more + BASE, "overlay.dts": more + OVERLAY, "wrong.dts": more + b"/dts-v1/; / {",
            "dtc.dts": more + DTC_SOURCE, "drivers": comment + DRIVERS,
            "base.dtb": blob_of(BASE + value, "--symbols"), "overlay.dtb": blob_of(OVERLAY + value), "clock.dtb": clock, "board.dtb": blob_of(BOARD + value), "schedule": comment + SCHEDULE}
    for name, data in made.items():
        with open(f"{room}/{name}", "wb") as file:
            file.write(data)
    made["plan"] = comment + subprocess.run([PROGRAM, "plan", "clock.dtb", "drivers"], cwd=room, check=True, capture_output=True).stdout
    return made


# The status where no call fails, and the command line.
LINES = """
0 compile base.dts OUT
0 compile base.dts OUT --symbols
0 compile overlay.dts OUT
0 compile overlay.dts OUT --symbols
0 compile dtc.dts OUT --dtc
0 overlay base.dtb overlay.dtb OUT
0 dump clock.dtb
0 dump base.dtb --labels
0 plan clock.dtb drivers
0 plan clock.dtb drivers --dot
0 plan clock.dtb drivers --html --of /clk --links linux
0 replay plan schedule
0 probe clock.dtb drivers --workers 2
0 find clock.dtb clocks
0 who clock.dtb /clk
0 map board.dtb
0 fmt base.dts
0 fmt base.dts --out OUT --hex
0 explain 63
0 --help
0 --version
1 compile wrong.dts OUT
1 fmt wrong.dts
1 overlay base.dtb clock.dtb OUT
1 plan wrong.dts drivers
1 replay plan drivers
2 explain 300
2 compile base.dts OUT --nix
""".strip().splitlines()


def cases_of(room, filling):
    os.makedirs(room)
    made = inputs_of(room, filling)
    cases = []
    for number, (status, line) in enumerate(it.split(" ", 1) for it in LINES):
        cases.append(Case(line, f"{room}/{number}", made))
        if cases[-1].ample.status != int(status):
            report(f"{line} (no call fails)", cases[-1].ample)
    return cases


def try_memory(room):
    """Each request for memory is refused in turn, alone, and with all behind it."""

    def both(case):
        alone = case.sweep("memory", errno.ENOMEM, is_ample_or_no_memory)
        if alone == 1:
            faults.append(f"{case.line}: no request for memory was met")
        return alone + case.sweep("memory", errno.ENOMEM, is_ample_or_no_memory, True, OLD)

    cases = cases_of(room, 0)
    return f"{side_by_side(both, cases)} runs of {len(cases)} command lines, each 0 NoMemory or the answer of ample memory"


def try_threads(room):
    """Each thread that can't be started, alone, and with all behind it."""
    board = {name: contents_of(f"{EXAMPLES}/sensor-board.{name}") for name in ("dtb", "drivers")}
    cases = [Case(f"probe dtb drivers --workers {workers}", f"{room}/{workers}", board) for workers in (1, 2, 3, 16, 64)]

    def all_ways(case):
        ways = itertools.product((errno.EAGAIN, errno.EPERM), (False, True))
        runs = [case.sweep("thread", how, is_ample, endless) for how, endless in ways]
        if min(runs) == 1 and not case.line.endswith(" 1"):
            faults.append(f"{case.line}: no thread was met")
        return sum(runs)

    if len({case.ample for case in cases}) > 1:
        faults.append("probe: the report hangs on the number of workers")
    return f"{side_by_side(all_ways, cases)} runs of probe with 1 to 64 workers, each with the same report"


def try_files(room):
    """Each call on a file fails, is interrupted, or moves one byte, alone, and with all behind it."""

    def all_ways(case):
        runs = 0
        for endless in (False, True):
            for how in (errno.EIO, errno.EINTR, errno.ENOSPC):
                reads = case.sweep("read", how, is_cannot_read, endless, OLD)
                writes = case.sweep("write", how, is_cannot_write, endless, OLD)
                runs += reads + writes
                has_inputs = case.ample.status != 2 and not case.inputs.isdisjoint(case.line.split())
                if writes == 1 or (reads == 1 and has_inputs):
                    faults.append(f"{case.line}: no read or no write was met")
            runs += sum(case.sweep("open", how, is_cannot_open, endless, OLD) for how in (errno.EIO, errno.ENOSPC, errno.EMFILE))
            runs += case.sweep("seed", errno.EIO, is_cannot_read, endless, OLD)
            runs += case.sweep("close", errno.EIO, is_ample, endless, OLD)
        # An open that was interrupted is tried again. Blanks at the end of a file say nothing.
        runs += case.sweep("open", errno.EINTR, is_ample) + case.sweep("read", GROWN, is_ample) + case.sweep("write", SHORT, is_ample)
        # Files that are renamed, removed or forced to the disk.
        runs += case.sweep("change", errno.EIO, is_ample_or_cannot_write, False, OLD)
        for kind in ("read", "write"):
            answer, _ = case.run(f"{kind} 1 {ENDLESS} {SHORT}")
            if answer != case.ample:
                report(f"{case.line} (one byte a {kind})", answer)
        return runs + 2

    cases = cases_of(room, 20000)
    return f"{side_by_side(all_ways, cases)} runs of {len(cases)} command lines, each 80, 81 or the answer of sound files"


def main():
    with tempfile.TemporaryDirectory(prefix="dtman-refusals-") as room:
        for name, part in (("memory", try_memory), ("threads", try_threads), ("files", try_files)):
            line = part(f"{room}/{name}")
            if faults:
                print("\n".join(faults[:20]), file=sys.stderr)
                return 1
            print(f"refusals of {name}: {line}", flush=True)
    return 0


if __name__ == "__main__":
    sys.exit(main())
