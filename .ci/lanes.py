#!/usr/bin/env python3
"""Runs a command, and keeps each thread that it starts, with all that the thread starts, to one processor in turn.

`rt ci` starts its checks from threads, as many as it has lanes. A check that sees one processor starts fewer threads of its own:
that of an edit takes about a tenth less processor time so, a whole proof about the same. Tests and programs are run by the first
thread, which keeps all processors, so threads in tests run side by side.
"""
import contextlib
import os
import subprocess
import sys
import time


def threads_of(number):
    """The threads of a process, or none once it has ended."""
    with contextlib.suppress(OSError):
        return [int(it) for it in os.listdir(f"/proc/{number}/task")]
    return []


def main():
    processors = sorted(os.sched_getaffinity(0))
    gate = subprocess.Popen(sys.argv[1:])
    lanes = []
    while gate.poll() is None:
        for thread in threads_of(gate.pid):
            with contextlib.suppress(OSError):
                # what a lane starts itself has that lane's processor already
                if thread != gate.pid and len(os.sched_getaffinity(thread)) == len(processors) > 1:
                    os.sched_setaffinity(thread, {processors[len(lanes) % len(processors)]})
                    lanes.append(thread)
        time.sleep(0.2)
    return gate.returncode


if __name__ == "__main__":
    sys.exit(main())
