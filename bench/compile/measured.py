#!/usr/bin/env python3
"""Runs a command for at most a minute and prints its seconds, the most MB that it took, and its status where that isn't 0."""
import os
import resource
import signal
import subprocess
import sys
import time

LIMIT = 60


def main(command):
    begin = time.monotonic()
    process = subprocess.Popen(command, stdout=subprocess.DEVNULL, stderr=subprocess.DEVNULL)
    try:
        status = process.wait(LIMIT)
    except subprocess.TimeoutExpired:
        os.kill(process.pid, signal.SIGKILL)
        process.wait()
        print(f"over {LIMIT}")
        return 1
    seconds = time.monotonic() - begin
    taken = resource.getrusage(resource.RUSAGE_CHILDREN).ru_maxrss // 1024
    print(f"{seconds:.2f} {taken}" + (f" ({status})" if status else ""))
    return 0


if __name__ == "__main__":
    sys.exit(main(sys.argv[1:]))
