#!/usr/bin/env python3
"""Times runs: milliseconds a run by 1, 4 and 64 workers, and how many times the ideal that is.

Each plan is run over the board, and then with the lock. A probe does nothing, or counts for about 10 or 70 microseconds; how
many turns these are is measured first. The best of several short runs is taken, without the program's start, so that other
work on the machine counts for little. The ideal is what as many processors would need that take no time between probes, probe
each device once, as soon as its suppliers are bound, and never more of them than the machine has.
"""
import heapq
import os
import subprocess
import sys
import time

WORKERS = (1, 4, 64)
SECONDS = 0.1
REPEATS = 7
SLOW = 1000


def once(program, plan, workers, rounds, turns, way):
    before = time.monotonic()
    said = subprocess.run([program, plan, str(workers), str(rounds), str(turns), *way], capture_output=True, text=True, check=True).stdout
    passed = time.monotonic() - before
    if not said.startswith("devices "):
        sys.exit(f"{plan} by {workers}: {said}")
    return passed


def measured(program, plan, workers, rounds, turns, way=()):
    """Seconds a run."""
    whole = min(once(program, plan, workers, rounds, turns, way) for _ in range(REPEATS))
    start = min(once(program, plan, workers, 0, turns, way) for _ in range(REPEATS))
    return max(whole - start, 1e-6) / rounds


def read(path):
    """The length of each device's probe, counted in probes, and the devices that need it; and how many suppliers each has."""
    lines = [line.split() for line in open(path)]
    places = {line[0]: number for number, line in enumerate(lines)}
    consumers = [[] for _ in lines]
    for number, line in enumerate(lines):
        for supplier in line[3:]:
            consumers[places[supplier]].append(number)
    return [SLOW if line[1] == "slow" else 1 for line in lines], consumers, [len(line) - 3 for line in lines]


def ideal(path, workers):
    """How many probes long a run is at least."""
    lengths, consumers, lacks = read(path)
    ready, running, now = [number for number, lack in enumerate(lacks) if lack == 0], [], 0
    while ready or running:
        while ready and len(running) < workers:
            device = ready.pop()
            heapq.heappush(running, (now + lengths[device], device))
        now, device = heapq.heappop(running)
        for consumer in consumers[device]:
            lacks[consumer] -= 1
            if lacks[consumer] == 0:
                ready.append(consumer)
    return now


def main(program, folder):
    flat = os.path.join(folder, "flat-64.plan")
    pace = 1e5 * 64 / measured(program, flat, 1, 1, 100_000) / 1e6
    print(f"{'plan':<14} {'way':>6} {'a probe':>8} " + " ".join(f"{f'by {workers}, ms':>11} {'ideal':>6}" for workers in WORKERS))
    for name in sorted(os.listdir(folder)):
        plan = os.path.join(folder, name)
        least = [ideal(plan, min(workers, os.cpu_count())) for workers in WORKERS]
        for label, length in (("nothing", 0), ("10 us", 10), ("70 us", 70)):
            turns = int(length * pace)
            rounds = max(1, min(100, int(SECONDS / measured(program, plan, 1, 1, turns))))
            for said, way in (("board", ()), ("locked", ("locked",))):
                found = [measured(program, plan, workers, rounds, turns, way) for workers in WORKERS]
                cells = " ".join(f"{passed * 1e3:11.2f} {f'{passed * 1e6 / (probes * length):5.2f}x' if length else '':>6}" for passed, probes in zip(found, least))
                print(f"{name[:-5]:<14} {said:>6} {label:>8} {cells}", flush=True)


if __name__ == "__main__":
    main(sys.argv[1], sys.argv[2])
