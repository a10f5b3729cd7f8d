#!/usr/bin/env python3
"""Writes plans of 64, 512 and 4096 devices to a folder.

chain   each device needs the one before it, so that one probe at most can settle at a time
back    each device needs the one behind it, so that nearly all are deferred once
fan     all need the first
flat    none needs another
slow-root   all need the first, whose driver `slow` takes as long as 1,000 others
late-root   the same with that device last in plan order
board   the shape of a board: a clock, a power supply and a pin controller, buses that need these, and devices that need
        their bus, a clock of a controller and at times a device of another bus, some of them named before what they need
"""
import os
import sys


def chain(count):
    return [[] if number == 0 else [number - 1] for number in range(count)]


def back(count):
    return [[number + 1] if number + 1 < count else [] for number in range(count)]


def fan(count):
    return [[] if number == 0 else [0] for number in range(count)]


def flat(count):
    return [[] for _ in range(count)]


def slow_root(count):
    return fan(count)


def late_root(count):
    return [[] if number == count - 1 else [count - 1] for number in range(count)]


def board(count):
    roots, buses = 4, count // 16
    plan = [[], [], [0], [0, 1]]
    plan += [[2, 3] for _ in range(buses)]
    for number in range(roots + buses, count):
        bus = roots + number % buses
        needs = [bus, 2]
        if number % 3 == 0:
            other = number + 5 if number % 2 == 0 and number + 5 < count else number - 7
            if other >= roots + buses:
                needs.append(other)
        plan.append(needs)
    return plan


SLOW = {"slow-root": 0, "late-root": -1}


def main(folder):
    os.makedirs(folder, exist_ok=True)
    for shape in (chain, back, fan, flat, board, slow_root, late_root):
        name = shape.__name__.replace("_", "-")
        for count in (64, 512, 4096):
            slow = SLOW[name] % count if name in SLOW else None
            with open(os.path.join(folder, f"{name}-{count}.plan"), "w") as file:
                for number, needs in enumerate(shape(count)):
                    suppliers = "".join(f" /device@{other}" for other in needs)
                    file.write(f"/device@{number} {'slow' if number == slow else 'driver'} ok{suppliers}\n")


if __name__ == "__main__":
    main(sys.argv[1])
