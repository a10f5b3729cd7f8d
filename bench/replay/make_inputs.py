#!/usr/bin/env python3
"""Writes plans of 512 devices and schedules of 1,000,000 events (500,000 begins) to a folder.

Shapes of plans, by who has whom as a supplier:

  chain    each device but the first has the one before it
  fan-out  all devices have the first
  fan-in   the last device has all others
  random   each device has up to 8 of those before it

A schedule takes the devices with suppliers by turns: each is begun and then deferred on the last supplier in its list,
or abandoned each 16th time. No device binds, so that no begin is wasted. SHAPE-read.schedule
is the same schedule with one line more that is no event's: it is read and refused, and no event happens. What it takes
is the time of reading.
"""
import os
import random
import sys

DEVICES = 512
BEGINS = 500_000


def suppliers(shape, number):
    if shape == "chain":
        return [number - 1] if number else []
    if shape == "fan-out":
        return [0] if number else []
    if shape == "fan-in":
        return list(range(DEVICES - 1)) if number == DEVICES - 1 else []
    if number == 0:
        return []
    draw = random.Random(number)
    return sorted(draw.sample(range(number), min(number, draw.randint(1, 8))))


def write_plan(path, shape):
    with open(path, "w") as plan:
        for number in range(DEVICES):
            names = "".join(f" /device@{supplier}" for supplier in suppliers(shape, number))
            plan.write(f"/device@{number} driver ok{names}\n")


def write_schedule(path, shape):
    """Deferrals and abandons of the devices with suppliers, by turns; the first device never binds."""
    waiting = [number for number in range(DEVICES) if suppliers(shape, number)]
    with open(path, "w") as schedule:
        for begin in range(BEGINS):
            number = waiting[begin % len(waiting)]
            schedule.write(f"begin /device@{number}\n")
            if begin % 16 == 0:
                schedule.write(f"abandon /device@{number}\n")
            else:
                schedule.write(f"finish /device@{number} missing /device@{suppliers(shape, number)[-1]}\n")


def main(folder):
    os.makedirs(folder, exist_ok=True)
    for shape in ("chain", "fan-out", "fan-in", "random"):
        write_plan(os.path.join(folder, f"{shape}.plan"), shape)
        path = os.path.join(folder, shape)
        write_schedule(f"{path}.schedule", shape)
        with open(f"{path}.schedule") as whole, open(f"{path}-read.schedule", "w") as read:
            read.write(whole.read() + "begin\n")


if __name__ == "__main__":
    main(sys.argv[1])
