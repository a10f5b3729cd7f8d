#!/usr/bin/env python3
"""Writes blobs and driver files to a folder that a planner could be slow on: each stresses one part of it.

wide          100,000 children of the root without `compatible`, each with a phandle
drivers       512 devices, 10,000 drivers with 10 strings each, and a device's string the last of them
references    one device whose `clocks` has 100,000 entries, half of them to one device and the rest to others
nested        512 devices, in stems of 60 nodes one in another, each with a supplier in the stem before
phandles      400,000 nodes with phandles, and 512 devices with 1,000 references each to nodes that belong to none
strings       512 devices with 1,000 strings in `compatible` each, of which the last has a driver
board         a board of 512 devices on buses, with clocks, resets, pins, supplies and interrupts
"""
import os
import random
import sys

sys.path.insert(0, os.path.join(os.path.dirname(os.path.abspath(__file__)), "..", "dump"))
from flattened import Blob, cells, strings  # noqa: E402

MOST = 512


def wide():
    blob = Blob()
    blob.begin(b"")
    for number in range(1, 100_001):
        blob.begin(b"n%d" % number)
        blob.property(b"phandle", cells(number))
        blob.end()
    blob.begin(b"d")
    blob.property(b"compatible", strings("d"))
    blob.property(b"pinctrl-0", cells(1, 50_000, 100_000))
    blob.end()
    blob.end()
    return blob, "driver d d\n"


def drivers():
    blob = Blob()
    blob.begin(b"")
    for number in range(MOST):
        blob.begin(b"d%d" % number)
        blob.property(b"compatible", strings(f"s{10_000 - number - 1}-9"))
        blob.end()
    blob.end()
    lines = (f"driver r{number} " + " ".join(f"s{number}-{string}" for string in range(10)) for number in range(10_000))
    return blob, "\n".join(lines) + "\n"


def references():
    blob = Blob()
    blob.begin(b"")
    for number in range(1, 201):
        blob.begin(b"c%d" % number)
        blob.property(b"compatible", strings("clock"))
        blob.property(b"#clock-cells", cells(1))
        blob.property(b"phandle", cells(number))
        blob.end()
    blob.begin(b"user")
    blob.property(b"compatible", strings("user"))
    entries = []
    for number in range(100_000):
        entries += [1 if number % 2 == 0 else 1 + number % 200, number]
    blob.property(b"clocks", cells(*entries))
    blob.end()
    blob.end()
    return blob, "driver clk clock\ndriver usr user\n"


def nested():
    blob = Blob()
    blob.begin(b"")
    made = 0
    while made < MOST:
        stem = min(60, MOST - made)
        for level in range(stem):
            made += 1
            blob.begin(b"d%d" % made)
            blob.property(b"compatible", strings("d"))
            blob.property(b"phandle", cells(made))
            blob.property(b"vin-supply", cells(max(1, made - 60)))
        for level in range(stem):
            blob.end()
    blob.end()
    return blob, "driver d d\n"


def phandles():
    blob = Blob()
    blob.begin(b"")
    for number in range(1, 400_001):
        blob.begin(b"n%d" % number)
        blob.property(b"phandle", cells(number))
        blob.end()
    for number in range(MOST):
        blob.begin(b"d%d" % number)
        blob.property(b"compatible", strings("d"))
        blob.property(b"pinctrl-0", cells(*(1 + (number * 1_009 + other * 389) % 400_000 for other in range(1_000))))
        blob.end()
    blob.end()
    return blob, "driver d d\n"


def many_strings():
    blob = Blob()
    blob.begin(b"")
    for number in range(MOST):
        blob.begin(b"d%d" % number)
        blob.property(b"compatible", strings(*(f"s{number}-{string}" for string in range(999)), "d"))
        blob.end()
    blob.end()
    return blob, "driver d d\n"


def board():
    chance = random.Random(1)
    blob = Blob()
    blob.begin(b"")
    providers = [("clock", b"#clock-cells", 1), ("reset", b"#reset-cells", 1), ("gpio", b"#gpio-cells", 2), ("gic", b"#interrupt-cells", 3)]
    for number, (kind, property, count) in enumerate(providers, 1):
        blob.begin(kind.encode())
        blob.property(b"compatible", strings(kind))
        blob.property(property, cells(count))
        blob.property(b"phandle", cells(number))
        blob.end()
    blob.begin(b"supply")
    blob.property(b"compatible", strings("supply"))
    blob.property(b"phandle", cells(5))
    blob.end()
    left = MOST - 5
    while left > 0:
        blob.begin(b"bus@%d" % left)
        blob.property(b"compatible", strings("bus"))
        left -= 1
        for _ in range(min(left, 15)):
            blob.begin(b"device@%d" % left)
            blob.property(b"compatible", strings(f"maker,part-{left}", "maker,part"))
            blob.property(b"clocks", cells(1, left, 1, left + 1))
            blob.property(b"resets", cells(2, left))
            blob.property(b"enable-gpios", cells(3, left, 0))
            blob.property(b"vdd-supply", cells(5))
            blob.property(b"interrupts-extended", cells(4, 0, left, 4))
            if chance.random() < 0.2:
                blob.property(b"status", strings("disabled"))
            blob.end()
            left -= 1
        blob.end()
    blob.end()
    return blob, "".join(f"driver {kind} {kind}\n" for kind in ("clock", "reset", "gpio", "gic", "supply", "bus")) + "driver part maker,part\n"


INPUTS = {
    "wide": wide,
    "drivers": drivers,
    "references": references,
    "nested": nested,
    "phandles": phandles,
    "strings": many_strings,
    "board": board,
}


def main(folder):
    os.makedirs(folder, exist_ok=True)
    for name, make in INPUTS.items():
        blob, drivers_text = make()
        with open(os.path.join(folder, name + ".dtb"), "wb") as file:
            file.write(blob.bytes())
        with open(os.path.join(folder, name + ".drivers"), "w") as file:
            file.write(drivers_text)


if __name__ == "__main__":
    main(sys.argv[1])
