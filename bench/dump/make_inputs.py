#!/usr/bin/env python3
"""Writes blobs to a folder that a reader could be slow on: each stresses one part of it.

many-names    100,000 distinct property names of 255 bytes, alike in their last 248
heads         100,000 distinct property names of 255 bytes, alike in their first 240
chains        100,000 names of 255 bytes that have 250 others as tails, and then those
tails         property names that are tails of one another
small-nodes   1,000,000 nodes without properties
wide-node     100,000 children of one node
deep          15,000 stems, 64 nodes deep each, with one property a node
only-child    400,000 nodes with one child each, which has one property
one-value     one property of 200 MB
nops          a NOP before each token of 200,000 nodes with a property
board-150k    a board of the largest size met in practice
board-16m     the same, a hundred times over
"""
import os
import struct
import sys

from flattened import Blob

def many_names():
    blob = Blob()
    blob.begin(b"")
    for number in range(100_000):
        blob.property(b"p%06d" % number + b"x" * 248, b"")
    blob.end()
    return blob


def heads():
    blob = Blob()
    blob.begin(b"")
    for number in range(100_000):
        blob.property(b"h" * 240 + b"%015d" % number, b"")
    blob.end()
    return blob


def chains():
    blob = Blob()
    blob.begin(b"")
    for number in range(100_000):
        blob.property(b"%05d" % number + b"x" * 250, b"")
    for length in range(250, 0, -1):
        blob.property(b"x" * length, b"")
    blob.end()
    return blob


def tails():
    blob = Blob()
    blob.begin(b"")
    for stem in range(400):
        blob.begin(b"n%d" % stem)
        for length in range(255, 4, -1):
            blob.property((b"a" * 251 + b"%04d" % stem)[-length:], b"")
        blob.end()
    blob.end()
    return blob


def small_nodes():
    blob = Blob()
    blob.begin(b"")
    for outer in range(1_000):
        blob.begin(b"o%d" % outer)
        for inner in range(1_000):
            blob.begin(b"i%d" % inner)
            blob.end()
        blob.end()
    blob.end()
    return blob


def wide_node():
    blob = Blob()
    blob.begin(b"")
    for number in range(100_000):
        blob.begin(b"n%d" % number)
        blob.end()
    blob.end()
    return blob


def deep():
    blob = Blob()
    blob.begin(b"")
    for stem in range(15_000):
        blob.begin(b"s%d" % stem)
        for level in range(63):
            blob.property(b"reg", struct.pack(">I", level))
            blob.begin(b"n")
        blob.property(b"reg", struct.pack(">I", 63))
        for level in range(64):
            blob.end()
    blob.end()
    return blob


def only_child():
    blob = Blob()
    blob.begin(b"")
    for number in range(400_000):
        blob.begin(b"n%d" % number)
        blob.begin(b"c")
        blob.property(b"reg", struct.pack(">I", number))
        blob.end()
        blob.end()
    blob.end()
    return blob


def one_value():
    blob = Blob()
    blob.begin(b"")
    blob.property(b"value", b"x" * 199_999_999 + b"\0")
    blob.end()
    return blob


def nops():
    blob = Blob(nops=True)
    blob.begin(b"")
    for outer in range(200):
        blob.begin(b"o%d" % outer)
        for inner in range(1_000):
            blob.begin(b"i%d" % inner)
            blob.property(b"reg", struct.pack(">II", inner, 4))
            blob.end()
        blob.end()
    blob.end()
    return blob


def board(groups):
    blob = Blob()
    blob.begin(b"")
    blob.property(b"compatible", b"vendor,board\0vendor,soc\0")
    for group in range(groups):
        blob.begin(b"bus@%x" % (0x1000_0000 + group * 0x10000))
        blob.property(b"#address-cells", struct.pack(">I", 1))
        blob.property(b"#size-cells", struct.pack(">I", 1))
        for device in range(16):
            blob.begin(b"device@%x" % (device * 0x100))
            blob.property(b"compatible", b"vendor,device-%d\0vendor,device\0" % device)
            blob.property(b"reg", struct.pack(">II", device * 0x100, 0x100))
            blob.property(b"interrupts", struct.pack(">III", 0, device, 4))
            blob.property(b"clocks", struct.pack(">II", 1, device))
            blob.property(b"clock-names", b"core\0")
            blob.property(b"status", b"okay\0")
            blob.end()
        blob.end()
    blob.end()
    return blob


INPUTS = {
    "many-names": many_names,
    "heads": heads,
    "chains": chains,
    "tails": tails,
    "small-nodes": small_nodes,
    "wide-node": wide_node,
    "deep": deep,
    "only-child": only_child,
    "one-value": one_value,
    "nops": nops,
    "board-150k": lambda: board(56),
    "board-16m": lambda: board(6_000),
}


def main(folder):
    os.makedirs(folder, exist_ok=True)
    for name, make in INPUTS.items():
        path = os.path.join(folder, name + ".dtb")
        if not os.path.exists(path):
            with open(path, "wb") as out:
                out.write(make().bytes())


if __name__ == "__main__":
    main(sys.argv[1])
