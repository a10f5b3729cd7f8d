#!/usr/bin/env python3
"""Writes examples/sensor-board.dtb, or the file that is named: the blob of a small board, as a boot loader would be given it."""
import os
import sys

here = os.path.dirname(os.path.abspath(__file__))
sys.path.insert(0, os.path.join(here, "..", "bench", "dump"))
from flattened import Blob, cells, strings  # noqa: E402

CLOCKS, RAIL, INTERRUPTS = 1, 2, 3

# name, properties in order, children in order
BOARD = ("", [
    ("compatible", strings("example,sensor-board", "example,soc")),
    ("model", strings("Sensor board, revision B")),
    ("#address-cells", cells(1)),
    ("#size-cells", cells(1)),
], [
    ("chosen", [("bootargs", strings("console=ttyS0,115200")), ("stdout-path", strings("/soc/uart@50000"))], []),
    ("memory@80000000", [("device_type", strings("memory")), ("reg", cells(0x80000000, 0x10000000))], []),
    ("regulator-5v", [
        ("compatible", strings("regulator-fixed")),
        ("regulator-name", strings("vin")),
        ("regulator-min-microvolt", cells(5000000)),
        ("regulator-max-microvolt", cells(5000000)),
        ("regulator-always-on", b""),
        ("phandle", cells(RAIL)),
    ], []),
    ("soc", [
        ("compatible", strings("simple-bus")),
        ("#address-cells", cells(1)),
        ("#size-cells", cells(1)),
        ("interrupt-parent", cells(INTERRUPTS)),
        ("ranges", b""),
    ], [
        ("interrupt-controller@10000", [
            ("compatible", strings("arm,gic-400")),
            ("reg", cells(0x10000, 0x1000)),
            ("#interrupt-cells", cells(3)),
            ("interrupt-controller", b""),
            ("phandle", cells(INTERRUPTS)),
        ], []),
        ("clock-controller@20000", [
            ("compatible", strings("example,soc-clocks")),
            ("reg", cells(0x20000, 0x400)),
            ("#clock-cells", cells(1)),
            ("phandle", cells(CLOCKS)),
        ], []),
        ("uart@50000", [
            ("compatible", strings("ns16550a")),
            ("reg", cells(0x50000, 0x100)),
            ("interrupts", cells(0, 33, 4)),
            ("clocks", cells(CLOCKS, 7)),
        ], []),
        ("i2c@60000", [
            ("compatible", strings("example,soc-i2c")),
            ("reg", cells(0x60000, 0x100)),
            ("#address-cells", cells(1)),
            ("#size-cells", cells(0)),
            ("clocks", cells(CLOCKS, 9)),
        ], [
            ("thermometer@4a", [
                ("compatible", strings("national,lm75")),
                ("reg", cells(0x4A)),
                ("vs-supply", cells(RAIL)),
            ], []),
            ("accelerometer@1d", [
                ("compatible", strings("adi,adxl345")),
                ("reg", cells(0x1D)),
                ("mount-matrix", bytes([0x31, 0, 0x30, 0, 0x2D, 0x31])),
                ("status", strings("disabled")),
            ], []),
        ]),
    ]),
])


def put(blob, node):
    name, properties, children = node
    blob.begin(name.encode())
    for key, value in properties:
        blob.property(key.encode(), value)
    for child in children:
        put(blob, child)
    blob.end()


board = Blob(reserves=[(0x87F00000, 0x100000)])
put(board, BOARD)
with open(sys.argv[1] if len(sys.argv) > 1 else os.path.join(here, "sensor-board.dtb"), "wb") as out:
    out.write(board.bytes())
