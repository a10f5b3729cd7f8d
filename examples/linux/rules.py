#!/usr/bin/env python3
"""Compares what `dtman probe --links linux` binds with what a booted kernel bound, for consumers that were made to try its rules.

    rules.py PROGRAM BLOB DRIVERS ROWS DEVICES [OPTION..]

ROWS has a name a line: that of the consumer's node. DEVICES is what /sys said, a line `DEV NAME NODE [DRIVER]` for each device. A row
agrees where `probe` says bound exactly where the kernel bound the device, or where neither has one. The options are `probe`'s: `--strict` of
a kernel with `fw_devlink.strict=1`, `--timeout never` of what was bound before its timeout ended. The exit status is 0 where all agree.
"""
import subprocess
import sys


def bound_by_probe(program, blob, drivers, options):
    """The paths of the bound devices, by what the program prints."""
    command = [program, "probe", blob, drivers, "--links", "linux", *options]
    printed = subprocess.run(command, capture_output=True, text=True, check=False).stdout
    lines = [line.split() for line in printed.splitlines()]
    return {fields[0] for fields in lines if len(fields) > 1 and fields[1] == "bound"}


def bound_by_kernel(devices):
    """The nodes of the devices that have a driver."""
    with open(devices, encoding="utf-8") as file:
        lines = [line.split() for line in file]
    return {fields[2] for fields in lines if fields and fields[0] == "DEV" and len(fields) > 3}


def is_among(name, paths):
    """Whether one of the paths ends in a node of this name."""
    return any(path.rsplit("/", 1)[-1] == name for path in paths)


def main():
    program, blob, drivers, rows, devices, *options = sys.argv[1:]
    ours, theirs = bound_by_probe(program, blob, drivers, options), bound_by_kernel(devices)
    with open(rows, encoding="utf-8") as file:
        names = file.read().split()
    others = [name for name in names if is_among(name, ours) != is_among(name, theirs)]
    for name in others:
        print(f"{name}: the kernel {'bound' if is_among(name, theirs) else 'did not bind'} it")
    print(f"{len(names) - len(others)} of {len(names)} agree")
    return 1 if others else 0


if __name__ == "__main__":
    sys.exit(main())
