#!/usr/bin/env python3
"""Compiles the boards of examples/dtc by a link named dtc, and by `compile --dtc`, and tells where the bytes are others than those kept beside them,
which dtc 1.6.1 made."""
import os
import subprocess
import sys

FOLDER = "examples/dtc"
LINK = "bin/dtc"
# A board, the options that it is compiled with, and the file of the bytes that come of it.
ROWS = [
    ("include.dts", [], "include.dtb"),
    ("incbin.dts", [], "incbin.dtb"),
    ("character.dts", [], "character.dtb"),
    ("twice.dts", [], "twice.dtb"),
    ("omit.dts", [], "omit.dtb"),
    ("moving-label.dts", [], "moving-label.dtb"),
    ("own-phandle.dts", [], "own-phandle.dtb"),
    ("made-again.dts", [], "made-again.dtb"),
    ("name.dts", [], "name.dtb"),
    ("symbols.dts", ["-@"], "symbols.dtb"),
    ("symbols.dts", ["-@", "-s"], "sorted.dtb"),
    ("symbols.dtb", ["-s", "-O", "dtb"], "sorted.dtb"),
    ("boot-cpu.dts", [], "boot-cpu.dtb"),
    ("boot-cpu.dts", ["-b", "7", "-R", "2", "-p", "30", "-a", "16"], "room.dtb"),
    ("include.dts", ["-S", "1024"], "space.dtb"),
    ("room.dtb", ["-I", "dtb", "-O", "dtb"], "room-again.dtb"),
    ("written.dts", ["-O", "dts"], "written.text"),
]
# Boards that the profile refuses.
REFUSED = ["include", "incbin", "character", "twice", "omit", "moving-label", "own-phandle"]
# Boards of the profile of which dtc makes other bytes.
OTHER = ["made-again", "name", "symbols", "boot-cpu"]


def compiled(name, *options):
    symbols = ["--symbols"] if name == "symbols" else []
    return subprocess.run(["bin/dtman", "compile", *options, *symbols, f"{FOLDER}/{name}.dts", "-"], capture_output=True, check=False)


def by_compile():
    """How many boards `compile --dtc` compiles otherwise than dtc, or `compile` without it otherwise than the profile has it."""
    differing = 0
    for name in REFUSED + OTHER:
        with open(f"{FOLDER}/{name}.dtb", "rb") as file:
            wanted = file.read()
        if compiled(name, "--dtc").stdout != wanted:
            differing += 1
            print(f"compile --dtc of {name}.dts gives other bytes than {name}.dtb", file=sys.stderr)
        plain = compiled(name)
        if plain.returncode != (name in REFUSED) or plain.stdout == wanted:
            differing += 1
            print(f"compile of {name}.dts goes by dtc's language, or its status isn't that of the profile", file=sys.stderr)
    return differing


def main():
    if not os.path.lexists(LINK):
        os.symlink("dtman", LINK)
    differing = 0
    for source, options, wanted in ROWS:
        done = subprocess.run([LINK, *options, "-q", "-o", "-", f"{FOLDER}/{source}"], capture_output=True, check=False)
        with open(f"{FOLDER}/{wanted}", "rb") as file:
            if done.returncode != 0 or done.stdout != file.read():
                differing += 1
                print(f"{source} {options}: status {done.returncode}, or other bytes than {wanted}\n{done.stderr.decode()}", file=sys.stderr)
    differing += by_compile()
    print(f"dtc: {len(ROWS) + len(REFUSED) + len(OTHER)} boards, {differing} with other bytes")
    return 1 if differing else 0


if __name__ == "__main__":
    sys.exit(main())
