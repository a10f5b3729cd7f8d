#!/usr/bin/env python3
"""Tries the wrong bodies that the gate has no minutes for: those of bench/gate/wrong-bodies/CRATE, of all crates there or of those that are named.

    python3 bench/gate/wrong_bodies.py dt_tree

In a copy of the repository they stand in the crate's must-fail/, and `rt must-fail` tries them; each crate below is proved first.
"""
import os
import shutil
import subprocess
import sys
import tempfile

KEPT = "bench/gate/wrong-bodies"


def main():
    os.chdir(os.path.dirname(os.path.dirname(os.path.dirname(os.path.realpath(__file__)))))
    crates = sys.argv[1:] or sorted(os.listdir(KEPT))
    with tempfile.TemporaryDirectory(prefix="dtman-wrong-") as room:
        for name in ("HANDLES", "crates.txt"):
            shutil.copy(name, room)
        shutil.copytree("crates", f"{room}/crates", ignore=shutil.ignore_patterns("must-fail"))
        for crate in crates:
            shutil.copytree(f"{KEPT}/{crate}", f"{room}/crates/{crate}/must-fail")
        return subprocess.run(["rt", "must-fail", *crates], cwd=room).returncode


if __name__ == "__main__":
    sys.exit(main())
