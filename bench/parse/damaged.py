#!/usr/bin/env python3
"""Cuts the example board after each byte, and replaces each byte by 0: a cut text has to be a source or refused
with 10 or 16, and one with a zero byte refused with 10, but where the byte stands in a comment, a line marker or a
string and changes nothing there but an escape."""
import subprocess
import sys

PROGRAM = subprocess.run(["bench/build"], capture_output=True, check=True).stdout.decode().strip()


def answer(text):
    return subprocess.run([PROGRAM, "parse", "/dev/stdin"], input=text, capture_output=True, check=True).stdout.decode()


def main(path):
    with open(path, "rb") as file:
        text = file.read()
    whole = answer(text)
    wrong = 0
    for place in range(len(text)):
        cut = answer(text[:place])
        if not cut.startswith(("items ", "error 10 ", "error 16 ")):
            wrong += 1
            print("cut at", place, cut, end="")
        zero = answer(text[:place] + b"\0" + text[place + 1 :])
        if not zero.startswith(("error 10 ", "error 15 ")) and zero != whole:
            wrong += 1
            print("zero at", place, zero, end="")
    print(len(text), "places,", wrong, "wrong")


if __name__ == "__main__":
    main(sys.argv[1])
