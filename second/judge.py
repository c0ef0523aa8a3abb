#!/usr/bin/env python3
"""Prints the verdict line on the plan file that standard input holds; with --cases, on each line of a table of cases.

A line of the table is the size of the buffer, a space, and the file in hexadecimal.
"""

import sys

from planfile import judged, verdict


def main():
    if sys.argv[1:] == ["--cases"]:
        for line in sys.stdin:
            room, _, text = line.rstrip("\n").partition(" ")
            print(judged(bytes.fromhex(text), int(room)))
    else:
        print(verdict(sys.stdin.buffer.read(8193)))


if __name__ == "__main__":
    main()
