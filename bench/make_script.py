#!/usr/bin/env python3
"""Writes a script of LINES good lines for a table of 1000 slots to standard output, the same for the same SEED."""
import argparse
import random
import sys

SLOTS = 1000

# The words of a table's script, the weight of each, and what stands after it.
TABLE_WORDS = [
    ("new", 200, "slot value"), ("clone", 200, "slot slot"), ("drop", 60, "slot"), ("getmut", 100, "slot value"),
    ("makemut", 100, "slot value"), ("own", 40, "slot"), ("raw", 40, "slot"), ("ptreq", 60, "slot slot"),
    ("same", 60, "slot slot"), ("get", 200, "slot"), ("mark", 0.1, "slot"),
]


def table_lines(lines, pick):
    words, weights, kinds = zip(*TABLE_WORDS)
    operands = dict(zip(words, kinds))
    for word in pick.choices(words, weights, k=lines):
        numbers = [pick.randrange(SLOTS if kind == "slot" else 2 ** 32) for kind in operands[word].split()]
        yield " ".join([word] + [str(n) for n in numbers])


def main():
    parser = argparse.ArgumentParser(description=__doc__)
    parser.add_argument("lines", type=int)
    parser.add_argument("seed", type=int, nargs="?", default=1)
    asked = parser.parse_args()
    sys.stdout.write("".join(line + "\n" for line in table_lines(asked.lines, random.Random(asked.seed))))


main()
