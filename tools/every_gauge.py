#!/usr/bin/env python3
"""Runs the reader on every lone gauge of a few sizes at the ends of their limits through `cases`, and compares what it
answers with document 01.

    python3 tools/every_gauge.py

The gauges have one to three sizes, of every height and width of LENGTHS, in files of both versions; and four sizes, of
fewer lengths, in files of version 1. So each order of checks 8 and 9 over a gauge comes up. It exits 1 if any answer
differs from the model's.
"""

import itertools
import sys

sys.dont_write_bytecode = True

from making import running
from making.case import file_case
from making.face_bytes import face, gauge

LENGTHS = [0, 1, 2, 1000, 1001]

# The four sizes of a gauge are of these.
FEWER = list(itertools.product([0, 1, 2, 3, 1001], [1, 2, 1000, 1001]))

# How many cases the program is given at a time.
AT_ONCE = 20000


def files():
    sizes = list(itertools.product(LENGTHS, LENGTHS))
    for version, count in itertools.product((1, 2), (1, 2, 3)):
        for chosen in itertools.product(sizes, repeat=count):
            yield face(gauge(*chosen), version=version)
    for chosen in itertools.product(FEWER, repeat=4):
        yield face(gauge(*chosen))


def main():
    cases = (file_case(f"file {i}", file) for i, file in enumerate(files()))
    ran = wrong = 0
    while some := list(itertools.islice(cases, AT_ONCE)):
        wrong += running.different(some, running.run(running.PROGRAM, some))
        ran += len(some)
    print(f"{ran} files ran, {wrong} differ")
    sys.exit(wrong != 0)


if __name__ == "__main__":
    main()
