#!/usr/bin/env python3
"""Measures what `spd elide` takes to start, and to read and run a long text, in one run on this machine.

Usage: bench/first_path.py [PROGRAM], where PROGRAM is the built program (crates/spd/out/spd if left
out; the README says how it is built). Times are of the processor.

What it prints is a measurement of one run, and no promise.
"""

import sys

from measuring import Row, alone, elided, medians, peak, smallest_stack_kib, times, working_folder

PRINT = b'print "row ", 1 + 2 + x;\n'
SIZES = (("0.25 MB", 1 << 18), ("0.5 MB", 1 << 19), ("1 MB", 1 << 20))


def prints(size):
    """A program of about `size` bytes of prints."""
    head = b"main {\nlet x = 3;\n"
    return head + PRINT * ((size - len(head) - 2) // len(PRINT)) + b"}\n"


def start_rows(empty):
    """How long the program takes to start."""
    others = {"/bin/true": ["/bin/true"], "`python3 -c ''`": [sys.executable, "-c", ""]}
    took = medians({"spd": empty} | others, 31)
    for other in others:
        yield Row("start: `spd elide` on `main { }`", times(took["spd"] / took[other]), other)


def size_rows(texts):
    """How the time grows with the text."""
    took = medians(texts, 7)
    for (before, _), (name, _) in zip(SIZES, SIZES[1:]):
        yield Row(f"{name} of prints", times(took[name] / took[before]), f"{before} of prints")


def rows(spd):
    """The rows of this measurement."""
    with working_folder():
        empty = elided(spd, "empty.sp", b"main { }")
        yield from start_rows(empty)
        texts = {name: elided(spd, f"prints_{size}.sp", prints(size)) for name, size in SIZES}
        yield from size_rows(texts)
        yield Row("peak memory: `main { }`", peak(empty))
        yield Row("peak memory: 1 MB of prints", peak(texts["1 MB"]))
        # Reading is a loop. What recurs is a walk over an expression (the check of its names, its
        # value, its drop), once for each operator, and no tree has more than 1,000 in a row.
        chain = elided(spd, "chain.sp", b"main { print 1" + b" + 1" * 1000 + b"; }")
        yield Row("smallest stack: `main { }`", f"{smallest_stack_kib(empty)} KiB")
        yield Row("smallest stack: a chain of 1,000 `+`", f"{smallest_stack_kib(chain)} KiB")


if __name__ == "__main__":
    alone(rows)
