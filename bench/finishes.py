#!/usr/bin/env python3
"""Measures asyncs and finishes that stand one by one in a text, by `spd elide`, in one run on this machine.

Usage: bench/finishes.py [PROGRAM [OTHER]]. PROGRAM is the built program (crates/spd/out/spd if left out),
which runs each finish of main by its serial elision. OTHER is one to compare it with: built from a copy in
which crates/spd_top/src/programs.rt names `PlainRegions` of `spd_task` in place of `ElideRegions`, so that
each finish runs as vertices. Times are of the processor.

What it prints is a measurement of one run, and no promise.
"""

import os
import sys

from measuring import Row, alone, elided, medians, peak, smallest_stack_kib, times, working_folder

ASYNCS = 50_000
FINISHES = 40_000


def asyncs(count):
    """A program with so many asyncs in one finish."""
    return b"main {\nlet s = finish sum {\n" + b"async{offer 1;}\n" * count + b"}\nprint s;\n}\n"


def finishes(count):
    """A program with so many finishes one after another, each with an async."""
    return b"main {\n" + b"finish{async{}}\n" * count + b"}\n"


def nest(braces):
    """A program with so many braces open at once."""
    return b"main {" + b"finish {" * (braces - 1) + b"}" * braces + b"\n"


def count_rows(spd, other):
    """How the time and the memory grow with the count."""
    for what, count, text in (("asyncs of a text in one finish", ASYNCS, asyncs), ("finishes of a text", FINISHES, finishes)):
        runs = {"part": elided(spd, "part.sp", text(count // 10)), "whole": elided(spd, "whole.sp", text(count))}
        if other:
            runs["other"] = elided(other, "whole.sp", text(count))
        took = medians(runs, 7)
        name = f"{count:,} {what}"
        yield Row(name, times(took["whole"] / took["part"]), f"{count // 10:,} of them")
        if other:
            yield Row(name, times(took["whole"] / took["other"]), f"the same by {os.path.basename(other)}")
        yield Row(f"peak memory: {name}, {os.path.getsize('whole.sp'):,} bytes", peak(runs["whole"]))


def rows(spd, other=None):
    """The rows of this measurement."""
    with working_folder():
        yield from count_rows(spd, other)
        for what, braces in (("1 open brace", 1), ("32 open braces, the most", 32)):
            kib = smallest_stack_kib(elided(spd, "nest.sp", nest(braces)))
            yield Row(f"smallest stack: {what}", f"{kib} KiB")


if __name__ == "__main__":
    alone(lambda spd: rows(spd, os.path.abspath(sys.argv[2]) if len(sys.argv) > 2 else None))
