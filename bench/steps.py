#!/usr/bin/env python3
"""Counts the instructions of a cut by a scheduler that stands on `spd_dag` alone, beside the same by hand.

Usage: bench/steps.py [PROGRAM], where PROGRAM is that scheduler (crates/spd_fork_sum/out/spd_fork_sum if left
out; `rt run` in crates/spd_fork_sum builds it).

It sums numbers in pieces that it cuts in two. A cut is one spawn, one signal more and two starts more. Two runs
on one thread differ in their cuts alone, so the difference of their instructions, by the difference of their
cuts, is what one takes. Beside it stands bench/by_hand/steps.rs, whose spawn, signal and start make the same
accesses to words of its own. Callgrind counts, so other work on the machine changes nothing.

What it prints is a measurement of one run, and no promise.
"""

import os
import re
import shutil
import sys

from measuring import TOP, Row, alone, instructions, not_measured, printed, rust_program, times, working_folder

FORK_SUM = TOP / "crates" / "spd_fork_sum" / "out" / "spd_fork_sum"
GRAINS = ("1000", "250")
SUM = "The sum of 1 to 1000000 is 500000500000.\n"
WHAT = "a cut by `spd_dag`: a spawn, a signal and two starts"
BESIDE = "the same accesses to words by hand"


def cuts(command):
    """How many pieces a command says that it cut."""
    text = printed(command)
    if not text.startswith(SUM):
        raise SystemExit(f"{command}: another sum")
    return int(re.match(r"(\d+) pieces were cut", text[len(SUM) :]).group(1))


def per_cut(few, many):
    """The instructions of one cut, by two commands that differ in their cuts."""
    return (instructions(many) - instructions(few)) / (cuts(many) - cuts(few))


def rows(_spd=None, fork_sum=FORK_SUM):
    """The rows of this measurement."""
    fork_sum = str(fork_sum)
    with working_folder():
        by_hand = rust_program("steps")
        if not shutil.which("valgrind"):
            yield not_measured(WHAT, "valgrind", BESIDE)
        elif not os.access(fork_sum, os.X_OK):
            yield not_measured(WHAT, "crates/spd_fork_sum/out/spd_fork_sum", BESIDE)
        elif not by_hand:
            yield not_measured(WHAT, "rustc", BESIDE)
        else:
            ours = per_cut(*([fork_sum, grain, "1"] for grain in GRAINS))
            hand = per_cut(*([by_hand, "cuts", grain] for grain in GRAINS))
            yield Row(WHAT, f"{ours:.0f} instructions, {times(ours / hand)}", f"{BESIDE}: {hand:.0f}")


if __name__ == "__main__":
    alone(lambda program: rows(fork_sum=program), os.path.abspath(sys.argv[1]) if len(sys.argv) > 1 else str(FORK_SUM))
