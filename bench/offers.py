#!/usr/bin/env python3
"""Measures what an offer to one sum takes, beside a bare add to a word, in one run on this machine.

Usage: bench/offers.py [PROGRAM], where PROGRAM is the built program (crates/spd/out/spd if left out).

Once in instructions: callgrind over the test program of `spd_book_tests` (`rt test` in its crate builds it), in
which four threads take 300,000 offers by calls of `spd_book`; of these, 100,000 are to a sum, by the step
`add_sum`. And once in processor time: a program whose four asyncs offer in a loop, by `run` on 1 and on 4
workers. Beside both stands bench/by_hand/steps.rs, which adds to one word on as many threads. The start of each
program is taken off.

What it prints is a measurement of one run, and no promise.
"""

import os
import re
import shutil
import subprocess

from measuring import (
    TOP,
    Row,
    alone,
    beyond,
    instructions,
    medians,
    must_print,
    not_measured,
    ratio,
    rust_program,
    text_file,
    times,
    working_folder,
)

TESTS = TOP / "crates" / "spd_book_tests" / "out" / "spd_book_tests_tests"
TEST = "threads::each_of_100_000_offers_counts"
OFFERS_OF_TEST = 300_000
SUM_OFFERS_OF_TEST = 100_000

ROUNDS = 5
THREADS = (1, 4)
ASYNCS = 4
EACH = 250_000
ADDS = 5_000_000
ADD = "a bare `fetch_add`"

OFFERS = b"main { let s = finish sum { for k in 0..%d { async { for i in 0..%d { offer i; } } } } print s; }\n"
LOOPS = b"main { let s = finish sum { for k in 0..%d { async { for i in 0..%d { let x = i; } } } } print s; }\n"


def inclusive(word):
    """The instructions of the last counted run inside a function, what it calls included; none where no function
    of the program has this word in its name, since it was put into its callers."""
    lines = subprocess.run(
        ["callgrind_annotate", "--inclusive=yes", "--threshold=100", "callgrind.out"],
        stdout=subprocess.PIPE, stderr=subprocess.DEVNULL, text=True, check=False,
    ).stdout.splitlines()
    found = [line for line in lines if re.search(rf"\b{word}\b", line.split("[")[0])]
    return max((int(line.split("(")[0].replace(",", "")) for line in found), default=None)


def instruction_rows(by_hand):
    """The instructions of an offer, and of its step where it is a function of its own."""
    what = "an offer by a player of the table's tests"
    if not shutil.which("valgrind") or not by_hand:
        yield not_measured(what, "valgrind or rustc", ADD)
        return
    if not os.access(TESTS, os.X_OK):
        yield not_measured(what, "crates/spd_book_tests/out/spd_book_tests_tests", ADD)
        return
    add = (instructions([by_hand, "adds", str(ADDS), "1"]) - instructions([by_hand, "adds", "0", "1"])) / ADDS
    offer = instructions([str(TESTS), TEST]) / OFFERS_OF_TEST
    yield Row(what, f"{offer:.0f} instructions, {times(offer / add)}", f"{ADD} in a loop: {add:.1f}")
    step = inclusive("add_sum")
    if step is not None:
        step /= SUM_OFFERS_OF_TEST
        yield Row("the step `add_sum` of such an offer", f"{step:.0f} instructions, {times(step / add)}", f"the same: {add:.1f}")


def time_rows(spd, by_hand):
    """The processor time of an offer on 1 and on 4 workers, the loop round it taken off."""
    offers = text_file("offers.sp", OFFERS % (ASYNCS, EACH))
    loops = text_file("loops.sp", LOOPS % (ASYNCS, EACH))
    answer, total = ASYNCS * (EACH * (EACH - 1) // 2), ASYNCS * EACH
    runs = {}
    for threads in THREADS:
        tail = ["--workers", str(threads)]
        runs["offers", threads] = must_print([spd, "run", offers, *tail], str(answer))
        runs["loops", threads] = must_print([spd, "run", loops, *tail], "0")
        if by_hand:
            runs["adds", threads] = [by_hand, "adds", str(ADDS // threads), str(threads)]
            runs["none", threads] = [by_hand, "adds", "0", str(threads)]
    took = medians(runs, ROUNDS)
    for threads in THREADS:
        what = f"an offer of a program on {threads} worker{'s' * (threads > 1)}"
        offers_alone = beyond(took["offers", threads], took["loops", threads])
        yield Row(what, ratio(offers_alone, took["loops", threads], " times"), "a turn of the loop round it")
        if by_hand:
            adds_alone = beyond(took["adds", threads], took["none", threads])
            figure = ratio(offers_alone and offers_alone / total, adds_alone and adds_alone / ADDS, " times")
            yield Row(what, figure, f"{ADD} to one word on as many threads")
        else:
            yield not_measured(what, "rustc", ADD)


def rows(spd):
    """The rows of this measurement."""
    with working_folder():
        by_hand = rust_program("steps")
        yield from instruction_rows(by_hand)
        yield from time_rows(spd, by_hand)


if __name__ == "__main__":
    alone(rows)
