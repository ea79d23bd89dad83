#!/usr/bin/env python3
"""Measures how `spd` reads a text (tokens, tree and checks) in one run on this machine.

Usage: bench/reading.py [PROGRAM], where PROGRAM is the built program (crates/spd/out/spd if left out).

Each text ends with a function that doesn't return, which is the last thing that the checks find, so
that it is read to its end, checked and refused, and nothing of it runs. Beside it stands what
CPython's `compile` takes for a text of the same kind and about the same length, its start-up not
counted. Times are of the processor.

What it prints is a measurement of one run, and no promise.
"""

import sys

from measuring import (
    Row,
    alone,
    beyond,
    elided,
    medians,
    peak_kib,
    ratio,
    smallest_stack_kib,
    text_file,
    times,
    working_folder,
)

REFUSED = 1
SIZES = (("0.5 MB", 1 << 19), ("1 MB", 1 << 20))
END = b"}\nfn last() { }\n"
SUM = b"1" + b" + 2" * 200

# What a line of each kind is, in spd and in Python; and what stands before the lines in spd.
KINDS = {
    "prints": (b'print "row ", 1 + 2 + 3;\n', b'print("row ", 1 + 2 + 3)\n', b"main {\n"),
    "sums": (b"print " + SUM + b";\n", b"print(" + SUM + b")\n", b"main {\n"),
    "asyncs": (b"async{offer 1;}\n", b"with a(): offer(1)\n", b"main {\nlet s = finish sum {\n"),
    "finishes": (b"finish{async{}}\n", b"with a():\n with b(): pass\n", b"main {\n"),
}

# Texts that are read, checked or let go by functions that call themselves, as deep as the limits allow.
CHAIN = b"1" + b" + 1" * 1000
LEVELS = b"1 || 1 && 1 < 1 + 1 * "
DEEP = {
    "one brace": b"main {" + END,
    "32 braces": b"main {" + b"finish {" * 31 + b"}" * 31 + END,
    "31 parentheses": b"main { print " + b"(" * 31 + b"1" + b")" * 31 + b"; " + END,
    "31 `-at`, each behind an operator of each level": b'lines c from ""; main { print '
    + (LEVELS + b"-at(c, 1, ") * 31
    + b"1"
    + b")" * 31
    + b"; "
    + END,
    "1,000 `+`": b"main { print " + CHAIN + b"; " + END,
    "31 parentheses round 1,000 `+`": b"main { print " + b"(" * 31 + CHAIN + b")" * 31 + b"; " + END,
    "32 braces round 1,000 `+`": b"main {" + b"if 1 {" * 31 + b"let x = " + CHAIN + b"; " + b"}" * 31 + END,
}


def spd_text(kind, size):
    """A program of about `size` bytes of lines of a kind, with a function behind main."""
    line, _, head = KINDS[kind]
    tail = (b"}\n" if kind == "asyncs" else b"") + END
    return head + line * ((size - len(head) - len(tail)) // len(line)) + tail


def python_text(kind, size):
    """A Python text of about `size` bytes of lines of the same kind."""
    line = KINDS[kind][1]
    return line * (size // len(line))


def compiling(name, text):
    """The command by which CPython compiles a text."""
    return [sys.executable, "-c", f"compile(open({text_file(name, text)!r}).read(), 'x', 'exec')"]


def kind_rows(spd, kind, start, empty_kib):
    """The measurements of one kind of text."""
    half, whole = (elided(spd, f"{size}.sp", spd_text(kind, size)) for _, size in SIZES)
    took = medians({"half": half, "whole": whole}, 5, status=REFUSED)
    python = medians({"python": compiling("text.py", python_text(kind, SIZES[1][1]))}, 3)["python"]
    yield Row(f"reading 1 MB of {kind}", times(took["whole"] / took["half"]), "0.5 MB of the same")
    yield Row(f"reading 1 MB of {kind}", ratio(took["whole"], beyond(python, start), " times"), "CPython's `compile`")
    if empty_kib is not None:
        per_byte = (peak_kib(whole, REFUSED) - empty_kib) * 1024 / SIZES[1][1]
        yield Row(f"memory to read 1 MB of {kind}", f"{per_byte:.0f} bytes", "a byte of the text")


def rows(spd):
    """The rows of this measurement."""
    with working_folder():
        empty_kib = peak_kib(elided(spd, "empty.sp", b"main {\n" + END), REFUSED)
        start = medians({"python": [sys.executable, "-c", ""]}, 21)["python"]
        for kind in KINDS:
            yield from kind_rows(spd, kind, start, empty_kib)
        for what, text in DEEP.items():
            kib = smallest_stack_kib(elided(spd, "stack.sp", text), REFUSED)
            yield Row(f"smallest stack to read: {what}", f"{kib} KiB")


if __name__ == "__main__":
    alone(rows)
