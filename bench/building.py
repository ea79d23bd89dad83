#!/usr/bin/env python3
"""Counts what the house itself takes: lines of code, definitions and proofs, edits and tests.

Usage: bench/building.py [LOG], where LOG is what `rt ci` printed, if there is one. Wants no built program.

What it prints are counts of the files as they stand, and of what the log says was proved and passed in its run.
A log of `rt ci` has no times: `time .ci/run` says what the whole took.
"""

import pathlib
import re
import sys

from measuring import TOP, Row, alone, times

# What is counted in lines that aren't blank, and where it stands below a crate's folder. A crate whose name ends
# in `_tests`, and a file `tests.rt`, are tests.
KINDS = {"code": "src/**/*.rt", "definitions": "specs/**/*.antt", "proofs": "proofs/**/*.antt"}


def is_test(path):
    """Whether a file is of tests alone."""
    return path.name == "tests.rt" or path.relative_to(TOP / "crates").parts[0].endswith("_tests")


def lines_of(path):
    """How many lines of a file aren't blank."""
    return sum(1 for line in path.read_text().splitlines() if line.strip())


def lines_in(pattern, tests):
    """How many such lines the files of a pattern have, of tests or of the rest."""
    files = (path for path in (TOP / "crates").glob(f"*/{pattern}") if "out" not in path.parts)
    return sum(lines_of(path) for path in files if is_test(path) == tests)


def log_rows(log):
    """What a log of `rt ci` says."""
    text = pathlib.Path(log).read_text(errors="replace")
    functions = sum(map(int, re.findall(r"^logic=proved functions=(\d+)", text, re.M)))
    passed = sum(map(int, re.findall(r"^test result: ok\. (\d+) passed", text, re.M)))
    yield Row("functions that the run of the log proved", f"{functions:,}")
    yield Row("tests that passed in it", f"{passed:,}")
    for line in re.findall(r"^\d+ passed, \d+ failed.*$", text, re.M)[-1:]:
        yield Row("its last line", line.split(" (")[0])


def rows(_spd=None, log=None):
    """The rows of this count."""
    lines = {kind: lines_in(pattern, False) for kind, pattern in KINDS.items()}
    yield Row("crates", f"{sum(1 for path in (TOP / 'crates').iterdir() if path.is_dir())}")
    yield Row("lines of code, with their contracts", f"{lines['code']:,}")
    for kind in ("definitions", "proofs"):
        yield Row(f"lines of {kind}", f"{lines[kind]:,}, {times(lines[kind] / lines['code'])}", "the lines of code")
    tests = lines_in(KINDS["code"], True)
    yield Row("lines of tests", f"{tests:,}, {times(tests / lines['code'])}", "the lines of code")
    named = sum(path.read_text().count("#[test]") for path in (TOP / "crates").glob("*/src/**/*.rt"))
    yield Row("tests; must-fail edits", f"{named:,}; {len(list((TOP / 'crates').glob('*/must-fail/*.edit'))):,}")
    if log:
        yield from log_rows(log)


if __name__ == "__main__":
    alone(lambda log: rows(log=log), sys.argv[1] if len(sys.argv) > 1 else "")
