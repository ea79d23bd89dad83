#!/usr/bin/env python3
"""Measures `spd run` on 1, 2 and 4 workers beside `spd elide`, in one run on this machine.

Usage: bench/workers.py [PROGRAM], where PROGRAM is the built program (crates/spd/out/spd if left out). Times
are of the wall, medians of rounds in which each command has one turn; so nothing else should run on the
machine. bench/dag.py has the dags on which other schedulers stand beside it.

What it prints is a measurement of one run, and no promise.
"""

from measuring import Row, alone, medians, must_print, peak_kib, text_file, wall_seconds, with_workers, working_folder

ROUNDS = 5
WORKERS = (1, 2, 4)
ROWS = 1_000_000

SUM = b"""column p: int from "rows.csv" field "p";
task add(low, high) {
  if high - low <= 1000 {
    let s = 0;
    for i in low..high { s = s + p[i]; }
    offer s;
  } else {
    let middle = (low + high) / 2;
    async { run add(low, middle); }
    run add(middle, high);
  }
}
main { let s = finish sum { run add(0, len(p)); } print s; }
"""


def numbers():
    """The column."""
    return [i * 7919 % 1000 for i in range(ROWS)]


def programs():
    """Each program, by what it is, with what it prints."""
    return {
        "start and one call": (b"fn f(x) { return x; }\nmain { let x = f(1); print x; }\n", "1"),
        f"reading a column of {ROWS:,} rows and its sum by halves": (SUM, str(sum(numbers()))),
    }


def program_rows(spd, what, text, answer):
    """The rows of one program."""
    name = text_file("program.sp", text)
    commands = {0: [spd, "elide", name]} | {n: [spd, "run", name, "--workers", str(n)] for n in WORKERS}
    for command in commands.values():
        must_print(command, answer)
    took = medians(commands, ROUNDS, wall_seconds)
    yield Row(f"{what}: `run`", with_workers({n: f"{took[n] / took[0]:.2f}" for n in WORKERS}), "`spd elide`")
    kib = {n: peak_kib(command) for n, command in commands.items()}
    if kib[0] is not None:
        figures = with_workers({n: f"{kib[n] / kib[0]:.2f}" for n in WORKERS})
        yield Row(f"{what}: memory of `run`", figures, f"`spd elide`, {kib[0]} KiB")


def rows(spd):
    """The rows of this measurement."""
    with working_folder():
        text_file("rows.csv", b"p\n" + b"".join(b"%d\n" % number for number in numbers()))
        for what, (text, answer) in programs().items():
            yield from program_rows(spd, what, text, answer)


if __name__ == "__main__":
    alone(rows)
