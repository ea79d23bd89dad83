#!/usr/bin/env python3
"""Measures `spd run` on 1, 2 and 4 workers beside other schedulers on the same dag, in one run on this machine.

Usage: bench/dag.py [PROGRAM], where PROGRAM is the built program (crates/spd/out/spd if left out).

Three dags: fib(20) by tasks in one finish, finishes of main one after another with an async each, and one
finish with many asyncs. Beside `spd run` stand `spd elide`, Go's goroutines, rayon's `scope`, oneTBB's
`task_group`, each on as many threads, and a flat counter by hand on one thread (bench/by_hand). Each is told
how often to do it, so that it outweighs its start, and what its program takes on nothing is taken off. Times
are of the wall, medians of rounds in which each command has one turn; so nothing else should run.

What it prints is a measurement of one run, and no promise.
"""

import shutil
from typing import NamedTuple

from measuring import (
    BY_HAND,
    Row,
    alone,
    beyond,
    built,
    cargo_program,
    elided,
    medians,
    must_print,
    not_measured,
    ratio,
    rust_program,
    text_file,
    wall_seconds,
    with_workers,
    working_folder,
)

ROUNDS = 5
WORKERS = (1, 2, 4)
ASYNCS = 100_000
FINISHES = 1_000
COUNTER = "a counter and closures by hand on one thread"

FIB = b"""task fib(n) {
  if n < 2 { offer n; } else { async { run fib(n - 1); } run fib(n - 2); }
}
main { let t = 0; for i in 0..TIMES { let s = finish sum { run fib(COUNT); } t = t + s; } print t; }
"""
MANY_FINISHES = b"main { let t = 0; for k in 0..TIMES { for i in 0..COUNT { finish { async { } } } t = t + COUNT; } print t; }\n"
MANY_ASYNCS = b"""main {
  let t = 0;
  for k in 0..TIMES { let s = finish sum { for i in 0..COUNT { async { offer i; } } } t = t + s; }
  print t;
}
"""


class Dag(NamedTuple):
    """A dag: its word and count for the other programs, how often spd and they do it, what one of it gives, and
    its text, name and number of moves (each region makes a table of so many), enough for each of its asyncs."""

    word: str
    count: int
    by_spd: int
    by_others: int
    gives: int
    text: bytes
    name: str
    moves: int = 16_384


DAGS = [
    Dag("fib", 20, 5, 100, 6765, FIB, "fib(20) by tasks in one finish"),
    Dag("finishes", FINISHES, 2, 500, FINISHES, MANY_FINISHES, f"{FINISHES:,} finishes of main, each with an async"),
    Dag("asyncs", ASYNCS, 1, 10, ASYNCS * (ASYNCS - 1) // 2, MANY_ASYNCS, f"one finish with {ASYNCS:,} asyncs", 131_072),
]


def others():
    """The other schedulers that can be built here, with their programs, and for the rest what is missing."""
    go, gxx = shutil.which("go"), shutil.which("g++")
    return {
        "Go's goroutines": (go and built([go, "build", "-o", "fib_go", str(BY_HAND / "fib.go")], "fib_go"), "go"),
        "rayon's `scope`": (cargo_program("fib_rayon", "rayon"), "cargo or librust-rayon-dev"),
        "oneTBB's `task_group`": (
            gxx and built([gxx, "-O2", "-std=c++17", "-o", "fib_tbb", str(BY_HAND / "fib_tbb.cpp"), "-ltbb"], "fib_tbb"),
            "g++ or libtbb-dev",
        ),
    }


def net_times(commands, gives):
    """The median time of one of what each command does, or none where that is too little to tell, by the command, the
    same on nothing, and how often."""
    runs = {}
    for name, (done, nothing, often) in commands.items():
        runs[name, "done"] = must_print(done, str(often * gives))
        runs[name, "nothing"] = nothing
    took = medians(runs, ROUNDS, wall_seconds)
    net = {name: beyond(took[name, "done"], took[name, "nothing"]) for name in commands}
    return {name: net[name] and net[name] / often for name, (_, _, often) in commands.items()}


def commands_of(spd, dag, there, counter):
    """The commands of a dag, each with the same on nothing, and how often it does it."""
    text = dag.text.replace(b"COUNT", str(dag.count).encode()).replace(b"TIMES", str(dag.by_spd).encode())
    files = text_file("dag.sp", text), text_file("nothing.sp", b"main { print 0; }\n")

    def of_spd(head, *tail):
        return *([spd, head, file, *tail] for file in files), dag.by_spd

    def of_other(program, *tail):
        return *([program, dag.word, str(dag.count), str(n), *tail] for n in (dag.by_others, 0)), dag.by_others

    commands = {("elide", 0): of_spd("elide")} | ({("counter", 1): of_other(counter)} if counter else {})
    for workers in WORKERS:
        commands["run", workers] = of_spd("run", "--workers", str(workers), "--moves", str(dag.moves))
        for name, program in there.items():
            commands[name, workers] = of_other(program, str(workers))
    return commands


def dag_rows(spd, dag, found, counter):
    """The rows of one dag."""
    there = {name: program for name, (program, _) in found.items() if program}
    took = net_times(commands_of(spd, dag, there, counter), dag.gives)
    what = f"{dag.name}: `run` by its workers"

    def by(other, threads=None):
        return with_workers({n: ratio(took["run", n], took[other, n if threads is None else threads]) for n in WORKERS})

    yield Row(what, by("elide", 0), "`spd elide`")
    for name, (_, wanted) in found.items():
        beside = f"{name} on as many threads"
        yield Row(what, by(name), beside) if name in there else not_measured(what, wanted, beside)
    if counter:
        yield Row(what, by("counter", 1), COUNTER)
        yield Row(f"{dag.name}: `elide`", ratio(took["elide", 0], took["counter", 1], " times"), COUNTER)
    else:
        yield not_measured(what, "rustc", COUNTER)


def rows(spd):
    """The rows of this measurement."""
    with working_folder():
        found, counter = others(), rust_program("counter")
        for dag in DAGS:
            yield from dag_rows(spd, dag, found, counter)


if __name__ == "__main__":
    alone(rows)
