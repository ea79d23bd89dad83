#!/usr/bin/env python3
"""Runs random programs on workers and compares each run with the program's serial elision.

    tools/stress_runs.py [PROGRAM [COUNT [SEED]]]     crates/spd/out/spd, 200 programs, seed 1

Run at the top of the repository, over the built program. Each program is elided once, and then run at each
number of workers and of moves below: what is written, what is told and the status must be the same. A
program nests finishes of each kind, asyncs, calls of functions and tasks, loops, branches, offers and
divisions that may fault. It ends by itself: a run that takes longer than the limit is told as one.
"""

import pathlib
import random
import subprocess
import sys
import tempfile

WORKERS = (1, 2, 3, 8, 64)
MOVES = (1, 2, 7, 64, 16384)
LIMIT = 60  # seconds for one run
KINDS = ("", " sum", " least", " greatest")


class Maker:
    """Makes programs. Each block knows its names, whether it may offer, and how deep it stands. Only main's blocks call:
    a function and a task call themselves where the program says so, and so a bounded number of times."""

    def __init__(self, seed):
        self.rng = random.Random(seed)
        self.calls = False

    def value(self, names):
        left = self.rng.choice(names) if names and self.rng.random() < 0.6 else str(self.rng.randrange(9))
        if self.rng.random() < 0.5:
            return left
        mark = self.rng.choice(["+", "-", "*", "/", "%"] if self.rng.random() < 0.2 else ["+", "-", "*"])
        return f"({left} {mark} {self.rng.randrange(4)})"

    def statement(self, names, depth, offers, number):
        """A statement, and the name that it binds."""
        rng, name = self.rng, f"v{number}"
        kind = rng.choice(["let", "if", "for", "async", "finish", "call", "run", "offer", "offer"])
        inside = lambda more, offer: self.block(names + more, depth - 1, offer, number)
        if depth == 0 and kind not in ("let", "offer", "call", "run"):
            kind = "let"
        if not offers and kind in ("async", "offer", "run") or not self.calls and kind in ("call", "run"):
            kind = "let"
        if kind == "if":
            return f"if {self.value(names)} < {self.value(names)} {inside([], offers)} else {inside([], offers)}", None
        if kind == "for":
            return f"for {name} in 0..{rng.randrange(4)} {inside([name], offers)}", None
        if kind == "async":
            return f"async {inside([], offers)}", None
        if kind == "finish":
            what = rng.choice(KINDS)
            return (f"let {name} = finish{what} {inside([], True)}", name) if what else (f"finish {inside([], True)}", None)
        if kind == "call":
            return f"let {name} = f({self.value(names)}, {rng.randrange(4)});", name
        if kind == "run":
            return f"run t({self.value(names)}, {rng.randrange(4)});", None
        if kind == "offer":
            return f"offer {self.value(names)};", None
        return f"let {name} = {self.value(names)};", name

    def block(self, names, depth, offers, number):
        said = []
        for place in range(self.rng.randrange(1, 4)):
            text, name = self.statement(names, depth, offers, number * 4 + place + 1)
            said.append(text)
            names = names + [name] if name else names
        return "{ " + " ".join(said) + " }"

    def program(self):
        function = "fn f(a, n) { if n < 1 { return a; } let s = finish sum %s let r = f(s, n - 1); return r + a; }\n"
        task = "task t(a, n) { if 0 < n { async { run t(a + 1, n - 1); } run t(a - 1, n - 1); } else %s offer a; }\n"
        self.calls = False
        items = function % self.block(["a", "n"], 1, True, 0) + task % self.block(["a", "n"], 1, True, 0)
        self.calls = True
        main = "".join(
            f"let m{i} = finish{self.rng.choice(KINDS[1:])} {self.block(['k'], 3, True, i)} print m{i};\n" for i in range(3)
        )
        return items + "main {\nlet k = 3;\n" + main + "}\n"


def answer(command):
    """The status of a command, what it writes and what it tells."""
    try:
        done = subprocess.run(command, capture_output=True, timeout=LIMIT, check=False)
    except subprocess.TimeoutExpired:
        return f"no end within {LIMIT} seconds"
    return done.returncode, done.stdout, done.stderr


def main():
    words = sys.argv[1:] + [None] * 3
    spd = str(pathlib.Path(words[0] or "crates/spd/out/spd").resolve())
    count, seed = int(words[1] or 200), int(words[2] or 1)
    maker, statuses, differing = Maker(seed), {}, 0
    with tempfile.TemporaryDirectory() as folder:
        path = pathlib.Path(folder, "program.sp")
        for number in range(count):
            path.write_text(maker.program())
            expected = answer([spd, "elide", str(path)])
            statuses[expected[0]] = statuses.get(expected[0], 0) + 1
            workers, moves = maker.rng.choice(WORKERS), maker.rng.choice(MOVES)
            found = answer([spd, "run", str(path), "--workers", str(workers), "--moves", str(moves)])
            if found != expected:
                differing += 1
                print(f"program {number}, {workers} workers, {moves} moves: {found}, not {expected}\n{path.read_text()}")
    print(f"{count} programs, of which {statuses} by status: {differing} runs differ from their elision")
    sys.exit(1 if differing else 0)


if __name__ == "__main__":
    main()
