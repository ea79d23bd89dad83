#!/usr/bin/env python3
"""Measures a loop, calls, asyncs and finishes of `spd elide` beside other languages, in one run on this machine.

Usage: bench/language.py [PROGRAM], where PROGRAM is the built program (crates/spd/out/spd if left out).
Beside it run lua5.4, luajit and perl (Debian's packages of these names) and this Python. Times are of the
processor, medians of rounds in which each language has one turn; from each the start of its program on
nothing is taken off.

What it prints is a measurement of one run, and no promise.
"""

import shutil
import sys

from measuring import (
    Row,
    alone,
    beyond,
    elided,
    medians,
    must_print,
    not_measured,
    peak_kib,
    ratio,
    text_file,
    times,
    working_folder,
)

ROUNDS = 5

TURNS = 10_000_000
CALLS = 5_000_000
ASYNCS = 200_000

# What each language is called, how a file of it is run, and its program that does nothing.
LANGUAGES = {
    "spd": ("sp", None, "main { }"),
    "CPython": ("py", [sys.executable], ""),
    "Lua": ("lua", ["lua5.4"], ""),
    "LuaJIT": ("lua", ["luajit"], ""),
    "Perl": ("pl", ["perl"], ""),
}

# What is measured: how often, what its result is, and it in each language. For an
# async and a finish the others have what stands nearest: see BESIDE.
CASES = {
    "turn of a loop": (
        TURNS,
        TURNS * (TURNS - 1) // 2,
        {
            "sp": "main { let s = 0; for i in 0..N { s = s + i; } print s; }",
            "py": "def main():\n s = 0\n for i in range(N):\n  s = s + i\n print(s)\nmain()",
            "lua": "local s = 0 for i = 0, N - 1 do s = s + i end print(string.format('%.0f', s))",
            "pl": "use integer; my $s = 0; for my $i (0 .. N - 1) { $s = $s + $i; } print \"$s\\n\";",
        },
    ),
    "call": (
        CALLS,
        CALLS,
        {
            "sp": "fn f(x) { return x + 1; }\n"
            "fn g(n) { let s = 0; for i in 0..n { let t = f(s); s = t; } return s; }\n"
            "main { let s = g(N); print s; }",
            "py": "def f(x):\n return x + 1\n"
            "def g(n):\n s = 0\n for i in range(n):\n  t = f(s)\n  s = t\n return s\nprint(g(N))",
            "lua": "local function f(x) return x + 1 end\n"
            "local function g(n) local s = 0 for i = 0, n - 1 do local t = f(s) s = t end return s end\n"
            "print(g(N))",
            "pl": "use integer; sub f { my ($x) = @_; return $x + 1; }\n"
            "sub g { my ($n) = @_; my $s = 0; for my $i (0 .. $n - 1) { my $t = f($s); $s = $t; } return $s; }\n"
            "print g(N), \"\\n\";",
        },
    ),
    # An async stands beside a closure that is made and called, and that adds to a variable outside it.
    "async": (
        ASYNCS,
        ASYNCS * (ASYNCS - 1) // 2,
        {
            "sp": "main { let s = finish sum { for i in 0..N { async { offer i; } } } print s; }",
            "py": "def main():\n s = 0\n for i in range(N):\n  def f():\n   nonlocal s\n   s = s + i\n  f()\n"
            " print(s)\nmain()",
            "lua": "local s = 0 for i = 0, N - 1 do local f = function() s = s + i end f() end "
            "print(string.format('%.0f', s))",
            "pl": "use integer; my $s = 0; for my $i (0 .. N - 1) { my $f = sub { $s = $s + $i; }; $f->(); } "
            "print \"$s\\n\";",
        },
    ),
    # A finish stands beside a closure that gathers in a variable of its own call.
    "finish": (
        ASYNCS,
        ASYNCS * (ASYNCS - 1) // 2,
        {
            "sp": "main { let s = finish sum { for i in 0..N { let x = finish sum { offer i; } offer x; } } print s; }",
            "py": "def main():\n s = 0\n for i in range(N):\n"
            "  def f():\n   t = 0\n   t = t + i\n   return t\n  x = f()\n  s = s + x\n print(s)\nmain()",
            "lua": "local s = 0 for i = 0, N - 1 do local f = function() local t = 0 t = t + i return t end "
            "local x = f() s = s + x end print(string.format('%.0f', s))",
            "pl": "use integer; my $s = 0; for my $i (0 .. N - 1) { my $f = sub { my $t = 0; $t = $t + $i; return $t; }; "
            "my $x = $f->(); $s = $s + $x; } print \"$s\\n\";",
        },
    ),
}

# What stands beside an async and a finish in the other languages.
BESIDE = {"async": ": a closure, made and called", "finish": ": a closure that gathers in a variable of its own"}

# A call of main itself, and one in a function.
CALL_TEXTS = {
    "main_calls": "fn f(x) { return x + 1; }\nmain { let s = 0; for i in 0..N { let t = f(s); s = t; } print s; }",
    "function_calls": CASES["call"][2]["sp"],
}

# Programs whose memory is not to grow with a number in them.
STEADY = {
    "turns": (TURNS // 10, "main { let s = 0; for i in 0..N { s = s + i; } }"),
    "prints": (TURNS // 100, "main { for i in 0..N { print i; } }"),
    "calls": (CALLS // 10, "fn f(x) { return x + 1; } main { for i in 0..N { let t = f(i); } }"),
    "asyncs": (ASYNCS, "main { finish { for i in 0..N { async { let x = i; } } } }"),
    "finishes": (ASYNCS, "main { for i in 0..N { finish { async { let x = i; } } } }"),
}


def command(spd, language, name, text):
    """How a program of a language is run, once it is a file of the working folder."""
    ending, runner, _ = LANGUAGES[language]
    if runner is None:
        return elided(spd, f"{name}.{ending}", text.encode())
    return [*runner, text_file(f"{name}.{ending}", text.encode())]


def case_runs(spd, case, languages):
    """The command of a case in each language that has it, once it is sure what each prints."""
    turns, result, programs = CASES[case]
    return {
        one: must_print(command(spd, one, f"case_{one}", programs[LANGUAGES[one][0]].replace("N", str(turns))), str(result))
        for one in languages
    }


def case_rows(spd, there, missing):
    """The time of each case in spd by that in each other language."""
    starts = medians({one: command(spd, one, f"nothing_{one}", LANGUAGES[one][2]) for one in there}, 4 * ROUNDS)
    for case in CASES:
        took = medians(case_runs(spd, case, there), ROUNDS)
        net = {one: beyond(took[one], starts[one]) for one in there}
        for one in there[1:]:
            yield Row(case, ratio(net["spd"], net[one], " times"), one + BESIDE.get(case, ""))
        for one in missing:
            yield not_measured(case, LANGUAGES[one][1][0], one + BESIDE.get(case, ""))


def call_of_main_row(spd):
    """A call that main makes itself is a job of its own, and stands beside one in a function."""
    main, function = (elided(spd, f"{name}.sp", text.replace("N", str(CALLS // 10)).encode()) for name, text in CALL_TEXTS.items())
    start = elided(spd, "nothing.sp", b"main { }")
    took = medians({"main": main, "function": function, "start": start}, ROUNDS)
    net = [beyond(took[name], took["start"]) for name in ("main", "function")]
    return Row("call in main", ratio(*net, " times"), "a call in a function")


def steady_rows(spd):
    """The peak memory at ten times the count, where it is not to grow."""
    for what, (turns, text) in STEADY.items():
        kib = [peak_kib(elided(spd, "steady.sp", text.replace("N", str(n)).encode())) for n in (turns // 10, turns)]
        name = f"peak memory: {turns:,} {what}"
        if kib[0] is None:
            yield not_measured(name, "package `time`")
        else:
            yield Row(name, times(kib[1] / kib[0]), f"{turns // 10:,} of them, {kib[0]} KiB")


def rows(spd):
    """The rows of this measurement."""
    there = [one for one, (_, runner, _) in LANGUAGES.items() if runner is None or shutil.which(runner[0])]
    missing = [one for one in LANGUAGES if one not in there]
    with working_folder():
        yield from case_rows(spd, there, missing)
        yield call_of_main_row(spd)
        yield from steady_rows(spd)


if __name__ == "__main__":
    alone(rows)
