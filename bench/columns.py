#!/usr/bin/env python3
"""Measures how `spd` reads columns of a million rows, and adds one up, in one run on this machine.

Usage: bench/columns.py [PROGRAM], where PROGRAM is the built program (crates/spd/out/spd if left out).

Beside it stand CPython with its `csv`, a program in Rust over the `csv` crate (bench/by_hand/columns.rs;
Debian's librust-csv-dev and a `cargo`), and for the sums LuaJIT and mawk, which cut lines at commas and know
no quotes. Times are processor time, so that other work on the machine counts in none: each is the median of
ROUNDS runs, one of each program a round. Start-up is counted in.

What it prints is a measurement of one run, and no promise.
"""

import os
import shutil
import sys

from measuring import (
    Row,
    alone,
    cargo_program,
    elided,
    medians,
    must_print,
    not_measured,
    peak_kib,
    text_file,
    times,
    working_folder,
)

ROWS = 1_000_000
ROUNDS = 3

# What each program wants that a machine may lack.
WANTS = {"Rust's `csv` by hand": "cargo or librust-csv-dev", "LuaJIT": "luajit", "mawk": "mawk"}

BY_CSV = "import csv\nrows = csv.reader(open('%s', newline=''))\nnext(rows)\nentries = [%s for row in rows]\n"
BY_LINES = "entries = open('rows.txt', 'rb').read().split(b'\\n')[:-1]\n"

# Each kind of column: its declaration, the file that it reads, and how Python and Rust read the same entries.
KINDS = {
    "an int column": (b'column c: int from "rows.csv" field "price";', "rows.csv", BY_CSV % ("rows.csv", "int(row[1])"), ["int", "rows.csv", "price"]),
    "a text column": (b'column c: text from "rows.csv" field "name";', "rows.csv", BY_CSV % ("rows.csv", "row[2]"), ["text", "rows.csv", "name"]),
    "a quoted text column": (b'column c: text from "quoted.csv" field "name";', "quoted.csv", BY_CSV % ("quoted.csv", "row[2]"), ["text", "quoted.csv", "name"]),
    "a lines file": (b'lines c from "rows.txt";', "rows.txt", BY_LINES, ["lines", "rows.txt"]),
}

BY_LOOP = b"main { let s = 0; for i in 0..len(c) { s = s + c[i]; } print s; }"
BY_HALVES = b"""task add(start, end) {
  if end - start == 1 { offer c[start]; } else {
    let middle = start + (end - start) / 2;
    async { run add(start, middle); }
    run add(middle, end);
  }
}
main { let s = finish sum { run add(0, len(c)); } print s; }"""

PYTHON_HALVES = """
def add(entries, start, end):
    if end - start == 1:
        return entries[start]
    middle = start + (end - start) // 2
    return add(entries, start, middle) + add(entries, middle, end)
print(add(entries, 0, len(entries)))
"""
PYTHON_LOOP = "s = 0\nfor entry in entries:\n    s += entry\nprint(s)\n"
LUA = """
local file = assert(io.open("rows.csv", "rb"))
local text = file:read("*a")
local entries, count = {}, -1
for price in text:gmatch("[^\\n,]*,([^\\n,]*)[^\\n]*\\n") do
  count = count + 1
  if count > 0 then entries[count] = tonumber(price) end
end
%s
print(string.format("%%d", s))
"""
LUA_LOOP = "local s = 0\nfor i = 1, count do s = s + entries[i] end"
LUA_HALVES = """
local function add(from, to)
  if to - from == 1 then return entries[from] end
  local middle = math.floor((from + to) / 2)
  return add(from, middle) + add(middle, to)
end
local s = add(1, count + 1)
"""
AWK = 'NR > 1 { s += $2 } END { printf "%d\\n", s }'


def numbers():
    """The rows of the files: an identity, a price and a number for the name."""
    return [(i, i * 7919 % 1000, i % 97) for i in range(ROWS)]


def write_files():
    """The files that the columns are read from."""
    entries = numbers()
    text_file("rows.csv", b"id,price,name\n" + b"".join(b"%d,%d,item-%d\n" % row for row in entries))
    text_file("quoted.csv", b"id,price,name\n" + b"".join(b'%d,%d,"item, ""%d"""\n' % row for row in entries))
    text_file("rows.txt", b"".join(b"item-%d\n" % row[2] for row in entries))


def beside(what, commands):
    """A row for each other command: the time of spd's, which is the first, by its own. One that is None isn't there."""
    took = medians({name: command for name, command in commands.items() if command}, ROUNDS)
    for name in list(commands)[1:]:
        if name in took:
            yield Row(what, times(took["spd"] / took[name]), name)
        else:
            yield not_measured(what, WANTS[name], name)


def column_rows(spd, rust):
    """The times and the memory of each kind of column."""
    empty_kib = peak_kib(elided(spd, "empty.sp", b"main { }"))
    for kind, (declaration, file, python, words) in KINDS.items():
        commands = {
            "spd": elided(spd, "column.sp", declaration + b"\nmain { }"),
            "CPython": [sys.executable, "-c", python],
            "Rust's `csv` by hand": [rust, *words] if rust else None,
        }
        yield from beside(f"reading {kind} of {ROWS:,} rows, {os.path.getsize(file) / 1e6:.0f} MB", commands)
        if empty_kib is not None:
            per_row = (peak_kib(commands["spd"]) - empty_kib) * 1024 / os.path.getsize(file)
            yield Row(f"memory for {kind}", times(per_row), "the bytes of its file")


def sum_rows(spd, rust):
    """The times of reading a column and adding it up, by a loop and by halves."""
    column, _, python, _ = KINDS["an int column"]
    lua, awk, total = shutil.which("luajit"), shutil.which("mawk"), str(sum(row[1] for row in numbers()))
    for way, text, python_way, lua_way in (
        ("loop", BY_LOOP, PYTHON_LOOP, LUA_LOOP),
        ("halves", BY_HALVES, PYTHON_HALVES, LUA_HALVES),
    ):
        commands = {
            "spd": elided(spd, f"{way}.sp", column + b"\n" + text),
            "CPython": [sys.executable, "-c", python + python_way],
            "Rust's `csv` by hand": [rust, way, "rows.csv", "price"] if rust else None,
            "LuaJIT": [lua, text_file(f"{way}.lua", (LUA % lua_way).encode())] if lua else None,
        }
        if way == "loop":
            commands["mawk"] = [awk, "-F,", AWK, "rows.csv"] if awk else None
        for command in filter(None, commands.values()):
            must_print(command, total)
        yield from beside(f"reading an int column and adding it up: {way}", commands)


def rows(spd):
    """The rows of this measurement."""
    with working_folder():
        write_files()
        rust = cargo_program("columns", "csv")
        yield from column_rows(spd, rust)
        yield from sum_rows(spd, rust)


if __name__ == "__main__":
    alone(rows)
