#!/usr/bin/env python3
"""Measures `spd job 1000000 1` on 1, 2 and 4 workers beside the same program by its elision, LuaJIT and mawk.

Usage: bench/job.py [PROGRAM], where PROGRAM is the built program (crates/spd/out/spd if left out).

The others read the file that `spd make` writes, which the job makes for itself. LuaJIT and mawk cut lines at
commas and add up in one loop, where the program halves down to one row. Times are of the wall, medians of rounds
in which each command has one turn; so nothing else should run.

What it prints is a measurement of one run, and no promise.
"""

import shutil
import subprocess

from measuring import (
    Row,
    alone,
    elided,
    ended,
    medians,
    must_print,
    not_measured,
    peak_kib,
    printed,
    text_file,
    wall_seconds,
    with_workers,
    working_folder,
)

ROUNDS = 3
WORKERS = (1, 2, 4)
MOST_WORKERS = 64
ROWS, SEED = "1000000", "1"

# The built-in program, as docs/language.md has it.
PROGRAM = b"""column price: int from "job.csv" field "price";
task add(lo, hi) {
  if hi - lo < 2 {
    if lo < hi { offer price[lo]; }
  } else {
    let mid = (lo + hi) / 2;
    async { run add(lo, mid); }
    run add(mid, hi);
  }
}
main {
  print "rows ", len(price);
  let s = finish sum { run add(0, len(price)); }
  print "sum ", s;
  let l = finish least { run add(0, len(price)); }
  print "least ", l;
  let g = finish greatest { run add(0, len(price)); }
  print "greatest ", g;
}
"""
LUA = b"""
local file = assert(io.open("job.csv", "rb"))
local rows, sum, least, greatest = -1, 0, math.huge, -math.huge
for price in file:read("*a"):gmatch("[^\\n,]*,([^\\n,]*)[^\\n]*\\n") do
  rows = rows + 1
  if rows > 0 then
    local p = tonumber(price)
    sum, least, greatest = sum + p, math.min(least, p), math.max(greatest, p)
  end
end
print(string.format("rows %d\\nsum %d\\nleast %d\\ngreatest %d", rows, sum, least, greatest))
"""
AWK = """NR == 2 { least = greatest = $2 }
NR > 1 { sum += $2; if ($2 < least) least = $2; if ($2 > greatest) greatest = $2 }
END { printf "rows %d\\nsum %d\\nleast %d\\ngreatest %d\\n", NR - 1, sum, least, greatest }"""


def job(spd, workers):
    """The command of the job on so many workers."""
    return [spd, "job", ROWS, SEED, "--workers", str(workers)]


def others(spd):
    """What stands beside the job, over the made file; none where it isn't there."""
    with open("job.csv", "wb") as file:
        ended(subprocess.run([spd, "make", ROWS, SEED], stdout=file, check=False), 0)
    lua, awk = shutil.which("luajit"), shutil.which("mawk")
    return {
        "`spd elide` of the same program": elided(spd, "job.sp", PROGRAM),
        "LuaJIT": [lua, text_file("job.lua", LUA)] if lua else None,
        "mawk": [awk, "-F,", AWK, "job.csv"] if awk else None,
    }


def rows(spd):
    """The rows of this measurement."""
    what = f"`spd job {ROWS} {SEED}`"
    with working_folder():
        beside = others(spd)
        there = {name: command for name, command in beside.items() if command}
        answer = printed(there["`spd elide` of the same program"])
        commands = there | {n: job(spd, n) for n in WORKERS}
        took = medians({name: must_print(command, answer) for name, command in commands.items()}, ROUNDS, wall_seconds)
        for name in beside:
            if name in there:
                yield Row(what, with_workers({n: f"{took[n] / took[name]:.2f}" for n in WORKERS}), name)
            else:
                yield not_measured(what, name, name)
        few, many = peak_kib(job(spd, 1)), peak_kib(job(spd, MOST_WORKERS))
        if few is not None:
            yield Row(f"memory of the job with {MOST_WORKERS} workers", f"{many / few:.2f} times", f"with 1, {few} KiB")


if __name__ == "__main__":
    alone(rows)
