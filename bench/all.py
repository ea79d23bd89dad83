#!/usr/bin/env python3
"""Runs every measurement of this folder, and prints one Markdown table.

Usage: bench/all.py [PROGRAM], where PROGRAM is the built program (crates/spd/out/spd if left out; the README
says how it is built). CONTRIBUTING.md says what it wants installed; what isn't there has a row that says so.

What it prints are measurements of one run on one machine, and no promise.
"""

import datetime
import os
import platform
import re
import shutil
import subprocess
import sys

import building
import columns
import dag
import finishes
import first_path
import job
import language
import offers
import reading
import steps
import workers
from measuring import Row, program_path, show

# What each part of the table is about, and its rows.
PARTS = [
    ("The path of a program", first_path.rows),
    ("Reading a text", reading.rows),
    ("Asyncs and finishes of a text", finishes.rows),
    ("Loops, calls, asyncs and finishes beside other languages", language.rows),
    ("Columns", columns.rows),
    ("Workers", workers.rows),
    ("A job of a million rows", job.rows),
    ("The dag beside other schedulers", dag.rows),
    ("Steps of the dag", steps.rows),
    ("Offers", offers.rows),
    ("The house itself", building.rows),
]

# How each compared tool tells its version, and Debian's packages that have no command.
TOOLS = {
    "Lua": ["lua5.4", "-v"],
    "LuaJIT": ["luajit", "-v"],
    "Perl": ["perl", "-e", "print $^V"],
    "mawk": ["mawk", "-W", "version"],
    "Go": ["go", "version"],
    "g++": ["g++", "-dumpfullversion"],
    "rustc": ["rustc", "--version"],
    "valgrind": ["valgrind", "--version"],
}
PACKAGES = {"rayon": "librust-rayon-dev", "csv": "librust-csv-dev", "oneTBB": "libtbb-dev"}


def first_line(command):
    """The first line that a command prints, or none where it isn't there."""
    if not shutil.which(command[0]):
        return None
    done = subprocess.run(command, capture_output=True, text=True, check=False)
    return next(iter((done.stdout + done.stderr).splitlines()), None) if done.returncode == 0 else None


def number_in(line):
    """The version that a line names."""
    found = re.search(r"\d+(?:\.\d+)+\S*", line or "")
    return found.group(0).rstrip(",") if found else None


def versions():
    """The versions of what is compared with, and what isn't there."""
    found = {"CPython": platform.python_version()}
    found |= {tool: number_in(first_line(command)) for tool, command in TOOLS.items()}
    for tool, package in PACKAGES.items():
        found[tool] = number_in(first_line(["dpkg-query", "-W", "-f", "${Version}", package]))
    return ", ".join(f"{tool} {version}" if version else f"no {tool}" for tool, version in found.items())


def field_of(file, name):
    """What stands behind a name in a file of the system."""
    with open(file, encoding="utf-8") as lines:
        return next((line.split(":", 1)[1].strip() for line in lines if line.startswith(name)), "unknown")


def machine():
    """The machine, in one line."""
    memory = int(field_of("/proc/meminfo", "MemTotal").split()[0]) / (1 << 20)
    system = platform.freedesktop_os_release().get("PRETTY_NAME", "unknown")
    return (
        f"{field_of('/proc/cpuinfo', 'model name')}, {os.cpu_count()} processors, {memory:.0f} GiB, "
        f"{system}, Linux {platform.release()}"
    )


def print_head():
    """Prints what the table was measured on, and what it is worth."""
    load = os.getloadavg()[0]
    print(f"Measured on {datetime.date.today()}, on: {machine()}. Load of the minute before: {load:.1f}.\n")
    print(f"Compared with: {versions()}.\n")
    print("These are ratios of one run on one machine, and no promise. Below 1, spd takes less than what it stands beside.\n")
    if load > 0.5:
        print("Something else ran: the rows on workers, the job and the dag are of the wall, and say little.\n")


def main():
    spd, faults = program_path(), 0
    print_head()
    show([Row("what", "ratio or figure", "compared with"), Row("---", "---", "---")])
    for title, rows in PARTS:
        show([Row(f"**{title}**", "")])
        try:
            show(rows(spd))
        except SystemExit as fault:
            show([Row("the rest of this part", f"not measured: {fault}")])
            faults += 1
    sys.exit(1 if faults else 0)


if __name__ == "__main__":
    main()
