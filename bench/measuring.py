"""What the measurements of this folder share: rows, commands with their times and instructions, and programs by hand."""

import contextlib
import os
import pathlib
import resource
import shutil
import statistics
import subprocess
import sys
import tempfile
import time
from typing import NamedTuple

TOP = pathlib.Path(__file__).resolve().parent.parent
BY_HAND = TOP / "bench" / "by_hand"
DEBIAN_CRATES = "/usr/share/cargo/registry"
BUILT = "crates/spd/out/spd"
TIME = "/usr/bin/time"


class Row(NamedTuple):
    """A row of the table: what was measured, the ratio or figure, and what that stands beside."""

    what: str
    figure: str
    beside: str = ""


def times(ratio):
    """How a ratio is printed."""
    return f"{ratio:.2f} times"


def with_workers(figures):
    """The figures of a row, each with its number of workers."""
    return ", ".join(f"{figure} with {workers}" for workers, figure in figures.items())


def beyond(took, start):
    """What a command takes beyond its start, or none where that is too little to tell."""
    return took - start if took > 1.1 * start else None


def ratio(ours, theirs, unit=""):
    """The ratio of what two commands take beyond their starts."""
    return "too little to tell" if ours is None or theirs is None else f"{ours / theirs:.2f}{unit}"


def not_measured(what, missing, beside=""):
    """The row of what wants a tool or a program that isn't there."""
    return Row(what, f"not measured: no {missing}", beside)


def show(rows):
    """Prints the rows of a Markdown table, each as soon as it is measured."""
    for row in rows:
        print("| " + " | ".join(cell.replace("|", "\\|") for cell in row) + " |", flush=True)


def program_path(place=1):
    """The built program: the argument at this place, or crates/spd/out/spd."""
    path = os.path.abspath(sys.argv[place]) if len(sys.argv) > place else str(TOP / BUILT)
    if not os.access(path, os.X_OK):
        raise SystemExit(f"{path} isn't there; `rt run` in crates/spd builds the program")
    return path


def alone(rows, program=None):
    """Prints what one script measures over the built program, or over another one."""
    program = program_path() if program is None else program
    print(f"load of the last minute: {os.getloadavg()[0]:.1f}, on {os.cpu_count()} processors\n")
    show([Row("what", "ratio or figure", "compared with"), Row("---", "---", "---")])
    show(rows(program))


@contextlib.contextmanager
def working_folder():
    """A new folder, in which what stands under this works, and which is gone behind it."""
    before = os.getcwd()
    with tempfile.TemporaryDirectory() as folder:
        os.chdir(folder)
        try:
            yield folder
        finally:
            os.chdir(before)


def text_file(name, text):
    """The name of a file of the working folder, once it has this text."""
    with open(name, "wb") as file:
        file.write(text)
    return name


def elided(spd, name, text):
    """The command that runs a program by its elision, once it is a file of the working folder."""
    return [spd, "elide", text_file(name, text)]


def ended(done, status):
    """A run, once it is sure that it ended with this status."""
    if done.returncode != status:
        raise SystemExit(f"{done.args}: status {done.returncode}, expected {status}")
    return done


def printed(command):
    """What a command prints, without the last line's end."""
    return ended(subprocess.run(command, stdout=subprocess.PIPE, text=True, check=False), 0).stdout.rstrip("\n")


def must_print(command, wanted):
    """A command, once it is sure what it prints."""
    if printed(command) != wanted:
        raise SystemExit(f"{command}: {printed(command)!r}, expected {wanted!r}")
    return command


def wall_seconds(command, status=0):
    """The wall time of one run of a command that ends with this status, in seconds."""
    start = time.perf_counter()
    done = subprocess.run(command, stdout=subprocess.DEVNULL, stderr=subprocess.DEVNULL, check=False)
    took = time.perf_counter() - start
    ended(done, status)
    return took


def processor_seconds(command, status=0):
    """The processor time of one run of a command that ends with this status, in seconds: what others do on
    the machine adds little to it."""
    with subprocess.Popen(command, stdout=subprocess.DEVNULL, stderr=subprocess.DEVNULL) as run:
        _, waited, used = os.wait4(run.pid, 0)
        run.returncode = os.waitstatus_to_exitcode(waited)
    ended(run, status)
    return used.ru_utime + used.ru_stime


def medians(commands, rounds, seconds=processor_seconds, status=0):
    """The median time of each command, by its name: a round is one run of each, so that what else the machine
    does meets all alike."""
    taken = {name: [] for name in commands}
    for _ in range(rounds):
        for name, command in commands.items():
            taken[name].append(seconds(command, status))
    return {name: statistics.median(of) for name, of in taken.items()}


def peak_kib(command, status=0):
    """The peak resident memory of a command that ends with this status, in KiB, by Debian's package `time`; none
    without it, since a child that Python starts counts what Python has."""
    if not os.access(TIME, os.X_OK):
        return None
    done = subprocess.run(
        [TIME, "-f", "%M", *command], stdout=subprocess.DEVNULL, stderr=subprocess.PIPE, text=True, check=False
    )
    return int(ended(done, status).stderr.split()[-1])


def peak(command, status=0):
    """The same as a figure of the table."""
    kib = peak_kib(command, status)
    return f"not measured: no {TIME}" if kib is None else f"{kib} KiB"


def smallest_stack_kib(command, status=0):
    """The smallest limit on the stack, in steps of 4 KiB, under which a command ends with this status."""

    def runs(kib):
        def limit():
            resource.setrlimit(resource.RLIMIT_STACK, (kib * 1024, kib * 1024))

        done = subprocess.run(
            command, stdout=subprocess.DEVNULL, stderr=subprocess.DEVNULL, preexec_fn=limit, check=False
        )
        return done.returncode == status

    low, high = 0, 8192
    if not runs(high):
        return None
    while high - low > 4:
        middle = (low + high) // 2 // 4 * 4
        if middle in (low, high):
            break
        if runs(middle):
            high = middle
        else:
            low = middle
    return high


def instructions(command):
    """How many instructions a command takes, by callgrind: the same whatever else the machine does."""
    counted = ["valgrind", "--tool=callgrind", "--callgrind-out-file=callgrind.out", *command]
    done = ended(subprocess.run(counted, capture_output=True, text=True, check=False), 0)
    line = next(line for line in done.stderr.splitlines() if "Collected" in line)
    return int(line.split()[-1])


def built(command, path):
    """The path of what a command builds in the working folder, or None where it fails."""
    done = subprocess.run(command, capture_output=True, check=False)
    return os.path.abspath(path) if done.returncode == 0 else None


def rust_program(name):
    """A program of one file of bench/by_hand in Rust, built in the working folder, or None."""
    source = str(BY_HAND / f"{name}.rs")
    return shutil.which("rustc") and built(["rustc", "--edition", "2021", "-O", "-o", name, source], name)


def cargo_program(name, crate):
    """The same over one crate of Debian's, or None where cargo or the crate isn't there."""
    if not shutil.which("cargo") or not any(pathlib.Path(DEBIAN_CRATES).glob(f"{crate}-[0-9]*")):
        return None
    project = pathlib.Path(f"cargo_{name}")
    for folder in ("src", ".cargo"):
        (project / folder).mkdir(parents=True, exist_ok=True)
    shutil.copy(BY_HAND / f"{name}.rs", project / "src" / "main.rs")
    package = f'[package]\nname = "{name}"\nversion = "0.1.0"\nedition = "2021"\n[dependencies]\n{crate} = "1"\n'
    source = f'[source.crates-io]\nreplace-with = "debian"\n[source.debian]\ndirectory = "{DEBIAN_CRATES}"\n'
    text_file(project / "Cargo.toml", package.encode())
    text_file(project / ".cargo" / "config.toml", source.encode())
    build = ["cargo", "build", "--release", "--offline", "--quiet"]
    done = subprocess.run(build, cwd=project, capture_output=True, check=False)
    return str((project / "target" / "release" / name).resolve()) if done.returncode == 0 else None
