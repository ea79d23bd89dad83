#!/usr/bin/env python3
"""Refuses each request for memory of a run in turn, and checks what the run then answers.

    tools/refuse_memory.py [PROGRAM]     crates/spd/out/spd if left out

Run at the top of the repository, over the built program, on Linux with gcc. Each program below runs on each number
of workers once for k = 1, 2, .. up to the first run that makes fewer than k requests; the request of number k is
refused. A run must answer what it answers with ample memory; or else the status 7 with its line, and then a first
part of the bytes may stand on standard output.

Requests are the calls of malloc and its kin, of mmap and of pthread_create that the C library's own names serve, as
a small library counts them that is loaded before it. gcc builds it in a folder that is removed at the end. Where a
thread can't be started the caller does its work, so such a refusal may give the right answer.
"""

import collections
import os
import pathlib
import struct
import subprocess
import sys
import tempfile

WORKERS = (1, 2)
LIMIT = 60  # seconds for one run
WANT = (7, b"spd: out of memory\n")

LIBRARY = r"""
#define _GNU_SOURCE
#include <dlfcn.h>
#include <errno.h>
#include <fcntl.h>
#include <pthread.h>
#include <stdatomic.h>
#include <stdlib.h>
#include <sys/mman.h>
#include <sys/syscall.h>
#include <unistd.h>

void *__libc_malloc(size_t), *__libc_calloc(size_t, size_t);
void *__libc_realloc(void *, size_t), *__libc_memalign(size_t, size_t);

// How many requests were made, and how many refused: a file that is read once the run has ended.
static _Atomic long *counts;
static long number;
static int (*create)(pthread_t *, const pthread_attr_t *, void *(*)(void *), void *);

__attribute__((constructor)) static void begin(void) {
    *(void **)&create = dlsym(RTLD_NEXT, "pthread_create");
    int file = open(getenv("REFUSE_COUNTS"), O_RDWR);
    number = atol(getenv("REFUSE_NUMBER"));
    counts = (void *)syscall(SYS_mmap, NULL, 2 * sizeof(long), PROT_READ | PROT_WRITE, MAP_SHARED, file, 0L);
    close(file);
}

static int is_refused(void) {
    if (!counts || atomic_fetch_add(&counts[0], 1) + 1 != number) return 0;
    atomic_fetch_add(&counts[1], 1);
    errno = ENOMEM;
    return 1;
}

void *malloc(size_t n) { return is_refused() ? NULL : __libc_malloc(n); }
void *calloc(size_t n, size_t m) { return is_refused() ? NULL : __libc_calloc(n, m); }
void *realloc(void *p, size_t n) { return is_refused() ? NULL : __libc_realloc(p, n); }
void *memalign(size_t a, size_t n) { return is_refused() ? NULL : __libc_memalign(a, n); }
void *aligned_alloc(size_t a, size_t n) { return is_refused() ? NULL : __libc_memalign(a, n); }
int posix_memalign(void **p, size_t a, size_t n) {
    void *it = is_refused() ? NULL : __libc_memalign(a, n);
    if (it) *p = it;
    return it ? 0 : ENOMEM;
}
void *mmap(void *p, size_t n, int protection, int flags, int file, off_t place) {
    return is_refused() ? MAP_FAILED : (void *)syscall(SYS_mmap, p, n, protection, flags, file, place);
}
int pthread_create(pthread_t *t, const pthread_attr_t *a, void *(*f)(void *), void *p) {
    return is_refused() ? EAGAIN : create(t, a, f, p);
}
"""

DATA = "id,price,name\n" + "".join(f'{i},{i * 7919 % 1000},"item, {i % 7}"\n' for i in range(24))

COLUMNS = """
column price: int from "data.csv" field "price";
column name: text from "data.csv" field "name";
lines line from "data.csv";
fn dearer(a, b) { if a < b { return b; } return a; }
task add(start, end) {
  if end - start == 1 {
    if same(name, start, "item, 3") { let p = dearer(price[start], 500); offer p; } else { offer price[start]; }
  } else {
    let middle = start + (end - start) / 2;
    async { run add(start, middle); }
    run add(middle, end);
  }
}
main {
  print "rows ", len(price), " of ", len(line), " lines";
  let s = finish sum { run add(0, len(price)); }
  print "sum ", s;
  let most = finish greatest {
    for i in 0..4 { async { let part = finish least { async { offer price[i]; } offer 9; } offer part; } }
  }
  print "greatest ", most;
}
"""
FAULTY = """
task look(n) { if n < 12 { async { run look(n + 1); } offer 100 / (9 - n); } }
main {
  print "first";
  let a = finish sum { for i in 0..5 { async { offer i; } } }
  print a;
  let b = finish sum { run look(0); }
  print b;
}
"""
PRINTS = "main { for i in 0..100 { print \"twice \", i, \" is \", i + i; } }\n"

Answer = collections.namedtuple("Answer", "status out err")


# What the tasks of the columns offer.
SUM = sum(max(i * 7919 % 1000, 500) if i % 7 == 3 else i * 7919 % 1000 for i in range(24))

# Each program with what it answers where memory is ample.
ROWS = {
    "columns": (COLUMNS, Answer(0, b"rows 24 of 25 lines\nsum %d\ngreatest 9\n" % SUM, b"")),
    "fault": (FAULTY, Answer(3, b"first\n10\n", b"spd: fault.sp:2: division by zero\n")),
    "prints": (PRINTS, Answer(0, b"".join(b"twice %d is %d\n" % (i, 2 * i) for i in range(100)), b"")),
}


def library(folder):
    """The library that refuses, built in a folder."""
    source, built = folder / "refuse.c", folder / "refuse.so"
    source.write_text(LIBRARY)
    subprocess.run(["gcc", "-O1", "-shared", "-fPIC", "-fno-builtin", "-o", built, source, "-ldl", "-pthread"], check=True)
    return built


def answer(command, folder, number):
    """What a command answers whose request of a number is refused, with how many it made and how many were refused."""
    counts = folder / "counts"
    counts.write_bytes(bytes(16))
    names = {"LD_PRELOAD": str(folder / "refuse.so"), "REFUSE_COUNTS": str(counts), "REFUSE_NUMBER": str(number)}
    try:
        done = subprocess.run(command, cwd=folder, env={**os.environ, **names}, capture_output=True, timeout=LIMIT, check=False)
    except subprocess.TimeoutExpired:
        return None, *struct.unpack("=qq", counts.read_bytes())
    return Answer(done.returncode, done.stdout, done.stderr), *struct.unpack("=qq", counts.read_bytes())


def is_lawful(found, expected):
    """Whether an answer is the right one, or want of memory behind a first part of its bytes."""
    return found == expected or found is not None and (found.status, found.err) == WANT and expected.out.startswith(found.out)


def refuse_each(name, command, folder, expected):
    """Refuses each request of a command in turn, and prints what it answered. Answers whether each answer is lawful."""
    kinds, fronts, bad, number, refused = collections.Counter(), set(), 0, 0, 1
    while refused:
        number += 1
        found, made, refused = answer(command, folder, number)
        if not is_lawful(found, expected) or not refused and found != expected:
            bad += 1
            print(f"{name}, request {number} of {made}: {found or f'no end within {LIMIT} seconds'}, expected {expected}")
        elif refused:
            kinds["the right answer" if found == expected else "want of memory"] += 1
            fronts.add(len(found.out))
    said = ", ".join(f"{count} times {kind}" for kind, count in kinds.items())
    said += f"; {len(fronts)} lengths on standard output; {bad} other answers"
    print(f"{name}: {number - 1} requests refused, one a run: {said}")
    return not bad


def main():
    spd = os.path.abspath(sys.argv[1] if len(sys.argv) > 1 else "crates/spd/out/spd")
    lawful = []
    with tempfile.TemporaryDirectory() as made:
        folder = pathlib.Path(made)
        library(folder)
        (folder / "data.csv").write_text(DATA)
        for name, (text, expected) in ROWS.items():
            (folder / f"{name}.sp").write_text(text)
            for workers in WORKERS:
                command = [spd, "run", f"{name}.sp", "--workers", str(workers), "--moves", "64"]
                lawful.append(refuse_each(f"{name} on {workers}", command, folder, expected))
    sys.exit(0 if all(lawful) else 1)


if __name__ == "__main__":
    main()
