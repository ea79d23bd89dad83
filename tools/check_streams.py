#!/usr/bin/env python3
"""Checks the built program over real files and streams.

Run at the top of the repository, after `rt ci`, or `rt run` in crates/spd: they leave the program in
crates/spd/out, and `rt ci` leaves it as each of two compilers builds it. Each row of ROWS is a command
line with what its streams are, and the status, the bytes on standard output and those on standard
error that must come. A stream that takes no bytes, or whose bytes can't be read again, has b"".

Root may read every file, so a row of a file that may not be read runs the program as another user.
"""

import dataclasses
import os
import pathlib
import resource
import shutil
import signal
import subprocess
import sys
import tempfile
import time

PROGRAMS = [pathlib.Path("crates/spd/out/spd"), pathlib.Path("crates/spd/out/spd.by-rattle")]
LONG = b"x" * 70_000
MOST = 1_048_576
SECONDS = 60

# The user that may read no file that is closed to others.
NOBODY = 65_534

# The greatest size of a data file, and the most entries of a column.
MOST_DATA = 67_108_864
MOST_ENTRIES = 1_000_000

# Enough to start in, and too little for some copies of a word of 100,000 bytes.
MEMORY = 262_144

# A program over two columns of a sheet.
SHEET = b'''column p: int from "%(file)s" field "Price, net"; column t: text from "%(file)s" field "Item";
main { print len(p), " ", p[0], " ", p[1], " ", p[0] + p[1]; if begins(t, 0, "A \\"g") == 0 { print 0; } }
'''

# The 10th number of Fibonacci, by a call that has 88 finishes, each with an async.
FIBONACCI = b"""fn fib(n) {
  if n < 2 { return n; }
  let r = finish sum {
    async { let a = fib(n - 1); offer a; }
    let b = fib(n - 2);
    offer b;
  }
  return r;
}
main { let x = fib(10); print x; }
"""

FILES = {
    b"a.sp": b'main { print "n=", 1+2; }\n',
    b"blank.sp ": b"main { print 4; }\n",
    b"empty.sp": b"",
    b"none.sp": b"main { }\n",
    b"three.sp": b'main { print "first"; print "second"; print "third"; }\n',
    b"long.sp": b'main { print "' + LONG + b'"; print 1; }\n',
    b"most.sp": b"main { print 8; }".ljust(MOST),
    b"more.sp": b"main { print 8; }".ljust(MOST + 1),
    "\u00e9.sp".encode(): b"main { print 5; }\n",
    b"bytes.sp": b"main {\n print \"\xff\";\n}\n",
    b"folder.sp/a:b.sp": b"main { }\n}\n",
    b"late.sp": b"main {\n let z = 0;\n print 7;\n print 7 / z;\n}\n",
    b"early.sp": b"main {\n let z = 0;\n print 7 % z;\n}\n",
    b"column.sp": b'lines l from"l.txt";main{print len( l );}\n',
    b"l.txt": b"a\r\n\nb",
    b"sheet.sp": SHEET % {b"file": b"sheet.csv"},
    b"sheet.csv": b'Item,"Price, net"\n"A ""good"" one",7\nB,-4\n',
    b"excel.sp": SHEET % {b"file": b"excel.csv"},
    b"excel.csv": b'\xef\xbb\xbfItem,"Price, net"\r\n"A ""good"" one",7\r\nB,-4\r\n',
    b"of_folder.sp": b'lines l from "folder.sp"; main { }\n',
    b"of_empty.sp": b'column c: int from "empty.sp" field "c"; main { }\n',
    b"stray.sp": b"main {\n print x;\n}\n",
    b"wide.sp": b"main{" + b"print 1;" * 10_000 + b"}",
    b"large.sp": b'column n: int from "large.csv" field "n";\nmain { let s = 0; for i in 0..len(n) { s = s + n[i]; } print len(n), " ", s; }\n',
    b"many.sp": b'column n: int from "many.csv" field "n"; main { print 1; }\n',
    b"huge.sp": b'lines l from "huge.txt"; main { print 1; }\n',
    b"of_pipe.sp": b'lines l from "pipe.txt"; main { print len(l), size(l, 2); }\n',
    b"of_empty_pipe.sp": b'column n: int from "pipe.csv" field "n"; main { }\n',
    b"sums.sp": b"main { let s = finish sum { for i in 0..100 { async { offer i; } } } print s; }\n",
    b"closed.sp": b"main { print 1; }\n",
    b"of_closed.sp": b'lines l from "closed.txt"; main { print 1; }\n',
    b"closed.txt": b"a\n",
    b"fib.sp": FIBONACCI,
    b"counted.sp": b"main {\n finish { async { } }\n print 1;\n let z = 0;\n print 1 / z;\n}\n",
    # A job has files of its own, and doesn't read these.
    b"job.sp": b"main { print 0; }\n",
    b"job.csv": b"id,price,name\n0,1000000,item-0\n",
}

# Files that only their owner could open, who may not read them.
UNREADABLE = [b"closed.sp", b"closed.txt"]

# The canonical texts of some of them.
PLAIN = b'main {\n  print "n=", 1 + 2;\n}\n'
LATE = b"main {\n  let z = 0;\n  print 7;\n  print 7 / z;\n}\n"
COLUMN = b'lines l from "l.txt";\nmain {\n  print len(l);\n}\n'
WIDE = b"main {\n" + b"  print 1;\n" * 10_000 + b"}\n"
FILES[b"plain.sp"] = PLAIN

# Programs with a fault, each with the line that tells it beside it. One that faults only as it runs has
# beside it what it writes before.
FAULTS = sorted(pathlib.Path("examples/faults").glob("*.sp"))
FILES |= {os.fsencode(it.name): it.read_bytes() for it in FAULTS}
FILES |= {os.fsencode(it.name): it.read_bytes() for it in pathlib.Path("examples/data").iterdir()}

# What a stream is: a pipe that is read whole, closed, a device that is full, a pipe that nobody
# reads, a pipe that is read in small parts while the program is stopped and goes on, a file, or a
# file that has bytes, behind which it writes.
PIPE, CLOSED, FULL, GONE, SLOW, FILE, APPENDED = "pipe closed full gone slow file appended".split()

# Made files, by the rule for their rows. The largest is 18,675,804 bytes long: 14 of the header, 8 of each row beside its
# three numbers, and 5,888,890 digits of the ids, 2,890,000 of the prices and 1,896,900 of the items' numbers.
def made(rows, seed):
    """A header, and a row i with a price and one of 97 items."""
    return b"id,price,name\n" + b"".join(b"%d,%d,item-%d\n" % (i, (i * 7919 + seed) % 1000, i % 97) for i in range(rows))


THREE_ROWS = b"id,price,name\n0,5,item-0\n1,924,item-1\n2,843,item-2\n"
LARGEST = made(1_000_000, 4_294_967_295)
assert made(3, 5) == THREE_ROWS
assert len(LARGEST) == 18_675_804 and LARGEST.endswith(b"\n999999,376,item-26\n")

# The prices of five rows from seed 1 are 1, 920, 839, 758 and 677, and those of a thousand from seed 5 the numbers below 1,000.
OF_FIVE = b"rows 5\nsum 3195\nleast 1\ngreatest 920\n"
OF_THOUSAND = b"rows 1000\nsum 499500\nleast 0\ngreatest 999\n"

BEFORE = b"before\n"
THREE = b"first\nsecond\nthird\n"


@dataclasses.dataclass
class Row:
    """A command line, its streams, and what must come of it."""

    what: str
    words: list
    status: int
    out: bytes = b""
    err: bytes = b""
    name: bytes = b"spd"
    out_is: str = PIPE
    err_is: str = PIPE
    most_bytes: int | None = None
    most_memory: int | None = None
    # Named pipes that lie in the folder, each with the file whose bytes come through it.
    pipes: dict = dataclasses.field(default_factory=dict)
    as_nobody: bool = False


REFUSED = b"spd: words refused\n"
NOT_WRITTEN = b"spd: write failed\n"

ROWS = [
    Row("a program", [b"elide", b"a.sp"], 0, b"n=3\n"),
    Row("a program that prints nothing", [b"elide", b"none.sp"], 0),
    Row("a fault of a run", [b"elide", b"late.sp"], 3, b"7\n", b"spd: late.sp:4: division by zero\n"),
    Row("a fault before the first print", [b"elide", b"early.sp"], 3, err=b"spd: early.sp:3: division by zero\n"),
    Row("a fault of the checks", [b"elide", b"stray.sp"], 1, err=b"spd: stray.sp:2: Unknown\n"),
    # Data files.
    Row("a lines item", [b"elide", b"column.sp"], 0, b"3\n"),
    Row("a sheet as LibreOffice writes it", [b"elide", b"sheet.sp"], 0, b"2 7 -4 3\n"),
    Row("a sheet as Excel writes it", [b"elide", b"excel.sp"], 0, b"2 7 -4 3\n"),
    Row("a folder as a data file", [b"elide", b"of_folder.sp"], 4, err=b"spd: folder.sp: read failed\n"),
    Row("an empty data file", [b"elide", b"of_empty.sp"], 6, err=b"spd: empty.sp:0: NoField\n"),
    Row("a line of a refused data file that err can't take", [b"elide", b"of_empty.sp"], 5, err_is=FULL),
    Row("a line of a missing data file that err can't take", [b"elide", b"of_folder.sp"], 4, err_is=FULL),
    Row("a sheet of 50 MB", [b"elide", b"large.sp"], 0, b"1000000 499999500000\n"),
    Row("a sheet of a record too many", [b"elide", b"many.sp"], 6, err=b"spd: many.csv:1000001: TooMany\n"),
    Row("a data file of a byte more than the greatest", [b"elide", b"huge.sp"], 6, err=b"spd: huge.txt:0: TooLong\n"),
    Row("a pipe as a data file", [b"elide", b"of_pipe.sp"], 0, b"31\n", pipes={b"pipe.txt": b"l.txt"}),
    Row("a pipe as a data file without a header", [b"elide", b"of_empty_pipe.sp"], 6, err=b"spd: pipe.csv:0: NoField\n", pipes={b"pipe.csv": b"empty.sp"}),
    Row("a pipe as a data file that gives a byte too many", [b"elide", b"of_pipe.sp"], 6, err=b"spd: pipe.txt:0: TooLong\n", pipes={b"pipe.txt": b"huge.txt"}),
    Row("a data file that may not be read", [b"elide", b"of_closed.sp"], 4, err=b"spd: closed.txt: read failed\n", as_nobody=True),
    # The canonical text.
    Row("a canonical text", [b"check", b"a.sp"], 0, PLAIN),
    Row("that of a canonical text", [b"check", b"plain.sp"], 0, PLAIN),
    Row("that of a program that faults in its run", [b"check", b"late.sp"], 0, LATE),
    Row("that of a program with a lines item", [b"check", b"column.sp"], 0, COLUMN),
    Row("that of a program that prints nothing", [b"check", b"none.sp"], 0, b"main {\n}\n"),
    Row("a long canonical text", [b"check", b"wide.sp"], 0, WIDE),
    Row("a fault of the checks under check", [b"check", b"stray.sp"], 1, err=b"spd: stray.sp:2: Unknown\n"),
    Row("a fault of tokens under check", [b"check", b"bytes.sp"], 1, err=b"spd: bytes.sp:2: BadByte\n"),
    Row("an empty file under check", [b"check", b"empty.sp"], 1, err=b"spd: empty.sp:1: NoMain\n"),
    Row("a file of a byte more under check", [b"check", b"more.sp"], 1, err=b"spd: more.sp: TooLong\n"),
    Row("a missing file under check", [b"check", b"missing.sp"], 4, err=b"spd: missing.sp: read failed\n"),
    Row("check without an operand", [b"check"], 2, err=REFUSED),
    Row("check with a word too many", [b"check", b"a.sp", b"a.sp"], 2, err=REFUSED),
    Row("check with an operand that is an option", [b"check", b"-a.sp"], 2, err=REFUSED),
    # Arguments.
    Row("no words", [], 2, err=REFUSED),
    Row("a word that isn't UTF-8", [b"elide", b"a.sp\xff"], 2, err=REFUSED),
    Row("a command that isn't UTF-8", [b"\xe9lide", b"a.sp"], 2, err=REFUSED),
    Row("a word too many that isn't UTF-8", [b"elide", b"a.sp", b"\xff"], 2, err=REFUSED),
    Row("an empty word too many", [b"elide", b"a.sp", b""], 2, err=REFUSED),
    Row("an empty operand", [b"elide", b""], 2, err=REFUSED),
    Row("a name of its own that isn't UTF-8", [b"elide", b"a.sp"], 0, b"n=3\n", name=b"\xffspd"),
    Row("an empty name of its own", [b"elide", b"a.sp"], 0, b"n=3\n", name=b""),
    Row("a word beyond ASCII", [b"elide", "\u00e9.sp".encode()], 0, b"5\n"),
    Row("a word of 256 bytes", [b"elide", b"./" * 126 + b"a.sp"], 0, b"n=3\n"),
    Row("a word of 1,000 bytes", [b"elide", b"./" * 498 + b"a.sp"], 0, b"n=3\n"),
    Row("a word of 100,000 bytes", [b"elide", b"y" * 100_000], 4, err=b"spd: " + b"y" * 100_000 + b": read failed\n"),
    Row("too little memory for a word", [b"elide", b"y" * 100_000], 7, err=b"spd: out of memory\n", most_memory=MEMORY),
    # Files.
    Row("a name with a blank at its end", [b"elide", b"blank.sp "], 0, b"4\n"),
    Row("that name without its blank", [b"elide", b"blank.sp"], 4, err=b"spd: blank.sp: read failed\n"),
    Row("a blank before a name", [b"elide", b" a.sp"], 4, err=b"spd:  a.sp: read failed\n"),
    Row("an empty file", [b"elide", b"empty.sp"], 1, err=b"spd: empty.sp:1: NoMain\n"),
    Row("a file that isn't ASCII", [b"elide", b"bytes.sp"], 1, err=b"spd: bytes.sp:2: BadByte\n"),
    Row("a fault in a folder's file", [b"elide", b"folder.sp/a:b.sp"], 1, err=b"spd: folder.sp/a:b.sp:2: Expected\n"),
    Row("a file of the greatest size", [b"elide", b"most.sp"], 0, b"8\n"),
    Row("a file of a byte more", [b"elide", b"more.sp"], 1, err=b"spd: more.sp: TooLong\n"),
    Row("a missing file", [b"elide", b"missing.sp"], 4, err=b"spd: missing.sp: read failed\n"),
    Row("a folder", [b"elide", b"folder"], 4, err=b"spd: folder: read failed\n"),
    Row("a pipe", [b"elide", b"pipe.sp"], 0, b"n=3\n", pipes={b"pipe.sp": b"a.sp"}),
    Row("a pipe that gives the greatest size", [b"elide", b"pipe.sp"], 0, b"8\n", pipes={b"pipe.sp": b"most.sp"}),
    Row("a pipe that gives a byte more", [b"elide", b"pipe.sp"], 1, err=b"spd: pipe.sp: TooLong\n", pipes={b"pipe.sp": b"more.sp"}),
    Row("a pipe that gives nothing", [b"elide", b"pipe.sp"], 1, err=b"spd: pipe.sp:1: NoMain\n", pipes={b"pipe.sp": b"empty.sp"}),
    Row("a file that may not be read", [b"elide", b"closed.sp"], 4, err=b"spd: closed.sp: read failed\n", as_nobody=True),
    Row("a name below a file", [b"elide", b"a.sp/b.sp"], 4, err=b"spd: a.sp/b.sp: read failed\n"),
    # Standard output.
    Row("a closed output", [b"elide", b"a.sp"], 5, err=NOT_WRITTEN, out_is=CLOSED),
    Row("a closed output that gets nothing", [b"elide", b"none.sp"], 0, out_is=CLOSED),
    Row("a full output", [b"elide", b"a.sp"], 5, err=NOT_WRITTEN, out_is=FULL),
    Row("an output that nobody reads", [b"elide", b"a.sp"], 5, err=NOT_WRITTEN, out_is=GONE),
    Row("a long string", [b"elide", b"long.sp"], 0, LONG + b"\n1\n"),
    Row("an output that is taken in parts", [b"elide", b"long.sp"], 0, LONG + b"\n1\n", out_is=SLOW),
    Row("a long string into a file", [b"elide", b"long.sp"], 0, LONG + b"\n1\n", out_is=FILE),
    Row("an output behind a file's bytes", [b"elide", b"a.sp"], 0, BEFORE + b"n=3\n", out_is=APPENDED),
    Row("a full output before a fault of a run", [b"elide", b"late.sp"], 5, err=NOT_WRITTEN, out_is=FULL),
    Row("a full output that a fault of a run gives nothing", [b"elide", b"early.sp"], 3, err=b"spd: early.sp:3: division by zero\n", out_is=FULL),
    Row("a full output under check", [b"check", b"a.sp"], 5, err=NOT_WRITTEN, out_is=FULL),
    Row("a closed output under check", [b"check", b"a.sp"], 5, err=NOT_WRITTEN, out_is=CLOSED),
    Row("an output that nobody reads under check", [b"check", b"wide.sp"], 5, err=NOT_WRITTEN, out_is=GONE),
    Row("a full output at a refused program under check", [b"check", b"stray.sp"], 1, err=b"spd: stray.sp:2: Unknown\n", out_is=FULL),
    Row("a canonical text that is taken in parts", [b"check", b"wide.sp"], 0, WIDE, out_is=SLOW),
    Row("a canonical text into a file", [b"check", b"wide.sp"], 0, WIDE, out_is=FILE),
    # A limit on the sizes of files.
    Row("a file that ends at its limit", [b"elide", b"three.sp"], 0, THREE, out_is=FILE, most_bytes=len(THREE)),
    Row("a file a byte too small", [b"elide", b"three.sp"], 5, THREE[:-1], NOT_WRITTEN, out_is=FILE, most_bytes=len(THREE) - 1),
    Row("a file that ends in a piece", [b"elide", b"three.sp"], 5, THREE[:10], NOT_WRITTEN, out_is=FILE, most_bytes=10),
    Row("a file that ends behind a piece", [b"elide", b"three.sp"], 5, THREE[:6], NOT_WRITTEN, out_is=FILE, most_bytes=6),
    Row("a file that may get nothing", [b"elide", b"three.sp"], 5, b"", NOT_WRITTEN, out_is=FILE, most_bytes=0),
    Row("a file a byte too small for a canonical text", [b"check", b"wide.sp"], 5, WIDE[:-1], NOT_WRITTEN, out_is=FILE, most_bytes=len(WIDE) - 1),
    Row("a file that ends in a canonical text", [b"check", b"wide.sp"], 5, WIDE[:20], NOT_WRITTEN, out_is=FILE, most_bytes=20),
    Row("a limit behind a file's bytes", [b"elide", b"three.sp"], 5, BEFORE + THREE[:2], NOT_WRITTEN, out_is=APPENDED, most_bytes=len(BEFORE) + 2),
    Row("a limit within a file's bytes", [b"elide", b"three.sp"], 5, BEFORE, NOT_WRITTEN, out_is=APPENDED, most_bytes=3),
    Row("a limit where no file is written", [b"elide", b"three.sp"], 0, THREE, most_bytes=0),
    Row("a limit in an error's line", [], 5, err=REFUSED[:5], err_is=FILE, most_bytes=5),
    Row("a limit in both streams", [b"elide", b"three.sp"], 5, THREE[:4], NOT_WRITTEN[:4], out_is=FILE, err_is=FILE, most_bytes=4),
    # Standard error.
    Row("a closed error stream", [], 5, err_is=CLOSED),
    Row("a full error stream", [], 5, err_is=FULL),
    Row("an error stream that nobody reads", [], 5, err_is=GONE),
    Row("a full error stream at a refused program", [b"elide", b"empty.sp"], 5, err_is=FULL),
    Row("a full error stream at a fault's line", [b"elide", b"bytes.sp"], 5, err_is=FULL),
    Row("a limit in a fault's line", [b"elide", b"bytes.sp"], 5, err=b"spd: bytes.sp:2", err_is=FILE, most_bytes=15),
    Row("a full error stream at a fault of a run", [b"elide", b"late.sp"], 5, b"7\n", err_is=FULL),
    Row("a closed error stream at a fault of a run", [b"elide", b"late.sp"], 5, b"7\n", err_is=CLOSED),
    Row("a limit in the line of a fault of a run", [b"elide", b"early.sp"], 5, err=b"spd: early.sp:3", err_is=FILE, most_bytes=15),
    Row("a full error stream at a refused program under check", [b"check", b"stray.sp"], 5, err_is=FULL),
    Row("a full error stream that check gives nothing", [b"check", b"a.sp"], 0, PLAIN, err_is=FULL),
    Row("two full streams under check", [b"check", b"a.sp"], 5, out_is=FULL, err_is=FULL),
    Row("a full error stream at a missing file", [b"elide", b"missing.sp"], 4, err_is=FULL),
    Row("a full error stream that gets nothing", [b"elide", b"a.sp"], 0, b"n=3\n", err_is=FULL),
    Row("two full streams", [b"elide", b"a.sp"], 5, out_is=FULL, err_is=FULL),
    Row("two closed streams", [b"elide", b"a.sp"], 5, out_is=CLOSED, err_is=CLOSED),
]


def row_of(example):
    """The row of an example of a fault under `elide`: what it writes is beside it where it faults only as it runs."""
    words, err = [b"elide", os.fsencode(example.name)], example.with_name(f"{example.name}.stderr").read_bytes()
    written = example.with_name(f"{example.name}.stdout")
    if written.exists():
        return Row(str(example), words, 3, written.read_bytes(), err)
    # A fault of a data file tells the file's name.
    of_program = err.startswith(b"spd: " + words[1] + b":")
    return Row(str(example), words, 1 if of_program else 4 if err.endswith(b": read failed\n") else 6, err=err)


def under_check(row):
    """The row of a refused program under `check`."""
    return dataclasses.replace(row, what=f"{row.what} under check", words=[b"check", row.words[1]])


def on_workers(row):
    """The row of an elision by `run`: on workers a program answers the same."""
    return dataclasses.replace(row, what=f"{row.what}, on workers", words=[b"run", *row.words[1:]])


OF_FAULTS = [row_of(it) for it in FAULTS]
ROWS += OF_FAULTS
ROWS += [on_workers(it) for it in ROWS if it.words[:1] == [b"elide"] and it.most_memory is None]
ROWS += [under_check(it) for it in OF_FAULTS if it.status == 1]
ROWS += [
    Row("64 workers within one move", [b"run", b"--workers", b"64", b"sums.sp", b"--moves", b"1"], 0, b"4950\n"),
    Row("one worker", [b"run", b"sums.sp", b"--workers", b"1"], 0, b"4950\n"),
    Row("no worker", [b"run", b"sums.sp", b"--workers", b"0"], 2, err=REFUSED),
    Row("a worker too many", [b"run", b"sums.sp", b"--workers", b"65"], 2, err=REFUSED),
    Row("an option without its value", [b"run", b"sums.sp", b"--workers"], 2, err=REFUSED),
    Row("an option twice", [b"run", b"sums.sp", b"--seed", b"1", b"--seed", b"1"], 2, err=REFUSED),
    Row("workers for an elision", [b"elide", b"sums.sp", b"--workers", b"1"], 2, err=REFUSED),
    # Made files.
    Row("a made file", [b"make", b"3", b"5"], 0, THREE_ROWS),
    Row("a made file of no row", [b"make", b"0", b"5"], 0, b"id,price,name\n"),
    Row("the largest made file", [b"make", b"1000000", b"4294967295"], 0, LARGEST),
    Row("a made file that is taken in parts", [b"make", b"10000", b"1"], 0, made(10_000, 1), out_is=SLOW),
    Row("a made file into a file", [b"make", b"3", b"5"], 0, THREE_ROWS, out_is=FILE),
    Row("a file a byte too small for a made one", [b"make", b"3", b"5"], 5, THREE_ROWS[:-1], NOT_WRITTEN, out_is=FILE, most_bytes=len(THREE_ROWS) - 1),
    Row("a row too many", [b"make", b"1000001", b"1"], 2, err=REFUSED),
    Row("a made file without a seed", [b"make", b"1"], 2, err=REFUSED),
    Row("less than no row", [b"make", b"-1", b"1"], 2, err=REFUSED),
    Row("a seed too great", [b"make", b"1", b"4294967296"], 2, err=REFUSED),
    Row("counts of a made file", [b"make", b"1", b"1", b"--counts"], 2, err=REFUSED),
    Row("a made file and a full output", [b"make", b"3", b"5"], 5, err=NOT_WRITTEN, out_is=FULL),
    Row("a made file and an output that nobody reads", [b"make", b"1000000", b"1"], 5, err=NOT_WRITTEN, out_is=GONE),
    Row("a made file and a full error stream", [b"make", b"3", b"5"], 0, THREE_ROWS, err_is=FULL),
    Row("a made file and two full streams", [b"make", b"3", b"5"], 5, out_is=FULL, err_is=FULL),
    Row("a refused made file and a full error stream", [b"make", b"1"], 5, err_is=FULL),
    # Jobs.
    Row("a job in a folder with such files", [b"job", b"5", b"1"], 0, OF_FIVE),
    Row("a job on one worker", [b"job", b"--workers", b"1", b"5", b"--seed", b"7", b"1"], 0, OF_FIVE),
    Row("a job of no row", [b"job", b"0", b"5"], 0, b"rows 0\nsum 0\nleast 9223372036854775807\ngreatest -9223372036854775808\n"),
    Row("a large job", [b"job", b"100000", b"5"], 0, b"rows 100000\nsum 49950000\nleast 0\ngreatest 999\n"),
    Row("a job of a row too many", [b"job", b"1000001", b"1"], 2, err=REFUSED),
    Row("a job of a file", [b"job", b"a.sp"], 2, err=REFUSED),
    Row("a job without a seed", [b"job", b"5"], 2, err=REFUSED),
    Row("a job and a full output", [b"job", b"5", b"1", b"--counts"], 5, err=NOT_WRITTEN, out_is=FULL),
    Row("a job into a file that is too small", [b"job", b"5", b"1", b"--counts"], 5, OF_FIVE[:20], NOT_WRITTEN, out_is=FILE, most_bytes=20),
    # Counts.
    Row("counts", [b"run", b"fib.sp", b"--counts"], 0, b"55\n", b"spd: regions 1, moves 177\n"),
    Row("counts on one worker", [b"run", b"--counts", b"fib.sp", b"--workers", b"1"], 0, b"55\n", b"spd: regions 1, moves 177\n"),
    Row("counts within one move", [b"run", b"fib.sp", b"--counts", b"--moves", b"1"], 0, b"55\n", b"spd: regions 1, moves 1\n"),
    Row("counts of no job", [b"run", b"a.sp", b"--counts"], 0, b"n=3\n", b"spd: regions 0, moves 0\n"),
    Row("counts before a fault", [b"run", b"counted.sp", b"--counts"], 3, b"1\n", b"spd: counted.sp:5: division by zero\n"),
    Row("counts of a refused program", [b"run", b"stray.sp", b"--counts"], 1, err=b"spd: stray.sp:2: Unknown\n"),
    Row("counts of a missing file", [b"run", b"missing.sp", b"--counts"], 4, err=b"spd: missing.sp: read failed\n"),
    Row("counts and a closed error stream", [b"run", b"fib.sp", b"--counts"], 5, b"55\n", err_is=CLOSED),
    Row("counts and a full error stream", [b"run", b"fib.sp", b"--counts"], 5, b"55\n", err_is=FULL),
    Row("a job's counts and an error stream that nobody reads", [b"job", b"5", b"1", b"--counts"], 5, OF_FIVE, err_is=GONE),
    Row("a limit in the line of counts", [b"run", b"fib.sp", b"--counts"], 5, b"55\n", b"spd: regions", err_is=FILE, most_bytes=12),
    Row("counts and a full output", [b"run", b"fib.sp", b"--counts"], 5, err=NOT_WRITTEN, out_is=FULL),
    Row("counts twice", [b"run", b"fib.sp", b"--counts", b"--counts"], 2, err=REFUSED),
    Row("counts with a value", [b"run", b"fib.sp", b"--counts=1"], 2, err=REFUSED),
    Row("counts of an elision", [b"elide", b"fib.sp", b"--counts"], 2, err=REFUSED),
]
# A job's sums by halves over 1,000 prices have 999 asyncs each, and a move of their own.
ROWS += [
    Row(
        f"a counted job by {workers} workers within {moves} moves",
        [b"job", b"1000", b"5", b"--counts", b"--workers", b"%d" % workers, b"--moves", b"%d" % moves],
        0,
        OF_THOUSAND,
        b"spd: regions 3, moves %d\n" % (3 * min(moves, 1000)),
    )
    for workers in (1, 2, 8, 64)
    for moves in (1, 100, 16_384)
]


def opened(is_what, at):
    """What `Popen` is to be given for a stream: a file object, a pipe of its own, or nothing."""
    if is_what in (PIPE, SLOW):
        return subprocess.PIPE
    if is_what == FULL:
        return open("/dev/full", "wb")
    if is_what == GONE:
        reads, writes = os.pipe()
        os.close(reads)
        return open(writes, "wb")
    if is_what == FILE:
        return open(at, "wb")
    if is_what == APPENDED:
        at.write_bytes(BEFORE)
        # In the mode "ab" the place would be the file's end before the program writes.
        return open(os.open(at, os.O_WRONLY | os.O_APPEND), "wb")
    return None


def prepare(row):
    """What the process does before the program: it closes streams, sets the limits, and becomes another user."""
    for at, is_what in ((1, row.out_is), (2, row.err_is)):
        if is_what == CLOSED:
            os.close(at)
    limits = ((resource.RLIMIT_CORE, 0), (resource.RLIMIT_FSIZE, row.most_bytes), (resource.RLIMIT_DATA, row.most_memory))
    for what, most in limits:
        if most is not None:
            resource.setrlimit(what, (most, resource.getrlimit(what)[1]))
    if row.as_nobody and os.geteuid() == 0:
        os.setgroups([])
        os.setgid(NOBODY)
        os.setuid(NOBODY)


def feed(folder, pipe, source):
    """The process that gives a file's bytes to a named pipe, which is made here, once somebody opens it."""
    os.mkfifo(folder / os.fsdecode(pipe))
    return subprocess.Popen(["sh", "-c", 'exec cat "$0" > "$1"', source, pipe], cwd=folder, stderr=subprocess.DEVNULL)


def wait_until_asleep(process):
    """Waits until the program sleeps, as in a write to a pipe that is full, or has ended."""
    stat = pathlib.Path(f"/proc/{process.pid}/stat")
    for _ in range(1000):
        if stat.read_bytes().rpartition(b") ")[2][:1] in (b"S", b"Z"):
            return
        time.sleep(0.01)


def read_slowly(process):
    """Reads standard output in small parts. Three times the program is stopped in its write, which so takes only a part."""
    got = b""
    while True:
        if len(got) < 3000:
            wait_until_asleep(process)
            process.send_signal(signal.SIGSTOP)
            process.send_signal(signal.SIGCONT)
        part = os.read(process.stdout.fileno(), 1000)
        if not part:
            return got
        got += part


def run(row, folder):
    """The status and the bytes that came: less than 0 where a signal ended the program."""
    files = [folder / "out", folder / "err"]
    streams = [opened(is_what, at) for is_what, at in zip((row.out_is, row.err_is), files)]
    feeders = [feed(folder, pipe, source) for pipe, source in row.pipes.items()]
    process = subprocess.Popen(
        [row.name, *row.words],
        executable=folder / "program",
        cwd=folder,
        stdin=subprocess.DEVNULL,
        stdout=streams[0],
        stderr=streams[1],
        preexec_fn=lambda: prepare(row),
    )
    try:
        slow = read_slowly(process) if row.out_is == SLOW else b""
        out, err = process.communicate(timeout=SECONDS)
    finally:
        process.kill()
        for feeder, pipe in zip(feeders, row.pipes):
            feeder.kill()
            feeder.wait()
            os.unlink(folder / os.fsdecode(pipe))
    got = [slow + (out or b""), err or b""]
    for at, (is_what, stream, file) in enumerate(zip((row.out_is, row.err_is), streams, files)):
        if is_what in (FULL, GONE, FILE, APPENDED):
            stream.close()
        if is_what in (FILE, APPENDED):
            got[at] = file.read_bytes()
    return process.returncode, *got


def short(text):
    """Bytes as a fault shows them."""
    return repr(text if len(text) <= 60 else text[:30] + b" .. " + text[-26:])


def faults_of(program, folder):
    """What the rows gave that they should not. The program is run where each user may come to it."""
    shutil.copy(program, folder / "program")
    faults = []
    for row in ROWS:
        for what, got, wanted in zip(
            ("status", "standard output", "standard error"),
            run(row, folder),
            (row.status, row.out, row.err),
        ):
            if got != wanted:
                shown = [it if what == "status" else short(it) for it in (got, wanted)]
                faults.append(f"{program}: {row.what}: {what} {shown[0]}, and not {shown[1]}")
    return faults


def write_large_files(folder):
    """Data files at the limits, which are made here: 50 MB of a million records, one record more, and a byte too many."""
    records = (b"%d," % i for i in range(MOST_ENTRIES))
    (folder / "large.csv").write_bytes(b"n,note\n" + b"".join(it.ljust(49, b"x") + b"\n" for it in records))
    (folder / "many.csv").write_bytes(b"n\n" + b"7\n" * (MOST_ENTRIES + 1))
    with open(folder / "huge.txt", "wb") as file:
        file.truncate(MOST_DATA + 1)


def write_files(folder):
    """All files that the rows name."""
    folder.chmod(0o755)
    (folder / "folder").mkdir()
    for name, text in FILES.items():
        at = folder / os.fsdecode(name)
        at.parent.mkdir(exist_ok=True)
        at.write_bytes(text)
    for name in UNREADABLE:
        (folder / os.fsdecode(name)).chmod(0)
    write_large_files(folder)


def is_stale(program):
    """Whether a source is newer than the program."""
    built = program.stat().st_mtime
    return any(it.stat().st_mtime > built for it in pathlib.Path("crates").glob("*/src/**/*.rt"))


def main():
    programs = [it for it in PROGRAMS if it.exists()]
    faults = [f"{it}: a source is newer: run `rt ci` or `rt run`" for it in programs if is_stale(it)]
    if not programs:
        faults.append(f"{PROGRAMS[0]}: not built: run `rt ci`, or `rt run` in crates/spd")
    if not FAULTS:
        faults.append("examples/faults: no program was found")
    if {row.status for row in ROWS} != set(range(8)):
        faults.append("the rows don't have each of the statuses 0 to 7")
    if not faults:
        with tempfile.TemporaryDirectory(prefix="spd-streams-") as folder:
            folder = pathlib.Path(folder)
            write_files(folder)
            for program in programs:
                faults += faults_of(program, folder)
    for fault in faults:
        print(fault)
    if faults:
        sys.exit(1)
    print(f"streams: {len(ROWS)} rows came as expected, of {len(programs)} builds")


if __name__ == "__main__":
    main()
