#!/usr/bin/env python3
"""Checks the rules of the house that no proof sees. Run at the top of the repository.

It refuses: a name that is defined in the specs of two crates, or in two files of one crate's; a clause
of more than 120 columns; a source file, a file of definitions or a file of lemmas that doesn't open
with a comment on what it is; a crate with lemmas whose proofs/Lib.antt doesn't open with a map; and a
crate that no table of the README or of docs/architecture.md has a row for.
"""

import collections
import pathlib
import re
import sys

CRATES = pathlib.Path("crates")
WIDEST_CLAUSE = 120
SHORTEST_MAP = 3
DEFINITION = re.compile(r"\s*(?:abbrev pub|unfoldable pub|pub record|pub data) ([^\s:({]+)")
TABLES = (pathlib.Path("README.md"), pathlib.Path("docs/architecture.md"))
CLAUSE = re.compile(r"\s*(?:requires|ensures)\b")


def definitions():
    """Each name that specs define, with the files that define it."""
    files = collections.defaultdict(set)
    for path in sorted(CRATES.glob("*/specs/*.antt")):
        for line in path.read_text().splitlines():
            found = DEFINITION.match(line)
            if found:
                files[found.group(1)].add(path)
    return files


def clashes():
    """A fault for each name with two meanings."""
    return [
        f"{name}: defined in {' and '.join(map(str, sorted(paths)))}"
        for name, paths in sorted(definitions().items())
        if len(paths) > 1
    ]


def clause_lines(text):
    """The lines that clauses stand on, each with its number."""
    open_braces = 0
    for number, line in enumerate(text.splitlines(), 1):
        if open_braces or CLAUSE.match(line):
            yield number, line
            open_braces += line.count("{") - line.count("}")


def wide_clauses():
    """A fault for each line of a clause that is too wide to be read."""
    return [
        f"{path}:{number}: a clause of {len(line)} columns; give the bundle a word in specs/"
        for path in sorted(CRATES.glob("*/src/**/*.rt"))
        for number, line in clause_lines(path.read_text())
        if len(line) > WIDEST_CLAUSE
    ]


def headless_files():
    """A fault for each file that doesn't say what it is."""
    sources = [(path, "//") for path in CRATES.glob("*/src/**/*.rt")]
    texts = [(p, "--") for folder in ("specs", "proofs") for p in CRATES.glob(f"*/{folder}/*.antt") if p.name != "Lib.antt"]
    return [
        f"{path}: doesn't open with a comment on what it is"
        for path, comment in sorted(sources + texts)
        if not path.read_text().startswith(comment)
    ]


def missing_maps():
    """A fault for each crate whose lemmas have no map."""
    faults = []
    for crate in sorted(CRATES.iterdir()):
        lemmas = [path for path in crate.glob("proofs/*.antt") if path.name != "Lib.antt"]
        lib = crate / "proofs" / "Lib.antt"
        head = lib.read_text().splitlines()[:SHORTEST_MAP] if lib.exists() else []
        if lemmas and not (len(head) == SHORTEST_MAP and all(line.startswith("--") for line in head)):
            faults.append(f"{lib}: doesn't open with a map of its lemmas")
    return faults


def in_tables(path):
    """The names in the first cells of a document's tables."""
    cells = (line.split("|")[1] for line in path.read_text().splitlines() if line.startswith("| `"))
    return {name for cell in cells for name in re.findall(r"`([^`]+)`", cell)}


def crates_without_rows():
    """A fault for each crate that a table leaves out."""
    return [
        f"{path}: no table has a row for {crate.name}"
        for path in TABLES
        for crate in sorted(CRATES.iterdir())
        if crate.name not in in_tables(path)
    ]


def main():
    faults = clashes() + wide_clauses() + headless_files() + missing_maps() + crates_without_rows()
    for fault in faults:
        print(fault)
    if faults:
        sys.exit(1)
    crates = len(list(CRATES.iterdir()))
    print(f"house: {crates} crates keep the rules, {len(definitions())} names have one meaning each")


if __name__ == "__main__":
    main()
