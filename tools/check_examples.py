#!/usr/bin/env python3
"""Checks the examples: what each writes, and that the documents show them as they are.

Run at the top of the repository. Each examples/NAME.sp has examples/NAME.sp.stdout, the bytes that
`spd elide` and `spd run` must write for it, and each examples/canonical/NAME.sp has there what `spd check` must.
Each examples/faults/NAME.sp has NAME.sp.stderr, the line that tells of its fault; one that faults only
as it runs has NAME.sp.stdout too, what it writes before. tools/check_streams.py runs those of faults.
Where docs/language.md names an example before a block, that block is the program's text, and the
blocks behind it are what comes of it: see SHAPES. Each of examples/faults stands there.
"""

import pathlib
import re
import subprocess
import sys

EXAMPLES = pathlib.Path("examples")
CANONICAL = EXAMPLES / "canonical"
FAULTS = EXAMPLES / "faults"
# The data files that programs read, by their names alone.
DATA = sorted((EXAMPLES / "data").iterdir())

# A block of a document, and what stands in it.
BLOCK = r"```\n((?:(?!```).*\n)*)```\n"


def shape(folder, *words):
    """An example of a folder in the documents: its name, its text, and a block behind each of the words."""
    return re.compile(rf"`{folder}/(\w+\.sp)`\n\n{BLOCK}" + "".join(rf"\n{it}\n\n{BLOCK}" for it in words))


# Each shape, its folder, and the files that have what comes of its examples.
SHAPES = [
    (shape(EXAMPLES, "writes"), EXAMPLES, ["stdout"]),
    (shape(CANONICAL, "has the canonical text"), CANONICAL, ["stdout"]),
    (shape(FAULTS, "is refused with"), FAULTS, ["stderr"]),
    (shape(FAULTS, "writes", "and ends with"), FAULTS, ["stdout", "stderr"]),
]

# The folders whose examples end well, with the command that takes them.
RUNS = [(EXAMPLES, "elide"), (EXAMPLES, "run"), (CANONICAL, "check")]


def differing(folder, name, text, blocks, answers):
    """The faults of an example that the documents show with these blocks behind it."""
    if not (folder / name).exists():
        return [f"docs/language.md: {name} isn't in {folder}/"]
    faults = [] if text == (folder / name).read_text() else [f"docs/language.md: {name} isn't the program of {folder}/"]
    for block, answer in zip(blocks, answers):
        if block != (folder / f"{name}.{answer}").read_text():
            faults.append(f"docs/language.md: the {answer} of {name} isn't that of {folder}/")
    return faults


def shown_as_they_are():
    """The faults of the documents' examples, and how many there are."""
    faults, shown = [], set()
    page = pathlib.Path("docs/language.md").read_text()
    for form, folder, answers in SHAPES:
        found = form.findall(page)
        shown |= {folder / name for name, *_ in found}
        for name, text, *blocks in found:
            faults += differing(folder, name, text, blocks, answers)
        if not found:
            faults.append(f"docs/language.md: no example of {folder}/ with its {answers} was found")
    named = {pathlib.Path(it) for it in re.findall(rf"`({EXAMPLES}/[\w/]+\.sp)`\n\n```\n", page)}
    faults += [f"docs/language.md: what comes of {it} isn't shown" for it in sorted(named - shown)]
    faults += [f"docs/language.md: {it} isn't shown" for it in sorted(set(FAULTS.glob("*.sp")) - shown)]
    return faults, len(shown)


def written_as_expected(folder, command):
    """The faults of a run of each example of a folder, and how many there are."""
    programs = sorted(folder.glob("*.sp"))
    faults = [f"{p}: no {p.name}.stdout" for p in programs if not p.with_name(f"{p.name}.stdout").exists()]
    given = [word for it in DATA for word in ("--data", f"{it.name}=../../{it}")]
    run = subprocess.run(
        ["rt", "try", "--cases", f"../../{folder}", *given, "--", command, "{}"],
        cwd="crates/spd",
        capture_output=True,
        text=True,
    )
    report = run.stdout + run.stderr
    for program in programs:
        case = f"case={program.name} run=ended status=0 "
        if not any(l.startswith(case) and " output=expected " in l for l in report.splitlines()):
            faults.append(f"{program}: not what {program.name}.stdout has")
    if faults:
        faults.append(report)
    return faults, len(programs)


def main():
    faults, shown = shown_as_they_are()
    ran = 0
    for folder, command in RUNS:
        run_faults, count = written_as_expected(folder, command)
        faults += run_faults
        ran += count
    for fault in faults:
        print(fault)
    if faults:
        sys.exit(1)
    print(f"examples: {ran} ran as expected, {shown} stand in the documents as they are")


if __name__ == "__main__":
    main()
