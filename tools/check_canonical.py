#!/usr/bin/env python3
"""Runs the printer on generated programs. Run at the top of the repository.

It makes programs at random, each with two texts: one with blanks, comments, line ends and parentheses
strewn about, and the canonical one, which is written here by rules of its own and not by the product.
Then it runs the test of crates/spd_text_tests on them in a copy of the crates: what is read of the first
must be printed as the second, and what is read of the second too. Each program of examples/ is read,
printed, read again and printed again: both texts must be the same. Nothing is proved.

    tools/check_canonical.py [PROGRAMS [SEED]]     300 programs, seed 1
"""

import pathlib
import random
import re
import shutil
import subprocess
import sys
import tempfile

WORDS = """column int text from field lines fn task main let finish sum least greatest if else for in async
offer run return print len size at same begins""".split()
LEVELS = [["||"], ["&&"], ["==", "!=", "<", "<=", ">", ">="], ["+", "-"], ["*", "/", "%"]]
COMPARISONS = 2
UNARY, PRIMARY = 5, 6
GREATEST = 9223372036854775807
USED = ["spd_list", "spd_syntax", "spd_canonical", "spd_read", "spd_parse", "spd_text_tests"]
BATCH = 100


class Maker:
    """Makes trees; an expression is (level, parts), where a part is a token or a nested expression."""

    def __init__(self, seed):
        self.rng = random.Random(seed)

    def name(self):
        first = self.rng.choice(["a", "x", "_", "Z9", "int1", "format", "lets", "f_"])
        name = first + self.rng.choice(["", "0", "_b", "Q"])
        return name if name not in WORDS else name + "_"

    def number(self):
        return str(self.rng.choice([0, 1, 7, 42, 1000, GREATEST, self.rng.randrange(GREATEST)]))

    def string(self):
        letters = ['\\"', "\\\\", "#", " ", "a", "Z", "~", "{", ";", "0", "//"]
        return '"' + "".join(self.rng.choice(letters) for _ in range(self.rng.randrange(6))) + '"'

    def expr(self, depth):
        kind = self.rng.random()
        if depth <= 0 or kind < 0.25:
            return (PRIMARY, [self.number() if self.rng.random() < 0.5 else self.name()])
        if kind < 0.65:
            level = self.rng.randrange(len(LEVELS))
            return (level, [self.expr(depth - 1), self.rng.choice(LEVELS[level]), self.expr(depth - 1)])
        if kind < 0.8:
            return (UNARY, [self.rng.choice("-!"), self.expr(depth - 1)])
        return (PRIMARY, self.call(depth - 1))

    def call(self, depth):
        kind = self.rng.choice(["len", "size", "at", "same", "begins", "["])
        if kind == "[":
            return [self.name(), "[", self.expr(depth), "]"]
        parts = [kind, "(", self.name()]
        for _ in range({"len": 0, "size": 1, "at": 2, "same": 1, "begins": 1}[kind]):
            parts += [",", self.expr(depth)]
        if kind in ("same", "begins"):
            parts += [",", self.string()]
        return parts + [")"]

    def listed(self, make, least):
        count = self.rng.randrange(least, 4)
        parts = []
        for at in range(count):
            parts += ([","] if at else []) + [make()]
        return parts

    def args(self):
        return ["("] + self.listed(lambda: self.expr(2), 0) + [")"]

    def block(self, depth):
        return [self.stmt(depth - 1) for _ in range(self.rng.randrange(3))] if depth > 0 else []

    def stmt(self, depth):
        """A statement: its tokens, of which a block is a list."""
        kind = self.rng.choice("let call collect assign if for async finish offer run return print".split())
        name, value = self.name(), self.expr(4)
        if kind == "let":
            return ["let", name, "=", value, ";"]
        if kind == "call":
            return ["let", name, "=", self.name(), *self.args(), ";"]
        if kind == "collect":
            return ["let", name, "=", "finish", self.rng.choice(["sum", "least", "greatest"]), self.block(depth)]
        if kind == "assign":
            return [name, "=", value, ";"]
        if kind == "if":
            return ["if", value, self.block(depth), "else", self.block(depth)]
        if kind == "for":
            return ["for", name, "in", value, "..", self.expr(2), self.block(depth)]
        if kind in ("async", "finish"):
            return [kind, self.block(depth)]
        if kind == "run":
            return ["run", name, *self.args(), ";"]
        if kind == "print":
            part = lambda: self.string() if self.rng.random() < 0.4 else self.expr(3)
            return ["print", *self.listed(part, 1), ";"]
        return [kind, value, ";"]

    def item(self):
        kind = self.rng.choice("column lines fn task main main".split())
        if kind == "column":
            holds = self.rng.choice(["int", "text"])
            return ["column", self.name(), ":", holds, "from", self.string(), "field", self.string(), ";"]
        if kind == "lines":
            return ["lines", self.name(), "from", self.string(), ";"]
        head = [] if kind == "main" else [self.name(), "("] + self.listed(self.name, 0) + [")"]
        return [kind, *head, self.block(4)]


def canonical_expr(expr):
    """An expression on its line, with parentheses only where they are needed."""
    level, parts = expr
    if level == UNARY:
        return parts[0] + enclosed(parts[1], parts[1][0] < PRIMARY)
    if level < UNARY:
        left, op, right = parts
        left_needs = left[0] < level or (level == COMPARISONS and left[0] == COMPARISONS)
        return f"{enclosed(left, left_needs)} {op} {enclosed(right, right[0] <= level)}"
    return "".join(canonical_part(p) for p in parts)


def enclosed(expr, needed):
    text = canonical_expr(expr)
    return f"({text})" if needed else text


def canonical_part(part):
    if isinstance(part, tuple):
        return canonical_expr(part)
    return ", " if part == "," else part


def canonical_line(parts, indent):
    """The lines of a statement or an item."""
    text, called = "  " * indent, False
    for at, part in enumerate(parts):
        if isinstance(part, list):
            text += " {\n" + "".join(canonical_line(s, indent + 1) for s in part) + "  " * indent + "}"
            if parts[at + 1 : at + 2] == ["else"]:
                if not parts[at + 2]:
                    break
                text += " else"
        elif part == "else":
            pass
        elif part in ("(", ")", ",", ";", ":", ".."):
            text += part
        else:
            joined = at == 0 or parts[at - 1] in ("(", "..")
            text += ("" if joined else " ") + canonical_part(part)
    return text + "\n"


def tokens_of(parts, rng):
    """The tokens of parts, with parentheses where they are needed and where they may stand."""
    for part in parts:
        if isinstance(part, tuple):
            yield from expr_tokens(part, 0, rng)
        elif isinstance(part, list):
            yield "{"
            for stmt in part:
                yield from tokens_of(stmt, rng)
            yield "}"
        else:
            yield part


def expr_tokens(expr, least, rng):
    """The tokens of an expression where such a level may stand without parentheses."""
    level, parts = expr
    around = 1 if level < least else 0
    around += 1 if rng.random() < 0.15 else 0
    yield from ["("] * around
    if level == UNARY:
        yield parts[0]
        yield from expr_tokens(parts[1], PRIMARY, rng)
    elif level < UNARY:
        yield from expr_tokens(parts[0], level + (1 if level == COMPARISONS else 0), rng)
        yield parts[1]
        yield from expr_tokens(parts[2], level + 1, rng)
    else:
        yield from tokens_of(parts, rng)
    yield from [")"] * around


def strewn(tokens, rng):
    """A text of tokens, with blanks and comments where they may stand and where they must."""
    text = ""
    for token in tokens:
        may_join = not text or not (re.match(r"\w", token[0]) and re.match(r"\w", text[-1])) and not (
            text[-1] in "=!<>&|." and token[0] in "=&|."
        )
        gaps = ["", "", " ", "  ", "\n", "\t", "\r\n", "# x { \" ;\n"] if may_join else [" ", "\n", " # y\n"]
        text += rng.choice(gaps) + token
    return text + rng.choice(["", "\n", " # end"])


def rows(count, seed):
    """Texts with their canonical texts."""
    for at in range(count):
        maker = Maker(seed * 1_000_000 + at)
        items = [maker.item() for _ in range(maker.rng.randrange(1, 5))]
        yield strewn(tokens_of(items_parts(items), maker.rng), maker.rng), "".join(canonical_line(i, 0) for i in items)


def items_parts(items):
    return [part for item in items for part in item]


def literal(text):
    escapes = {"\n": "\\n", "\t": "\\t", "\r": "\\r", '"': '\\"', "\\": "\\\\"}
    return 'b"' + "".join(escapes.get(c, c) for c in text) + '"'


# A test that what programs are printed as is read and printed as the same.
LAW = """
#[test]
fn examples_are_read_again(rt: HostRuntime) -> Result<(), Fail> {
    for text in EXAMPLES {
        let printed = canonical(rt.alloc(), text)?;
        let again = canonical(rt.alloc(), &printed)?;
        assert_eq!(rt; again.as_slice(), printed.as_slice(), "of {text:?}");
    }
    Ok(())
}
"""


def examples():
    """The texts of the programs of examples/ that aren't refused."""
    return [p.read_text() for folder in ("examples", "examples/canonical") for p in sorted(pathlib.Path(folder).glob("*.sp"))]


def with_law(text, programs):
    """The tests of texts, with one more over these programs."""
    table = "".join(f"    {literal(p)},\n" for p in programs)
    return text + f"\nconst EXAMPLES: [&[u8]; {len(programs)}] = [\n{table}];\n{LAW}"


def with_rows(text, rows_of_batch):
    """The tests of texts, over these rows."""
    table = "".join(f"    ({literal(a)}, {literal(b)}),\n" for a, b in rows_of_batch)
    begin = text.index("const ROWS")
    end = text.index("];\n", begin) + 3
    head = f"const ROWS: [(&[u8], &[u8]); {len(rows_of_batch)}] = [\n"
    return text[:begin] + head + table + "];\n" + text[end:]


def run(top, change):
    """Runs the tests of texts, changed so, in a copy of the crates; what they wrote, where one failed or is missing."""
    source = top / "crates/spd_text_tests/src/printing.rt"
    text = source.read_text()
    source.write_text(change(text))
    tests = sum(p.read_text().count("#[test]") for p in source.parent.glob("*.rt"))
    done = subprocess.run(["rt", "try", "--test"], cwd=source.parent.parent, capture_output=True, text=True)
    source.write_text(text)
    fine = done.returncode == 0 and f" {tests} passed; 0 failed" in done.stdout
    return None if fine else done.stdout + done.stderr


def main():
    count = int(sys.argv[1]) if len(sys.argv) > 1 else 300
    seed = int(sys.argv[2]) if len(sys.argv) > 2 else 1
    made = list(rows(count, seed))
    with tempfile.TemporaryDirectory() as folder:
        top = pathlib.Path(folder)
        shutil.copy("crates.txt", top)
        for crate in USED:
            shutil.copytree(f"crates/{crate}", top / "crates" / crate, ignore=shutil.ignore_patterns("out"))
        kept = [line for line in (top / "crates.txt").read_text().splitlines() if line.split(":")[0] in USED]
        (top / "crates.txt").write_text("\n".join(kept) + "\n")
        programs = examples()
        fault = run(top, lambda text: with_law(text, programs))
        if fault:
            print(f"examples:\n{fault}")
            sys.exit(1)
        for at in range(0, len(made), BATCH):
            batch = made[at : at + BATCH]
            fault = run(top, lambda text: with_rows(text, batch))
            if fault:
                print(f"rows {at} to {at + BATCH} of seed {seed}:\n{fault}")
                sys.exit(1)
    print(f"canonical: {len(programs)} examples are read again as they are printed")
    print(f"canonical: {len(made)} programs of seed {seed} are printed as they must be, and read again")


if __name__ == "__main__":
    main()
