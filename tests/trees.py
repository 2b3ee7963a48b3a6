#!/usr/bin/env python3
"""The trees of `dump expression` for a table of expressions: their shape, names, constants and places against CPython's own `ast`, and
each refusal at the place that is written here.

The accepted texts are the productions of expressions with and without their optional parts, and each pair of operators beside each
other; the refused ones are each form that is left out, alone, nested and told late, syntax errors, and nestings one too deep. The rows
of `data/expressions.txt` are by hand.
"""

import ast
import itertools
import os
import subprocess
import sys

HERE = os.path.dirname(os.path.abspath(__file__))
sys.path.insert(0, os.path.join(HERE, "lib"))

from trees import Ours, Theirs, read_lines, without_places  # noqa: E402

DUMP = subprocess.run(
    [os.path.join(HERE, "..", "tools", "program"), "dump"], stdout=subprocess.PIPE, text=True, check=True
).stdout.strip()

# ---- what is accepted

ATOMS = [
    "a", "_x1", "é", "match", "0", "00", "1_000", "0xFf", "0o17", "0b101", "170141183460469231731687303715884105727", "True", "False", "None",
    "...", "'a'", '"a" \'b\'', "r'\\n'", "u'x'", "'\\x41\\u00e9'", "f''", "f'a'", "f'{a}'", "f'a{b}c{d}' 'e' f'{f}'", "'a' f'{b}'", "f'{{}}'",
    "()", "(a)", "((a))", "(a,)", "(a, b)", "(a, b,)", "a,", "a, b", "a, b,", "[]", "[a]", "[a,]", "[a, b]", "[a, b,]", "{}", "{a: b}",
    "{a: b,}", "{a: b, c: d}", "{a: b, c: d,}", "(a, (b, c), [d, {e: f}])",
]
CHAINS = [
    "a.b", "a.b.c", "a[b]", "a[b,]", "a[b, c]", "a[b][c]", "a()", "a(b)", "a(b,)", "a(b, c)", "a(b, c,)", "a(b=c)", "a(b=c,)",
    "a(b, c=d, e=f)", "a(super=b)", "a.super", "a.b(c).d[e].g(f)", "(a).b", "(a.b)(c)", "(a)(b)", "((a))(b)", "'x'.join(a)",
    "[a].b", "{}.b", "(a, b).c", "(a + b).c", "f'{a}'.b", "a(b if c else d)", "a((b, c))", "a(b == c)", "1 .b", "a.match(b)", "a.__init__",
    "a(b=c, b=d)",
]
LOOSE = [
    "a if b else c", "a if b else c if d else e", "(a if b else c) if d else e", "a if (b if c else d) else e", "not a", "not not a",
    "not a == b", "a ** -b ** c", "-a ** b", "(-a) ** b", "--a", "-+~a", "a < b < c", "a not in b", "a is not b", "a is b in c not in d",
    "a or b or c", "(a or b) or c", "a and b and c", "a or (b or c)", "a + b - c", "a - (b - c)", "a * b // c % d @ e / f", "a << b >> c",
    "not (a)", "(not a)", "(a) + b", "(a + b) * c", "(a) if b else c", "(a), b", "(a) < b", "(a) ** b", "(a) and b",
]
BINARY = ["or", "and", "<", "<=", ">", ">=", "==", "!=", "in", "not in", "is", "is not", "|", "^", "&", "<<", ">>", "+", "-", "*", "@", "/", "//", "%", "**"]
PREFIX = ["not ", "-", "+", "~"]


def accepted_texts():
    yield from ATOMS
    yield from CHAINS
    yield from LOOSE
    for one, other in itertools.product(BINARY, repeat=2):
        yield f"a {one} b {other} c"
    for prefix, operator in itertools.product(PREFIX, BINARY):
        yield f"{prefix}a {operator} b"
        if prefix != "not " or operator in ("or", "and"):
            yield f"a {operator} {prefix}b"
    for operator in BINARY:
        yield f"a {operator} b if c {operator} d else e {operator} f"
        yield f"(a {operator} b).c"
    for text in ["(\na,\n b)", "[ # x\n a,\n]", "a(\n  b, c =\n d)", "'a'\\\n 'b'"]:
        yield text


# ---- what is refused, and where

REFUSED = [
    # forms that are left out
    ("await a", "Unsupported(await) 1:1"),
    ("a + await b", "Unsupported(await) 1:5"),
    ("f(a, await b)", "Unsupported(await) 1:6"),
    ("lambda: a", "Unsupported(lambda) 1:1"),
    ("f(a, b=lambda x: x)", "Unsupported(lambda) 1:8"),
    ("a if b else lambda: c", "Unsupported(lambda) 1:13"),
    ("(a for a in b)", "Unsupported(comprehension) 1:1"),
    ("[a for a in b]", "Unsupported(comprehension) 1:1"),
    ("{a for a in b}", "Unsupported(comprehension) 1:1"),
    ("{a: b for a in c}", "Unsupported(comprehension) 1:1"),
    ("f(a for a in b)", "Unsupported(comprehension) 1:2"),
    ("[a async for a in b]", "Unsupported(comprehension) 1:1"),
    ("g([(a + b * c).d(e, f=g) for a in b])", "Unsupported(comprehension) 1:3"),
    ("(yield)", "Unsupported(yield) 1:2"),
    ("f((yield a))", "Unsupported(yield) 1:4"),
    ("(a := b)", "Unsupported(walrus) 1:2"),
    ("f(a := b)", "Unsupported(walrus) 1:3"),
    ("[a, b := c]", "Unsupported(walrus) 1:5"),
    ("f(*a)", "Unsupported(star) 1:3"),
    ("f(a, *b)", "Unsupported(star) 1:6"),
    ("f(**a)", "Unsupported(star) 1:3"),
    ("f(a=b, **c)", "Unsupported(star) 1:8"),
    ("[*a]", "Unsupported(star) 1:2"),
    ("(*a, b)", "Unsupported(star) 1:2"),
    ("{*a}", "Unsupported(star) 1:2"),
    ("{**a}", "Unsupported(star) 1:2"),
    ("super", "Unsupported(super) 1:1"),
    ("super().a", "Unsupported(super) 1:1"),
    ("f(super)", "Unsupported(super) 1:3"),
    ("super().__init__(a)", "Unsupported(super) 1:1"),
    ("a.__init__(b)", "Unsupported(init call) 1:1"),
    ("c(a.b.__init__(b))", "Unsupported(init call) 1:3"),
    ("__init__(b)", "Unsupported(init call) 1:1"),
    ("a()()", "Unsupported(callee) 1:1"),
    ("a[b](c)", "Unsupported(callee) 1:1"),
    ("(a + b)(c)", "Unsupported(callee) 1:1"),
    ("'a'(b)", "Unsupported(callee) 1:1"),
    ("x + a.b[c](d)", "Unsupported(callee) 1:5"),
    ("a[b:c]", "Unsupported(slice) 1:4"),
    ("a[:]", "Unsupported(slice) 1:3"),
    ("a[b:]", "Unsupported(slice) 1:4"),
    ("a[b, c:d]", "Unsupported(slice) 1:7"),
    ("b'a'", "Unsupported(bytes) 1:1"),
    ("f(b'a')", "Unsupported(bytes) 1:3"),
    ("1.5", "Unsupported(float) 1:1"),
    ("a + 1j", "Unsupported(float) 1:5"),
    ("{a}", "Unsupported(set) 1:1"),
    ("{a, b}", "Unsupported(set) 1:1"),
    ("f({a + b, c})", "Unsupported(set) 1:3"),
    # syntax at the beginning, in the middle and at the end
    (")", "Syntax 1:1"),
    ("a + * b", "Syntax 1:5"),
    ("a + )", "Syntax 1:5"),
    ("a +", "Syntax 1:4"),
    ("(a b)", "Syntax 1:4"),
    ("[a, , b]", "Syntax 1:5"),
    ("f(a=b, c)", "Syntax 1:9"),
    ("f(a, b for b in c)", "Syntax 1:8"),
    ("f(1=a)", "Syntax 1:4"),
    ("f((a)=b)", "Syntax 1:6"),
    ("{a: b, c}", "Syntax 1:9"),
    ("{a: }", "Syntax 1:5"),
    ("a if b", "Syntax 1:7"),
    ("a if b else", "Syntax 1:12"),
    ("a not b", "Syntax 1:7"),
    ("not", "Syntax 1:4"),
    ("a[]", "Syntax 1:3"),
    ("f'{}'", "Syntax 1:4"),
    ("f'{a b}'", "Syntax 1:6"),
    ("f(yield)", "Syntax 1:3"),
]

# what opens a nesting, what stands in it, what closes it, and the column of the opener behind that of the text
KINDS = [
    ("(", "a", ")", 1), ("[", "a", "]", 1), ("{1:", "a", "}", 1), ("f(", "a", ")", 2), ("a[", "a", "]", 2), ("-", "a", "", 1),
    ("~", "a", "", 1), ("not ", "a", "", 1), ("a**", "a", "", 2), ("a if b else ", "a", "", 8), ("f(x=", "a", ")", 2), ("(a, ", "a", ")", 1),
]


def printed(text):
    done = subprocess.run([DUMP, "expression"], input=text.encode("utf-8", "surrogatepass"), stdout=subprocess.PIPE, check=False)
    return done.returncode, done.stdout.decode("utf-8", "surrogatepass")


def accepted(text):
    """What is wrong with the tree of a text, or None. A tuple without parentheses isn't one expression, so it gets some."""
    value = ast.parse(text).body[0].value
    if isinstance(value, ast.Tuple) and not (text[0] == "(" and text[-1] == ")"):
        text = f"({text})"
    status, lines = printed(text)
    if status != 0:
        return f"refused: {lines.strip()}"
    ours = Ours()
    found = ours.module(lines)
    wanted = Theirs(text).module()
    if found != wanted:
        return f"found {found}, and not {wanted}"
    if len(set(ours.numbers)) != len(ours.numbers):
        return "two nodes have one number"
    return None


def refused(text, answer):
    status, lines = printed(text)
    wanted = f"fault {answer}\n"
    return None if (status, lines) == (1, wanted) else f"found {lines.strip()[:200]!r} with status {status}, and not {wanted.strip()!r}"


def rows():
    """The rows by hand, in their fields."""
    with open(os.path.join(HERE, "data", "expressions.txt"), encoding="utf-8") as file:
        for line in file:
            if not line.startswith("#"):
                yield line.rstrip("\n").split("\t")


def checked_row(kind, text, *answer):
    """What is wrong with the answer of a row, or None."""
    status, lines = printed(text)
    if kind == "fault":
        word, column = answer[0].rsplit(" ", 1)
        name = "Syntax" if word == "syntax" else f"Unsupported({word})"
        return None if (status, lines) == (1, f"fault {name} 1:{column}\n") else f"found {lines.strip()!r}"
    if kind == "run":
        ends = int(answer[0]) == len(text) + 1
        rest = lines.splitlines()[-1]
        return None if (status == 0 if ends else rest == f"rest 1:{answer[0]}") else f"found {rest!r}"
    status_of_other, others = printed(answer[0])
    if status or status_of_other:
        return f"found {lines!r} and {others!r}"
    return None if without_places(Ours().module(lines)) == without_places(Ours().module(others)) else "the trees differ"


def long_texts():
    """Long lists, each with the number of lines of its tree."""
    yield "a" + ".b" * 20_000, 20_003
    yield "a" + " + a" * 20_000, 2 + 40_001
    yield "f(" + "a, " * 20_000 + ")", 20_004
    yield "[" + "a, " * 20_000 + "]", 20_002
    yield "{" + "a: b, " * 20_000 + "}", 40_002
    yield "a" + " < a" * 20_000, 2 + 40_001
    yield "a" + " or a" * 20_000, 20_003
    yield "'a' " * 20_000, 2


def main():
    wrong, count = [], 0
    for text in accepted_texts():
        count += 1
        problem = accepted(text)
        if problem:
            wrong.append((text, problem))
    for text, answer in REFUSED:
        count += 1
        problem = refused(text, answer)
        if problem:
            wrong.append((text, problem))
    for row in rows():
        count += 1
        problem = checked_row(*row)
        if problem:
            wrong.append((row, problem))
    for opens, inner, closes, column in KINDS:
        count += 2
        problem = accepted(opens * 100 + inner + closes * 100)
        if problem:
            wrong.append((f"100 times {opens!r}", problem[:200]))
        problem = refused(opens * 101 + inner + closes * 101, f"TooDeep 1:{100 * len(opens) + column}")
        if problem:
            wrong.append((f"101 times {opens!r}", problem))
    for text, lines in long_texts():
        count += 1
        status, found = printed(text)
        if status != 0 or len(read_lines(found)) != 1 or found.count("\n") != lines:
            wrong.append((text[:20] + " ..", f"status {status}, {found.count(chr(10))} lines and not {lines}"))
    for text, problem in wrong:
        print(f"{text!r}: {problem}")
    print(f"trees: {count} texts, {len(wrong)} wrong")
    return 1 if wrong else 0


if __name__ == "__main__":
    sys.exit(main())
