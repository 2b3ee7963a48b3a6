#!/usr/bin/env python3
"""Random lines of Python's whole expression grammar, inside statements of the subset, against CPython's own tree.

The texts are made from fixed seeds, one each, so each run has the same. Of an accepted text `dump trees` must give CPython's tree, whole. A
refused one must be refused, by name and place, for the form that begins first of those that CPython's tree has and the subset leaves out,
however late on its line it is told; of two that begin at one token the inner one counts.

Then lines of the same kind are cut off at a random token, or lose it, or get another one before it, so that CPython refuses them: the program
must refuse each of them too, at a place inside the text.
"""

import ast
import concurrent.futures
import io
import os
import random
import re
import subprocess
import sys
import tokenize
import warnings

HERE = os.path.dirname(os.path.abspath(__file__))
sys.path.insert(0, os.path.join(HERE, "lib"))

from left_out import left_out  # noqa: E402
from real_python import judge  # noqa: E402
from trees import Theirs  # noqa: E402

WHOLE, BROKEN = 1_500, 500

ATOMS = ["a", "b", "é", "x", "1", "None", "'s'", "'ß' 's'", "...", "()", "[]", "{}", "a.b", "__init__", "a.__init__", "f'{x}'", "'é' f's{a}{b}'"]
LEFT_ATOMS = ["b'x'", "rb'x' b'y'", "1.5", "2j", "super", "super()", "a.__init__(b)", "__init__()"]
OPERATORS = [
    "+", "-", "*", "/", "//", "%", "@", "<<", ">>", "&", "|", "^", "**", "<", ">", "<=", ">=", "==", "!=", "in", "not in", "is", "is not", "and",
    "or", "and not", "or not",
]
TARGETS = ["x", "x,", "x, y", "(x, y)", "x.y", "x[y]", "[x, y]", "*x, y"]
INSERTED = [
    "a", "1", "1.5", "'s'", "b's'", "f'{a}'", "(", ")", "[", "]", "{", "}", ",", ":", ";", ".", "...", "=", ":=", "==", "+=", "->", "*", "**", "+",
    "~", "@", "!", "\\", "\n", "if", "else", "elif", "for", "async", "in", "is", "not", "and", "or", "lambda", "await", "yield", "from", "import",
    "def", "class", "return", "pass", "with", "try", "while", "del", "as", "None", "super", "match",
]
STATEMENTS = [
    "{0}", "q = {0}", "q = {0}, {1}", "q[{0}] = {1}", "q.r().s = {0}", "q, r = {0}", "(q, r) = {0}", "q += {0}", "q: {0} = {1}", "q.r: {0}",
    "q; r: {0} = {1}; s", "if {0}: q = {1}\nelif {2}: r\nelse: {3}", "while {0}: break; q = {1}", "for p, q in {0}, {1}: r\n",
    "for p in {0}:\n    continue", "assert {0}, {1}", "def f(p, q={0}): return {1}", "def f(p: {0}, q: {1} = {2}) -> {3}:\n    return {0}, {1}",
    "from m import (n as o, p); {0}", "@d(1, k='s')\nclass C(a.b):\n    p: {0} = {1}\n    q = {2}\n",
]
LEFT_STATEMENTS = [
    "yield {0}", "q = yield from {0}", "q += yield", "*q, r = {0}", "q = *a, {0}", "for p in *a, {0}: q", "if q := {0}: r", "while q := {0}: r",
    "def f(*p: {0}, q={1}): r", "def f(p={0}, **q): r", "q = r = {0}",
]


class Line:
    """A random line, from the seed alone: how often a part is taken that the subset leaves out, and how many operands still may have parts."""

    def __init__(self, seed):
        self.random = random.Random(seed)
        self.left = self.random.choice([0, 0.4, 0.7, 1])
        self.rest = self.random.randint(3, 25)

    def chance(self, share):
        return self.random.random() < share

    def one(self, *makers):
        """One of several parts, of which only the chosen one is made."""
        return self.random.choice(makers)()

    def join(self, parts):
        """Parts with commas between them, which only stand inside brackets, so lines may end there."""
        text = ""
        for number, part in enumerate(parts):
            text += (self.random.choice([", ", ", ", ", ", ",", ",\n  ", ", # b\n"]) if number else "") + part
        return text

    def some(self, maker, depth, least=0):
        return [maker(depth) for _ in range(self.random.randint(least, 3))]

    def statement(self):
        depth = self.random.randint(2, 6)
        form = self.random.choice(LEFT_STATEMENTS if self.chance(self.left * 0.1) else STATEMENTS)
        return form.format(*[self.expression(depth) for _ in set(re.findall(r"\{\d\}", form))])

    def expression(self, depth):
        if depth > 0 and self.chance(0.12):
            return f"{self.operation(depth - 1)} if {self.operation(depth - 1)} else {self.expression(depth - 1)}"
        return self.function(depth) if self.chance(self.left * 0.08) else self.operation(depth)

    def function(self, depth):
        parameters = self.random.choice(["", " x", " x, y={0}", " *x, y", " x, /, y", " **x", " *, x={0}", " x={0}, *y, **z"])
        return f"lambda{parameters.format(self.random.choice(ATOMS))}: {self.expression(depth - 1)}"

    def operation(self, depth):
        if depth <= 0 or self.chance(0.5):
            return self.operand(depth)
        text = self.random.choice(["", "", "", "not "]) + self.operand(depth - 1)
        for _ in range(self.random.choice([0, 1, 1, 2, 3])):
            text += f" {self.random.choice(OPERATORS)} {self.operand(depth - 1)}"
        return text

    def operand(self, depth):
        signs = self.random.choice(["-", "+", "~", "--"]) if self.chance(0.1) else ""
        return signs + ("await " if self.chance(self.left * 0.05) else "") + self.primary(depth)

    def primary(self, depth):
        self.rest -= 1
        depth = depth if self.rest > 0 else 0
        text = self.atom(depth)
        for _ in range(self.random.choice([0, 0, 1, 1, 2, 3]) if depth > 0 else 0):
            text += self.one(
                lambda: self.random.choice([".m", ".super", ".__init__"]),
                lambda: f".m({self.arguments(depth - 1)})",
                lambda: f"[{self.join(self.some(self.index, depth - 1, 1))}]",
                lambda: f"({self.arguments(depth - 1)})" if self.chance(self.left * 0.5) else ".n",
            )
            if self.chance(0.1):
                text = f"({text})"
        return text

    def atom(self, depth):
        if depth <= 0 or self.chance(0.3):
            return self.random.choice(LEFT_ATOMS if self.chance(self.left * 0.2) else ATOMS)
        if self.chance(self.left * 0.5):
            return self.left_display(depth - 1)
        return self.one(
            lambda: f"({self.item(depth - 1)})",
            lambda: f"({self.join([self.item(depth - 1), *self.some(self.item, depth - 1)])},)",
            lambda: f"[{self.join(self.some(self.item, depth - 1))}]",
            lambda: f"f({self.arguments(depth - 1)})",
            lambda: f"{{{self.join(self.some(self.pair, depth - 1))}}}",
            lambda: f"f's{{{self.field(depth - 1)}}}' 's'",
        )

    def left_display(self, depth):
        return self.one(
            lambda: f"[{self.item(depth)}{self.clauses(depth)}]",
            lambda: f"({self.item(depth)}{self.clauses(depth)})",
            lambda: f"{{{self.item(depth)}{self.clauses(depth)}}}",
            lambda: f"{{{self.pair(depth)}{self.clauses(depth)}}}",
            lambda: f"{{{self.join(self.some(self.item, depth, 1))}}}",
            lambda: f"({self.random.choice(['yield', 'yield *a,', 'yield from'])} {self.expression(depth)})",
        )

    def clauses(self, depth):
        text = ""
        for _ in range(self.random.choice([1, 1, 1, 2])):
            text += self.random.choice([" for ", " for ", "\n for ", " async for "]) + f"{self.random.choice(TARGETS)} in {self.operation(depth - 1)}"
            text += f" if {self.operation(depth - 1)}" if self.chance(0.3) else ""
        return text

    def item(self, depth):
        """An item of a display, or an argument, with a star or a name before it or without."""
        before = self.random.choice(["*", "x := "]) if self.chance(self.left * 0.15) else ""
        return before + (self.primary(depth) if before == "*" else self.expression(depth))

    def pair(self, depth):
        return f"**{self.primary(depth)}" if self.chance(self.left * 0.15) else f"{self.expression(depth)}: {self.expression(depth)}"

    def field(self, depth):
        """The expression of a field of a formatted string, in which not every token may stand."""
        text = self.expression(depth)
        return "x" if re.search(r"['\"{}!:#\n]", text) else text

    def index(self, depth):
        if not self.chance(self.left * 0.4):
            return self.item(depth)
        return ":".join([self.one(str, lambda: self.expression(depth)) for _ in range(self.random.choice([2, 2, 3]))])

    def arguments(self, depth):
        if self.chance(self.left * 0.1):
            return self.item(depth) + self.clauses(depth)
        names = self.random.sample(["k", "super", "__init__"], self.random.choice([0, 0, 1, 2]))
        named = [f"{name}={self.expression(depth)}" for name in names]
        stars = [f"**{self.expression(depth)}"] if self.chance(self.left * 0.1) else []
        return self.join([*self.some(self.item, depth), *named, *stars])


def parsed(text):
    """Whether CPython parses a text."""
    try:
        ast.parse(text)
    except (SyntaxError, ValueError):
        return False
    return True


def whole_text(seed):
    """The seed's text, or None where CPython refuses it or it is long."""
    text = Line(seed).statement() + "\n"
    return text if len(text) < 400 and parsed(text) else None


def broken_text(seed):
    """The seed's text cut off at a token, without it, or with another before it, or None where CPython doesn't refuse it."""
    text = whole_text(seed)
    if text is None:
        return None
    starts = [token.start for token in tokenize.generate_tokens(io.StringIO(text).readline) if token.string.strip()]
    places = [sum(len(one) + 1 for one in text.split("\n")[: line - 1]) + column for line, column in starts]
    chosen = random.Random(f"broken {seed}")
    number = chosen.randrange(len(places))
    before, after = text[: places[number]], text[places[number] :]
    behind = text[[*places, len(text)][number + 1] :]
    text = before + chosen.choice(["", behind, f"{chosen.choice(INSERTED)} {after}", f"{chosen.choice(INSERTED)} {after}"])
    return None if parsed(text) else text


def texts(maker, seed, count):
    """So many texts with their seeds, from this seed on."""
    while count:
        text = maker(seed)
        if text is not None:
            count -= 1
            yield seed, text
        seed += 1


def whole_problem(program, text):
    """What is wrong with the answer for a text that CPython parses, or None."""
    _, problem, answer = judge(program, text)
    forms, _, spans = left_out(Theirs(text), text)
    wanted = "edit"
    if forms:
        (line, column), name = min(forms, key=lambda one: (one[0], spans.get(one, one[0])))
        wanted = f"refused app.py:{line}:{column} Unsupported({name})"
    return problem or (None if answer == wanted else f"found {answer!r}, and not {wanted!r}")


def broken_problem(program, text):
    """What is wrong with the answer for a text that CPython refuses, or None."""
    done = subprocess.run([program, "trees"], input=text.encode("utf-8"), stdout=subprocess.PIPE, check=False)
    found = re.fullmatch(r"fault \S.* (\d+):(\d+)\n", done.stdout.decode("utf-8", "replace"))
    if done.returncode != 1 or not found:
        return f"status {done.returncode}, {done.stdout[:100]!r}"
    lines = text.split("\n")
    line, column = int(found[1]), int(found[2])
    return None if 1 <= line <= len(lines) and 1 <= column <= len(lines[line - 1]) + 1 else f"{found[0]!r} isn't inside the text"


def main():
    warnings.simplefilter("ignore")
    made = subprocess.run([os.path.join(HERE, "..", "tools", "program"), "dump"], stdout=subprocess.PIPE, text=True, check=False)
    if made.returncode != 0:
        print("random_lines: dump doesn't build")
        return 1
    program, wrong = made.stdout.strip(), []
    with concurrent.futures.ThreadPoolExecutor(os.cpu_count() or 1) as pool:
        for maker, problem_of, first, count in ((whole_text, whole_problem, 0, WHOLE), (broken_text, broken_problem, 1_000_000, BROKEN)):
            found = list(texts(maker, first, count))
            problems = pool.map(lambda one: problem_of(program, one[1]), found)
            wrong += [(seed, text, problem) for (seed, text), problem in zip(found, problems) if problem]
    for seed, text, problem in wrong[:40]:
        print(f"seed {seed}, {text!r}: {problem}")
    print(f"random_lines: {WHOLE + BROKEN} texts, {len(wrong)} wrong")
    return 1 if wrong else 0


if __name__ == "__main__":
    sys.exit(main())
