#!/usr/bin/env python3
"""Whole files by hand: what `dump trees` and `dump scopes` answer for the rows of `data/files.txt` and `data/scopes.txt`.

Of an accepted row the tree is also held against CPython's own `ast`. Then long files and blocks nested as deep as may be, and one deeper.
"""

import os
import subprocess
import sys

HERE = os.path.dirname(os.path.abspath(__file__))
sys.path.insert(0, os.path.join(HERE, "lib"))

from trees import Ours, Theirs, read_lines  # noqa: E402

DUMP = subprocess.run(
    [os.path.join(HERE, "..", "tools", "program"), "dump"], stdout=subprocess.PIPE, text=True, check=True
).stdout.strip()


def printed(word, text):
    done = subprocess.run([DUMP, word], input=text.encode("utf-8"), stdout=subprocess.PIPE, check=False)
    return done.returncode, done.stdout.decode("utf-8", "surrogatepass")


def lines_of(name):
    with open(os.path.join(HERE, "data", name), encoding="utf-8") as file:
        return [line for line in file.read().split("\n") if not line.startswith("#")]


def unescaped(text):
    found, at = [], 0
    while at < len(text):
        step = 2 if text[at] == "\\" and text[at + 1 : at + 2] in ("n", "t", "\\") else 1
        found.append({"n": "\n", "t": "\t", "\\": "\\"}[text[at + 1]] if step == 2 else text[at])
        at += step
    return "".join(found)


def file_problem(text, answer):
    """What is wrong with the answer for a file, or None."""
    status, lines = printed("trees", text)
    if not answer.startswith("module "):
        return None if (status, lines) == (1, f"fault {answer}\n") else f"found {lines.strip()[:120]!r}"
    if status != 0:
        return f"refused: {lines.strip()!r}"
    ours = Ours()
    found = ours.module(lines)
    if len(found) != int(answer.split()[1]):
        return f"{len(found)} statements"
    if len(set(ours.numbers)) != len(ours.numbers):
        return "two nodes have one number"
    wanted = Theirs(text).module()
    return None if found == wanted else f"found {found}, and not {wanted}"


def scope_cases():
    title, text = None, []
    for line in lines_of("scopes.txt"):
        if line.startswith("<<< "):
            title, text = line[4:], []
        elif line.startswith(">>> "):
            yield title, "\n".join(text) + "\n", line[4:]
        else:
            text.append(line)


def scope_problem(text, answer):
    status, lines = printed("scopes", text)
    if answer == "ok":
        return None if status == 0 else f"refused: {lines.strip()!r}"
    if answer.startswith("owned "):
        return None if status == 0 and answer in lines.splitlines() else f"found {lines.strip()!r}"
    return None if (status, lines) == (1, f"fault {answer}\n") else f"found {lines.strip()!r}"


def nested(count):
    return "".join(" " * depth + "if a:\n" for depth in range(count)) + " " * count + "pass\n"


def large():
    """Titles and texts of long and deep files, with the number of statements at the top and of all lines, or the fault."""
    yield "20,000 statements", "x = 1\n" * 20_000, (20_000, 60_000)
    yield "10,000 branches", "if a: pass\n" + "elif a: pass\n" * 10_000, (1, 10_001 * 4 + 2)
    yield "20,000 methods", "class A:\n" + "".join(f"  def m{n}(self): pass\n" for n in range(20_000)), (1, 20_000 * 5 + 3)
    yield "100 blocks", nested(100), (1, 100 * 5 + 1)
    yield "101 blocks", nested(101), "TooDeep 101:105"


def large_problem(text, answer):
    status, lines = printed("trees", text)
    if isinstance(answer, str):
        return None if (status, lines) == (1, f"fault {answer}\n") else f"found {lines.strip()[:80]!r}"
    found = (len(read_lines(lines)), lines.count("\n"))
    return None if status == 0 and found == answer else f"status {status}, {found} and not {answer}"


def main():
    problems, count = [], 0
    for line in lines_of("files.txt"):
        if " | " in line:
            text, answer = line.rsplit(" | ", 1)
            count += 1
            problems.append((line, file_problem(unescaped(text), answer)))
    for title, text, answer in scope_cases():
        count += 1
        problems.append((title, scope_problem(text, answer)))
    for title, text, answer in large():
        count += 1
        problems.append((title, large_problem(text, answer)))
    wrong = [(name, problem) for name, problem in problems if problem]
    for name, problem in wrong:
        print(f"{name}: {problem}")
    print(f"files: {count} texts, {len(wrong)} wrong")
    return 1 if wrong else 0


if __name__ == "__main__":
    sys.exit(main())
