#!/usr/bin/env python3
"""What share of real Python code `review check` reads today: this machine's standard library, file by file and part by part.

    python3 bench/accepted.py [FOLDER]

Each file that CPython parses and that has a statement is put as a text of its own, and so is each function at the top level of
one, and each method of a class at the top level, behind a line `class C:`. They go to `./review check`, so to the proved program
where one lies there; else each stream of them costs a build of a minute or two. Prints the table that README.md shows: which Python
the library is of, how many texts there are and how many were accepted, and the ten most frequent refusals. A text is refused for its
first fault alone, so the counts don't say how many have a form. Accepted is read: nothing here says that anything was analysed.
"""

import ast
import collections
import os
import platform
import re
import subprocess
import sys
import sysconfig
import warnings

REVIEW = os.path.join(os.path.dirname(os.path.abspath(__file__)), "..", "review")
SHOWN = 10
GROUPS = ("whole files", "functions", "methods")
# What one stream may have, so that an unproved run takes it and writes what it answers.
TEXTS, BYTES = 20_000, 32 << 20
FUNCTIONS = (ast.FunctionDef, ast.AsyncFunctionDef)


def files(root):
    for folder, folders, names in os.walk(root):
        folders[:] = sorted(one for one in folders if one not in ("site-packages", "dist-packages", "__pycache__"))
        for name in sorted(names):
            if name.endswith(".py"):
                yield os.path.join(folder, name)


def texts(path):
    """The groups and the bytes of a file and of its functions and methods; nothing where CPython doesn't parse it."""
    with open(path, "rb") as file:
        data = file.read()
    try:
        tree = ast.parse(data)
        lines = re.split("\r\n|\r|\n", data.decode("utf-8-sig"))
    except (SyntaxError, UnicodeDecodeError, ValueError):
        return None

    def part(node):
        first = min([node.lineno, *(one.lineno for one in node.decorator_list)])
        return "\n".join(lines[first - 1 : node.end_lineno]) + "\n"

    found = [(GROUPS[0], data)] if tree.body else []
    for node in tree.body:
        if isinstance(node, FUNCTIONS):
            found.append((GROUPS[1], part(node).encode("utf-8")))
        if isinstance(node, ast.ClassDef):
            methods = [one for one in node.body if isinstance(one, FUNCTIONS)]
            found += [(GROUPS[2], ("class C:\n" + part(one)).encode("utf-8")) for one in methods]
    return found


def kind(line):
    """The refusal that a line tells, without the name in it; None where the text was accepted."""
    if line.startswith("edit "):
        return None
    if not line.startswith("refused app.py:"):
        raise ValueError(f"review says {line!r}")
    name = line.split(" ", 2)[2]
    return "Twice" if name.startswith("Twice(") else name


def streams(found):
    """The texts in rows that one stream may have."""
    row, size = [], 0
    for one in found:
        if len(row) == TEXTS or size + len(one[1]) > BYTES:
            yield row
            row, size = [], 0
        row.append(one)
        size += len(one[1])
    yield row


def answers(row):
    """What `review check` answers to each text of a stream."""
    script = b"".join(b"put app.py %d\n%s\n" % (len(data), data) for _, data in row) + b"end\n"
    # An unproved run, which is checked as it goes, may want more than its minute.
    done = subprocess.run([REVIEW, "check"], input=script, stdout=subprocess.PIPE, check=False, env={"RT_SECONDS": "600", **os.environ})
    lines = done.stdout.decode().splitlines()
    if len(lines) != len(row) + 1:
        raise ValueError(f"review ended with status {done.returncode} after {len(lines)} of {len(row) + 1} lines")
    return [kind(line) for line in lines[:-1]]


def share(part, whole):
    return f"{100 * part / whole:.1f} %" if whole else "-"


def table(which, left_out, found, kinds):
    """The lines of the table; `left_out` counts the files that CPython doesn't parse, and those without a statement."""
    totals, refusals = collections.Counter(), {group: collections.Counter() for group in GROUPS}
    for (group, _), name in zip(found, kinds):
        totals[group] += 1
        refusals[group][name] += 1
    yield f"{which}; without {left_out[0]} files that CPython doesn't parse, and {left_out[1]} that have no statement."
    yield ""
    yield "| Texts, each by itself | Number | Accepted | Share |"
    yield "|---|---|---|---|"
    for group in GROUPS:
        accepted = refusals[group].pop(None, 0)
        yield f"| {group} | {totals[group]:,} | {accepted:,} | {share(accepted, totals[group])} |"
    yield ""
    yield "| First fault | Whole files | Functions | Methods |"
    yield "|---|---|---|---|"
    every = sum(refusals.values(), collections.Counter())
    for name, _ in sorted(every.items(), key=lambda one: (-one[1], one[0]))[:SHOWN]:
        yield f"| `{name}` | " + " | ".join(f"{refusals[group][name]:,}" for group in GROUPS) + " |"


def main(words):
    warnings.simplefilter("ignore")
    sys.setrecursionlimit(100_000)
    root = words[0] if words else sysconfig.get_paths()["stdlib"]
    which = f"The folder `{root}`" if words else f"Python {platform.python_version()}, its standard library"
    found, left_out = [], [0, 0]
    for path in files(root):
        of_file = texts(path)
        if of_file:
            found += of_file
        else:
            left_out[0 if of_file is None else 1] += 1
    if not found:
        print(f"accepted: no Python file with a statement in {root}", file=sys.stderr)
        return 1
    try:
        kinds = [name for row in streams(found) for name in answers(row)]
    except ValueError as error:
        print(f"accepted: {error}", file=sys.stderr)
        return 1
    print("\n".join(table(which, left_out, found, kinds)))
    return 0


if __name__ == "__main__":
    sys.exit(main(sys.argv[1:]))
