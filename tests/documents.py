#!/usr/bin/env python3
"""The documents: their width, that each crate lists its modules and stands in the map, and README's example and table.

The table of README is held against the one that `bench/accepted.py` prints now, by its form: its numbers, the version of Python and
which refusals are the most frequent are those of the machine on which it was measured.
"""

import os
import re
import subprocess
import sys

TOP = os.path.join(os.path.dirname(os.path.abspath(__file__)), "..")
WIDEST = 132
# Crates whose head comment doesn't list its modules yet.
UNLISTED = {
    "phrases", "publish", "py_ast", "py_literals", "rv_io", "turn_lock",
}


def read(*path):
    with open(os.path.join(TOP, *path), encoding="utf-8") as file:
        return file.read()


def widths():
    """Lines that are too wide."""
    pages = ["README.md", *(os.path.join("docs", name) for name in sorted(os.listdir(os.path.join(TOP, "docs"))))]
    for page in pages:
        for number, line in enumerate(read(page).split("\n"), 1):
            if len(line) > WIDEST:
                yield f"{page}:{number} has {len(line)} columns, and {WIDEST} are the most"


def crates():
    rows = (line.partition("#")[0].partition(":") for line in read("crates.txt").split("\n"))
    return [head.split()[0] for head, colon, _ in rows if colon]


def unlisted(crate):
    """The modules of a crate that its head comment doesn't name, tests left out."""
    folder = os.path.join("crates", crate, "src")
    text = read(folder, "lib.rt" if os.path.exists(os.path.join(TOP, folder, "lib.rt")) else "main.rt")
    head = "\n".join(line for line in text.split("\n") if line.startswith("//!"))
    modules = re.findall(r"^(?:pub )?mod (\w+);", text, re.M)
    return [name for name in modules if name != "tests" and f"`{name}`" not in head]


def modules():
    """Crates whose head comment lacks modules, and that aren't known for it."""
    for crate in crates():
        lacks = unlisted(crate)
        if lacks and crate not in UNLISTED:
            yield f"the head comment of {crate} doesn't list {', '.join(lacks)}"
        if not lacks and crate in UNLISTED:
            print(f"documents: {crate} lists its modules now, and needn't stand in UNLISTED")


def maps():
    """Crates that the pages about crates lack."""
    for page, names in (
        ("docs/ARCHITECTURE.md", crates()),
        ("README.md", [name for name in crates() if not name.endswith("_tests") and name != "dump"]),
    ):
        text = read(page)
        yield from (f"{page} doesn't name {name}" for name in names if f"`{name}`" not in text)


def example():
    """Whether README shows what tests/first.sh compares."""
    shown = re.search(r"^want='(.*?)'$", read("tests", "first.sh"), re.M | re.S)
    if shown is None or f"```\n{shown[1]}\n```" not in read("README.md"):
        yield "README.md doesn't show the lines of the first example that tests/first.sh compares"


def form(table):
    """A table without its numbers, the names of refusals, and the version."""
    return re.sub(r"\d[\d,.]*", "N", re.sub(r"^\| `[^`]*` \|", "| NAME |", table, flags=re.M))


def table():
    """Whether the table of README has the form of what the script prints now."""
    if subprocess.run([os.path.join(TOP, "tools", "program"), "--kept", "review"], stdout=subprocess.DEVNULL, check=False).returncode:
        print("documents: no proved program lies here, so bench/accepted.py, which would build three times, isn't run")
        return
    done = subprocess.run([sys.executable, os.path.join(TOP, "bench", "accepted.py")], stdout=subprocess.PIPE, text=True, check=False)
    shown = re.search(r"^Python \d.*?\n\n(?:\|.*\n)+\n(?:\|.*\n)+", read("README.md"), re.M)
    if done.returncode != 0:
        yield "bench/accepted.py failed"
    elif shown is None or form(shown[0]) != form(done.stdout):
        yield f"README.md has no table of the form that bench/accepted.py prints:\n{form(done.stdout)}"
    print("documents: today bench/accepted.py prints\n" + done.stdout)


def main():
    wrong = [line for part in (widths, modules, maps, example, table) for line in part()]
    for line in wrong:
        print(f"documents: {line}")
    print(f"documents: {len(wrong)} faults")
    return 1 if wrong else 0


if __name__ == "__main__":
    sys.exit(main())
