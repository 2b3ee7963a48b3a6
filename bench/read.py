#!/usr/bin/env python3
"""How fast `review check` reads the Python standard library of this machine, beside CPython's `ast.parse` over the same texts in the same run.

Every file that is accepted is put once, and then functions and classes of the library's top levels, each as a file of its own, until there are
5 MiB. Prints the ratio of the times (the aim is a tenth, at most a fifth), how the time grows when all is put twice (at most 2.2 times),
and how much memory a stream takes that puts one file again and again, beside one that puts it once. Times are processor seconds of eleven runs
of each, which take turns, so that what else the machine does meets all of them alike; ours have the start of the process and the reading of
standard input in them. A ratio is the median of those of the turns: the least times of each, found in moments that differ, make a ratio that
changes by a third from run to run on a machine with neighbours.
"""

import ast
import os
import resource
import subprocess
import sys
import warnings
from statistics import median

sys.path.insert(0, os.path.join(os.path.dirname(os.path.abspath(__file__)), "..", "tests"))
from real_python import files, texts_of  # noqa: E402
from timing import program, turns  # noqa: E402

MEBIBYTE = 1 << 20


# a project has 4,096 files at most
PATHS = 4000


def stream(texts):
    return b"".join(b"put m%d.py %d\n%s\n" % (number % PATHS, len(text), text) for number, text in enumerate(texts)) + b"end\n"


def run(review, data):
    return subprocess.run([review, "check"], input=data, stdout=subprocess.PIPE, check=False).stdout


def accepted(review, texts):
    """Those of the texts that `check` accepts, asked in one stream, each as the same file."""
    data = b"".join(b"put a.py %d\n%s\n" % (len(text), text) for text in texts) + b"end\n"
    return [text for text, line in zip(texts, run(review, data).split(b"\n")) if line.startswith(b"edit ")]


def chosen(review):
    whole, parts, total = [], [], 0
    for path in files():
        for part, text in texts_of(path):
            (parts if part else whole).append(text.encode())
    texts = []
    for text in accepted(review, whole) + accepted(review, parts):
        if total >= 5 * MEBIBYTE:
            break
        texts.append(text)
        total += len(text)
    return texts, total


def peak(review, data):
    """The greatest resident memory of a run in bytes, asked of a process of its own."""
    code = "import resource,subprocess,sys;subprocess.run(sys.argv[1:],stdin=0,stdout=subprocess.DEVNULL);print(resource.getrusage(resource.RUSAGE_CHILDREN).ru_maxrss*1024)"
    done = subprocess.run([sys.executable, "-c", code, review, "check"], input=data, stdout=subprocess.PIPE, check=True)
    return int(done.stdout)


def main():
    warnings.simplefilter("ignore")
    sys.setrecursionlimit(100_000)
    review = program("review")
    texts, total = chosen(review)
    if not texts:
        sys.exit("read: no text of the library is accepted")
    while total < 5 * MEBIBYTE:
        texts, total = texts + texts, 2 * total
    once, twice = stream(texts), stream(texts + texts)
    read = [text.decode() for text in texts]

    def theirs():
        for text in read:
            ast.parse(text)

    def ours(data):
        lines = run(review, data).split(b"\n")
        if not all(line.startswith(b"edit ") for line in lines[:-2]):
            sys.exit("read: a text is refused")

    rounds = turns(
        ((lambda: ours(once), resource.RUSAGE_CHILDREN), (lambda: ours(twice), resource.RUSAGE_CHILDREN), (theirs, resource.RUSAGE_SELF)), 11
    )
    one, _, cpython = (median(each) for each in zip(*rounds))
    ratios = sorted(long / short for short, _, long in rounds)
    growth = median(two / short for short, two, _ in rounds)
    print(f"read: {total / MEBIBYTE:.1f} MiB in {len(texts)} texts in {one:.3f} s, {total / MEBIBYTE / one:.1f} MiB a second")
    print(f"read: CPython's ast.parse {cpython:.2f} s; check takes 1/{median(ratios):.1f} of it, in single turns 1/{ratios[0]:.1f} to 1/{ratios[-1]:.1f}")
    print(f"read: all put twice takes {growth:.2f} times as long")
    large = b"x = 1\n" * (MEBIBYTE // 6)
    few, many = (b"".join(b"put a.py %d\n%s\n" % (len(large), large) for _ in range(count)) + b"end\n" for count in (4, 60))
    print(f"read: 60 puts of one file of 1 MiB take {peak(review, many) / peak(review, few):.2f} times the memory of 4")


if __name__ == "__main__":
    main()
