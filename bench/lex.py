#!/usr/bin/env python3
"""How fast `dump count` lexes 10 MiB of this machine's Python standard library, beside CPython's `tokenize` in the same run.

Prints the ratio (the aim is at least 10), and how the time grows from 10 to 20 MiB (the aim is at most 2.2 times). Times are
processor seconds, the least of three runs of each, which take turns, so that other work on the machine counts alike. The text is made of whole files that the
lexer accepts, each ended by a line end; the time of ours has the start of the process and the reading of standard input in it.
"""

import io
import os
import resource
import subprocess
import sys
import tokenize

sys.path.insert(0, os.path.join(os.path.dirname(os.path.abspath(__file__)), "..", "tests"))
from timing import dump, least  # noqa: E402
from tokens import library, source_of  # noqa: E402

MEBIBYTE = 1 << 20


def accepted(program, size):
    """At least so many bytes of accepted files, again from the first where there are fewer."""
    parts, total = [], 0
    for path in library():
        text = source_of(path)
        if text is None:
            continue
        data = (text if text.endswith("\n") else text + "\n").encode()
        if subprocess.run([program, "count"], input=data, capture_output=True, check=False).returncode == 0:
            parts.append(data)
            total += len(data)
            if total >= size:
                break
    while parts and total < size:
        parts += parts
        total *= 2
    return b"".join(parts)


def main():
    program = dump()
    once = accepted(program, 10 * MEBIBYTE)
    twice = once + once

    def lex(data):
        done = subprocess.run([program, "count"], input=data, capture_output=True, check=False)
        if done.returncode != 0:
            sys.exit(f"lex: refused: {done.stdout.decode()}")

    def theirs():
        for _ in tokenize.generate_tokens(io.StringIO(once.decode()).readline):
            pass

    ours, doubled, cpython = least(
        ((lambda: lex(once), resource.RUSAGE_CHILDREN), (lambda: lex(twice), resource.RUSAGE_CHILDREN), (theirs, resource.RUSAGE_SELF)), 3
    )
    print(f"lex: {len(once) / MEBIBYTE:.1f} MiB in {ours:.3f} s, {len(once) / MEBIBYTE / ours:.1f} MiB a second")
    print(f"lex: CPython's tokenize {cpython:.2f} s, {cpython / ours:.1f} times as long")
    print(f"lex: twice the text takes {doubled / ours:.2f} times as long")


if __name__ == "__main__":
    main()
