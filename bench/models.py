#!/usr/bin/env python3
"""How the time of reading models, and of asking what they declare of each name, grows from 10,000 to 20,000 declarations (`dump models`).

A third of the declarations are sources, a third sinks, and a third have three parameters with marks; each name is declared once, but
every tenth declaration is of a name that was declared before. Prints how many times as long the greater file takes (the aim is at most
2.2 times). Times are processor seconds, the best of fifteen runs, with the start of the process taken off.
"""

import resource
import subprocess
import sys

from timing import best, dump

SIZE = 10_000


def declaration(number):
    named = number - 1 if number % 10 == 1 else number
    name = f"library.module{named % 90 + 10}.call{named:05}"
    if number % 3 == 0:
        return f"def {name}() -> TaintSource[UserControlled]: ...\n"
    if number % 3 == 1:
        return f"def {name}(command: TaintSink[RemoteCodeExecution]): ...\n"
    return f"def {name}(a: TaintInTaintOut, b: TaintSink[RemoteCodeExecution], c: TaintSource[Other]): ...\n"


def main():
    program = dump()

    def read(size):
        text = "".join(declaration(number) for number in range(size)).encode()
        notes = sum(1 for number in range(size) if number % 3 == 2)

        def run():
            done = subprocess.run([program, "models"], input=text, capture_output=True, check=False)
            words = done.stdout.split()
            if done.returncode != 0 or words[:4] != [b"models", str(size).encode(), b"found", str(size).encode()] or words[-1] != str(notes).encode():
                sys.exit(f"models: {size}: {done.stdout!r} with status {done.returncode}")

        return run

    start = best(read(1), resource.RUSAGE_CHILDREN, 15)
    short = best(read(SIZE), resource.RUSAGE_CHILDREN, 15) - start
    long = best(read(2 * SIZE), resource.RUSAGE_CHILDREN, 15) - start
    print(f"models: {2 * SIZE} declarations read and asked in {long:.3f} s; {long / short:.2f} times as long as half of them")


if __name__ == "__main__":
    main()
