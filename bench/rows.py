#!/usr/bin/env python3
"""How the time of solving a system of rows grows from 10,000 to 20,000 rows, by the words `chain`, `diamond` and `loop` of `dump`.

A chain has its rows from the last to the first; a diamond has one node above many, and one below them all; a loop is a chain whose first
node takes from its last. Prints for each how many times as long the greater system takes (the aim is at most 2.4 times). Times are
processor seconds, the best of five runs, with the start of the process taken off.
"""

import resource
import subprocess
import sys

from timing import best, dump

SIZE = 10_000


def main():
    program = dump()

    def solve(shape, size):
        done = subprocess.run([program, shape, str(size)], capture_output=True, text=True, check=False)
        want = f"reached {size + 1}\n"
        if done.returncode != 0 or done.stdout != want:
            sys.exit(f"rows: {shape} {size}: {done.stdout!r} with status {done.returncode}, and not {want!r}")

    start = best(lambda: solve("chain", 1), resource.RUSAGE_CHILDREN, 5)
    for shape in ["chain", "diamond", "loop"]:
        short = best(lambda shape=shape: solve(shape, SIZE), resource.RUSAGE_CHILDREN, 5) - start
        long = best(lambda shape=shape: solve(shape, 2 * SIZE), resource.RUSAGE_CHILDREN, 5) - start
        print(f"rows: {shape}: {2 * SIZE} rows in {long:.3f} s; {long / short:.2f} times as long as half of them")


if __name__ == "__main__":
    main()
