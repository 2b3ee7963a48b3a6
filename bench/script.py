#!/usr/bin/env python3
"""How the time of `dump script` grows from a script of 32 MiB to one of 64 MiB, which it reads in the pieces that a pipe gives.

Three kinds: one `put` of one great text; many small `put`s; and `run` lines of nearly 1 MiB each. Prints for each how many times as long
the greater script takes (the aim is at most 2.2 times), and how many MiB are read in a second. Times are processor seconds, the best of
three runs; the start of the process is in them.
"""

import resource
import subprocess
import sys

from timing import best, dump

MEBIBYTE = 1 << 20


def one_put(size):
    """A text of so many bytes, and how many commands the script has."""
    return b"put a.py %d\n" % size + b"x = 1\n" * (size // 6) + b"#" * (size % 6) + b"\nend\n", 2


def small_puts(size):
    """Texts of 100 bytes."""
    one = b"put a/b.py 100\n" + b"y = 22\n" * 14 + b"##" + b"\n"
    count = size // len(one)
    return one * count + b"end\n", count + 1


def runs(size):
    """Lines of nearly 1 MiB, of short strings and numbers."""
    items = b",".join([b'"abcdefgh"', b"12345678"] * 52000)
    one = b"run 1 [[],[" + items + b"]]\n"
    count = max(1, size // len(one))
    return one * count + b"end\n", count + 1


def main():
    program = dump()

    def count(script):
        text, commands = script
        done = subprocess.run([program, "script"], input=text, capture_output=True, check=False)
        want = f"commands {commands}\n".encode()
        if done.returncode != 0 or done.stdout != want:
            sys.exit(f"script: {done.stdout.decode()!r} with status {done.returncode}, and not {want.decode()!r}")

    for name, make in [("one put", one_put), ("small puts", small_puts), ("runs", runs)]:
        once, twice = make(32 * MEBIBYTE), make(64 * MEBIBYTE)
        short = best(lambda once=once: count(once), resource.RUSAGE_CHILDREN, 3)
        long = best(lambda twice=twice: count(twice), resource.RUSAGE_CHILDREN, 3)
        print(f"script: {name}: {len(twice[0]) / MEBIBYTE:.1f} MiB in {long:.3f} s, {len(twice[0]) / MEBIBYTE / long:.1f} MiB a second; {long / short:.2f} times as long as half of it")


if __name__ == "__main__":
    main()
