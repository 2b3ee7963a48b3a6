#!/usr/bin/env python3
"""Runs a program of this repository by the toolchain's checked, unproved way, `rt try`.

    python3 tools/unproved.py NAME WHY [WORD ..]

WHY is said on standard error, as the reason for which no proved program runs. What the program writes, and its status, are its
own. `rt try` compiles the sources with checks at run time, which takes about a minute each time, and keeps nothing.

Its limits, each of which is said where it is met: standard input is read to its end before the program starts, and has at most
64 MiB; a run has 60 seconds, or those that RT_SECONDS gives, and writes at most 1 MiB. Where the program gives no answer the
status is 1, which is none of its own, and standard output stays empty.
"""

import os
import re
import select
import shutil
import signal
import subprocess
import sys
import tempfile

ROOT = os.path.dirname(os.path.dirname(os.path.realpath(__file__)))
LARGEST_INPUT = 64 << 20  # bytes; rt gives a program no more
PIECE = 1 << 20
PATIENCE = 5  # seconds without input, after which it is said what is waited for
READS_INPUT = ["check"]  # the words with which the program reads standard input

# The last line of rt's report where the program ended, and the lines beside it; all others are the program's own.
ENDED = re.compile(rb"^run=ended status=(\d+) .*proved=no\n\Z", re.M)
REPORT = re.compile(rb"(interpreter|checked|races): .*\n|run=ended .*\n")


def say(line):
    print(line, file=sys.stderr, flush=True)


def take_input(name, words, kept):
    """Copies standard input to a file, from its beginning, and gives its size; None where there is too much, or it can't be read."""
    if sys.stdin is None:
        return 0
    if sys.stdin.isatty():
        if words != READS_INPUT:
            return 0
        say(f"{name}: standard input is a terminal, and is read to its end (Ctrl-D) first; a live session wants ./{name} --proved")
        patience = None
    else:
        patience = PATIENCE
    size = 0
    while True:
        if patience is not None and not select.select([0], [], [], patience)[0]:
            say(f"{name}: waiting for the end of standard input, where the unproved run starts; a live session wants ./{name} --proved")
            patience = None
        try:
            piece = os.read(0, PIECE)
        except OSError as error:
            say(f"{name}: standard input can't be read: {error.strerror}")
            return None
        size += len(piece)
        if size > LARGEST_INPUT:
            say(f"{name}: standard input has more than {LARGEST_INPUT >> 20} MiB, the limit of an unproved run; ./{name} --proved takes it")
            return None
        if not piece:
            kept.flush()
            kept.seek(0)
            return size
        kept.write(piece)


def run(name, words, kept, out, report):
    """Runs rt, which gets signals to end by through this process: its status, or that of the signal."""
    command = ["rt", "try", "--", *words]
    child = subprocess.Popen(
        command, cwd=os.path.join(ROOT, "crates", name), stdin=kept, stdout=out, stderr=report, start_new_session=True
    )
    ended_by = []

    def pass_on(number, _):
        ended_by.append(number)
        child.send_signal(number)

    for number in (signal.SIGINT, signal.SIGTERM, signal.SIGHUP):
        signal.signal(number, pass_on)
    child.wait()
    return 128 + ended_by[0] if ended_by else child.returncode


def told(name, report):
    """Says why a run gave no answer."""
    if b"did not end within the time limit" in report:
        seconds = os.environ.get("RT_SECONDS") or "60"
        say(f"{name}: stopped after {seconds} s, the limit of an unproved run (RT_SECONDS sets it); ./{name} --proved has none")
    elif b"wrote more than 1048576 bytes" in report:
        say(f"{name}: more than 1 MiB of output, the limit of an unproved run; ./{name} --proved has none")
    else:
        sys.stderr.buffer.write(report)
        say(f"{name}: the unproved run gave no answer, as rt says above")


def write(out):
    """Copies what the program wrote to standard output: whether all of it could be written."""
    out.seek(0)
    try:
        shutil.copyfileobj(out, sys.stdout.buffer)
        sys.stdout.buffer.flush()
        return True
    except OSError:
        # No second attempt at the end of this process.
        os.dup2(os.open(os.devnull, os.O_WRONLY), 1)
        return False


WRITE_FAULT = 5  # the program's own status for it


def main(name, why, *words):
    if shutil.which("rt") is None:
        say(f"{name}: no command rt on the PATH: the toolchain is wanted")
        return 1
    say(f"{name}: {why}: a checked build of the same sources runs, which takes about a minute; for the proved program: ./{name} --proved")
    with tempfile.TemporaryFile() as kept, tempfile.TemporaryFile() as out, tempfile.TemporaryFile() as lines:
        if take_input(name, list(words), kept) is None:
            return 1
        status = run(name, words, kept, out, lines)
        if status > 128:
            return status
        lines.seek(0)
        report = lines.read()
        ended = ENDED.search(report)
        if ended is None:
            told(name, report)
            return 1
        sys.stderr.buffer.write(REPORT.sub(b"", report))
        return int(ended[1]) if write(out) else WRITE_FAULT


if __name__ == "__main__":
    try:
        sys.exit(main(*sys.argv[1:]))
    except KeyboardInterrupt:
        sys.exit(130)
