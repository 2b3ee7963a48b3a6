#!/usr/bin/env python3
"""What the gate costs, crate by crate, in processor seconds.

    python3 tools/gate_times.py FILE                     the table of a recorded run
    python3 tools/gate_times.py --record FILE [CMD ..]   runs `rt ci --anew`, or the command, from here, and records it in FILE

`rt ci` prints no times, so a recording looks at the processes of its run, three times a second: each check and build of the prover
names its crate (`--crate-name`), builds tests under `--test`, and tries edits in a folder of its own (`rt-edit-*`). What such a process
and those that it started have used when they are seen last is what it cost, so a third of a second of each is lost at most; the line
`rest` has all that no crate is named for: programs compiled and run, `rt` itself, what was lost, and the checks of `.ci/run`, if
that is the command. A run that takes kept proofs costs nothing for them: record on a machine that has none, or by `rt ci --anew`.

FILE has a line for each crate and kind, `proof NAME SECONDS`, `tests NAME SECONDS`, `edits NAME SECONDS`, and
`total SECONDS`, `clock SECONDS`, `processors NUMBER` and `status NUMBER` of the run.

The table has the crates with the dearest first, and then the dearest chain of proofs by `crates.txt`: with any number of processors
the gate can't take less. Exit status: that of the command of a recording, else 0, or 2 where the words or the file are wrong.
"""

import os
import re
import subprocess
import sys
import time

ROOT = os.path.join(os.path.dirname(os.path.abspath(__file__)), "..")
KINDS = ("proof", "tests", "edits")
PAUSE = 0.3  # seconds between two looks at the processes
TICKS = os.sysconf("SC_CLK_TCK")
PROOF_BUDGET = 150  # processor seconds of one crate's proof


def processes():
    """The parent, the start and the processor seconds (with those of children that have ended) of each process, by its number."""
    found = {}
    for name in os.listdir("/proc"):
        if name.isdigit():
            try:
                with open(f"/proc/{name}/stat", encoding="utf-8", errors="replace") as file:
                    words = file.read().rpartition(")")[2].split()
            except OSError:
                continue
            found[int(name)] = int(words[1]), words[19], sum(map(int, words[11:15])) / TICKS
    return found


def work_of(number):
    """The kind and the crate of a process of the prover, or None."""
    try:
        with open(f"/proc/{number}/cmdline", "rb") as file:
            words = file.read().decode(errors="replace").split("\0")
        folder = os.path.basename(os.readlink(f"/proc/{number}/cwd"))
    except OSError:
        return None
    if "--crate-name" not in words[:-1] or "--crate-checked" in words:
        return None
    crate = words[words.index("--crate-name") + 1]
    return ("edits" if folder.startswith("rt-edit-") else "tests" if "--test" in words else "proof"), crate


class Watch:
    """What the processes below one have cost, by kind and crate."""

    def __init__(self, top):
        self.top, self.works, self.seconds = top, {}, {}

    def look(self):
        """Looks at the processes once."""
        found, below = processes(), {}
        for number, (parent, _, _) in found.items():
            below.setdefault(parent, []).append(number)
        left = list(below.get(self.top, []))
        while left:
            number = left.pop()
            key = number, found[number][1]
            work = self.works.get(key) or work_of(number)
            if work is None:
                left += below.get(number, [])
                continue
            self.works[key] = work
            used, inner = 0, [number]
            while inner:
                one = inner.pop()
                used += found[one][2]
                inner += below.get(one, [])
            self.seconds[key] = max(used, self.seconds.get(key, 0))

    def sums(self):
        """The seconds by kind and crate."""
        made = {}
        for key, seconds in self.seconds.items():
            made[self.works[key]] = made.get(self.works[key], 0) + seconds
        return made


def record(path, words):
    """Runs a command at the top of the repository, records what it costs, and gives its status."""
    start = time.monotonic()
    run = subprocess.Popen(words, cwd=ROOT, stdin=subprocess.DEVNULL)
    watch, used, status = Watch(run.pid), None, None
    while used is None:
        watch.look()
        time.sleep(PAUSE)
        number, how, usage = os.wait4(run.pid, os.WNOHANG)
        if number:
            used, status = usage, os.waitstatus_to_exitcode(how)
            run.returncode = status
    with open(path, "w", encoding="utf-8") as file:
        for (kind, crate), seconds in sorted(watch.sums().items()):
            file.write(f"{kind} {crate} {seconds:.2f}\n")
        file.write(f"total {used.ru_utime + used.ru_stime:.2f}\nclock {time.monotonic() - start:.2f}\n")
        file.write(f"processors {len(os.sched_getaffinity(0))}\nstatus {status}\n")
    return status


def read(path):
    """The seconds by kind and crate, and the figures of the whole run, of a record; None where a line is none of a record."""
    seconds, whole = {}, {}
    with open(path, encoding="utf-8") as file:
        for line in file:
            if re.fullmatch(r"(proof|tests|edits) \w+ [0-9.]+\n", line):
                kind, crate, number = line.split()
                seconds[kind, crate] = seconds.get((kind, crate), 0) + float(number)
            elif re.fullmatch(r"(total|clock|processors|status) -?[0-9.]+\n", line):
                name, number = line.split()
                whole[name] = float(number)
            else:
                return None
    return seconds, whole


def uses(path):
    """What each crate of a crates.txt stands on."""
    found = {}
    with open(path, encoding="utf-8") as file:
        for line in file:
            head, colon, rest = line.partition("#")[0].partition(":")
            if colon:
                found[head.split()[0]] = rest.split()
    return {name: [it for it in below if it in found] for name, below in found.items()}


def longest(below, seconds):
    """The chain of crates, each on the one before it, whose proofs cost most, and what they cost."""
    best = {}

    def ending_with(name):
        if name not in best:
            cost, chain = max((ending_with(it) for it in below[name]), default=(0, []))
            best[name] = cost + seconds.get(("proof", name), 0), [*chain, name]
        return best[name]

    return max((ending_with(name) for name in below), default=(0, []))


def table(seconds, whole, below):
    """The lines of the table."""
    lines = ["| Crate | Proof | Tests | Edits | Sum |", "|---|---|---|---|---|"]
    sums = {crate: sum(seconds.get((kind, crate), 0) for kind in KINDS) for _, crate in seconds}
    for crate, of_crate in sorted(sums.items(), key=lambda it: (-it[1], it[0])):
        cells = [f"{seconds[kind, crate]:.0f}" if (kind, crate) in seconds else "" for kind in KINDS]
        lines.append("| " + " | ".join([f"`{crate}`", *cells, f"{of_crate:.0f}"]) + " |")
    by_kind = [sum(it for (kind, _), it in seconds.items() if kind == one) for one in KINDS]
    lines.append("| " + " | ".join(["all", *[f"{it:.0f}" for it in by_kind], f"{sum(by_kind):.0f}"]) + " |")
    lines.append("")
    if "total" in whole:
        lines.append(f"rest: {whole['total'] - sum(by_kind):.0f} of {whole['total']:.0f} processor seconds")
    if "clock" in whole:
        lines.append(f"by the clock: {whole['clock'] / 60:.1f} minutes on {whole.get('processors', 0):.0f} processors, status {whole.get('status', 0):.0f}")
    cost, chain = longest(below, seconds)
    lines.append(f"dearest chain of proofs: {cost / 60:.1f} minutes: " + ", ".join(chain))
    dear = sorted((it[1] for it in seconds if it[0] == "proof" and seconds[it] > PROOF_BUDGET), key=lambda it: -seconds["proof", it])
    lines.append(f"proofs above {PROOF_BUDGET} seconds: " + (", ".join(dear) or "none"))
    return lines


def main(words):
    if words[:1] == ["--record"] and len(words) > 1:
        status = record(words[1], words[2:] or ["rt", "ci", "--anew"])
        words = [words[1]]
    elif len(words) == 1 and not words[0].startswith("-"):
        status = 0
    else:
        print(__doc__.split("\n\n")[1], file=sys.stderr)
        return 2
    try:
        found = read(words[0])
    except OSError as error:
        print(f"gate_times: {error}", file=sys.stderr)
        return 2
    if found is None:
        print(f"gate_times: {words[0]} has a line that is none of a recorded run", file=sys.stderr)
        return 2
    print("\n".join(table(*found, uses(os.path.join(ROOT, "crates.txt")))))
    return status


if __name__ == "__main__":
    sys.exit(main(sys.argv[1:]))
