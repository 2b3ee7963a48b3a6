#!/usr/bin/env python3
"""What tools/gate_times.py makes of a recorded run of few crates, and of processes that it watches."""

import importlib.util
import os
import subprocess
import sys
import tempfile
import time

HERE = os.path.dirname(os.path.abspath(__file__))
SPEC = importlib.util.spec_from_file_location("gate_times", os.path.join(HERE, "..", "tools", "gate_times.py"))
gate_times = importlib.util.module_from_spec(SPEC)
sys.dont_write_bytecode = True
SPEC.loader.exec_module(gate_times)

TABLE = """\
| Crate | Proof | Tests | Edits | Sum |
|---|---|---|---|---|
| `high` | 200 |  |  | 200 |
| `left` | 30 | 40 | 50 | 120 |
| `low` | 20 |  | 10 | 30 |
| `right` | 25 |  |  | 25 |
| all | 275 | 40 | 60 | 375 |

rest: 25 of 400 processor seconds
by the clock: 3.0 minutes on 2 processors, status 0
dearest chain of proofs: 4.2 minutes: low, left, high
proofs above 150 seconds: high"""

# A process that keeps busy for a second, half of it in a child of its own, as the prover's are called.
BUSY = """
import subprocess, sys, time
def work():
    while time.process_time() < 0.5: pass
if sys.argv[-1] != "inner":
    subprocess.run([sys.executable, sys.argv[0], *sys.argv[1:], "inner"])
work()
"""


def expect(name, got, want):
    if got != want:
        print(f"gate_times: {name}: got {got!r}, wanted {want!r}")
        sys.exit(1)


def watched(words, folder):
    """What a watch says of a shell that runs these words in a folder."""
    run = subprocess.Popen(["sh", "-c", '"$@"; true', "", *words], cwd=folder)
    watch = gate_times.Watch(run.pid)
    while run.poll() is None:
        watch.look()
        time.sleep(0.02)
    return watch.sums()


def main():
    data = os.path.join(HERE, "data")
    found = gate_times.read(os.path.join(data, "gate_times.txt"))
    below = gate_times.uses(os.path.join(data, "gate_times_crates.txt"))
    expect("table", "\n".join(gate_times.table(*found, below)), TABLE)
    with tempfile.TemporaryDirectory() as folder:
        inside = os.path.join(folder, "rt-edit-1-x")
        os.mkdir(inside)
        for path, text in (("wrong.txt", "proof low\n"), ("busy.py", BUSY)):
            with open(os.path.join(folder, path), "w", encoding="utf-8") as file:
                file.write(text)
        expect("a line of no record", gate_times.read(os.path.join(folder, "wrong.txt")), None)
        busy = [sys.executable, os.path.join(folder, "busy.py"), "--crate-name", "low", "src/lib.rt"]
        for want, words, where in (("proof", busy, folder), ("tests", [*busy, "--test"], folder), ("edits", busy, inside)):
            sums = watched(words, where)
            expect(f"kinds of {want}", list(sums), [(want, "low")])
            expect(f"seconds of {want}", 0.8 < sums[want, "low"] < 2, True)
    print("gate_times: as its head says")


if __name__ == "__main__":
    main()
