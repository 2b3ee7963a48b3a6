#!/usr/bin/env python3
"""How `review` chooses between the proved program and the unproved way, and what it says, over a small repository of its own.

The repository has two crates and the scripts of this one: its program says again what it reads and ends with status 8, and for
a line `spin` it goes on for ages. So builds take seconds, and each limit of the unproved way can be met.
"""

import os
import re
import shutil
import subprocess
import sys
import tempfile
import time

TOP = os.path.join(os.path.dirname(os.path.abspath(__file__)), "..")
SOURCES = {
    "crates.txt": "toy_status:\nreview: toy_status\n",
    "crates/toy_status/src/lib.rt": """//! The status of the program.
#![tactic(auto)]

ghost use Rattle.std.specs.Prelude.{◌≡◌};

/// The status with which the program ends.
pub fn status() -> u8
    ensures { result ≡ 8 }
{
    8
}
""",
    "crates/review/src/main.rt": """//! Says again what it reads, and ends with status 8.
#![tactic(auto)]

use std::env;
use std::process::ExitCode;

fn main(rt: HostRuntime) -> ExitCode {
    let Ok(args) = env::args(&rt) else {
        return ExitCode::from(13);
    };
    if args.skip(1).next().is_none() {
        let Ok(_) = println!(rt; "usage: review check") else {
            return ExitCode::from(5);
        };
        return ExitCode::from(2);
    }
    for line in rt.lines(rt.alloc()) {
        let Ok(text) = line else {
            return ExitCode::from(4);
        };
        let word = text.as_str();
        if word == "spin" {
            let mut count: u64 = 0;
            for round in 0..u64::MAX {
                count = count ^ round;
            }
            let Ok(_) = println!(rt; "{count}") else {
                return ExitCode::from(5);
            };
        }
        let Ok(_) = println!(rt; "{word}") else {
            return ExitCode::from(5);
        };
    }
    ExitCode::from(toy_status::status())
}
""",
}
UNPROVED = re.compile(r"review: (not proved yet|the proved program is older than its sources): .* \./review --proved\Z")
SECONDS = 600


def expect(name, got, want):
    if got != want:
        print(f"first_start: {name}: got {got!r}, wanted {want!r}")
        sys.exit(1)


def start(script, *words, given=b"", folder=None, **environment):
    """Status, standard output, and the lines of standard error."""
    done = subprocess.run(
        [script, *words], input=given, cwd=folder, env={**os.environ, **environment}, capture_output=True, check=False, timeout=SECONDS
    )
    return done.returncode, done.stdout, done.stderr.decode().splitlines()


def first_line(said, why):
    """Whether the first line says why no proved program runs, and names the other way."""
    found = UNPROVED.match(said[0]) if said else None
    return found is not None and found[1] == why


def unproved(script, room):
    """The unproved way with nothing kept, from another folder and through a link: output, status, and one line."""
    link = os.path.join(room, "link")
    os.symlink(script, link)
    given = b"one\n\xc3\xa9 two \x00\n\nlast"
    status, out, said = start(link, "check", given=given, folder=room)
    expect("unproved", (status, out), (8, given + b"\n"))
    expect("one line, which names the proved way", (len(said), first_line(said, "not proved yet")), (1, True))


def limits(script):
    """Each limit of the unproved way is said where it is met, with status 1 and no output."""
    status, out, said = start(script, "check", given=b"a\nspin\n", RT_SECONDS="1")
    expect("a run that takes too long", (status, out, len(said)), (1, b"", 2))
    expect("says so", said[1], "review: stopped after 1 s, the limit of an unproved run (RT_SECONDS sets it); ./review --proved has none")
    status, out, said = start(script, "check", given=b"0123456\n" * (1 << 17) + b"x")
    expect("too much output", (status, out, len(said)), (1, b"", 2))
    expect("says so too", said[1], "review: more than 1 MiB of output, the limit of an unproved run; ./review --proved has none")
    began = time.monotonic()
    status, out, said = start(script, "check", given=bytes((64 << 20) + 1))
    expect("too much input", (status, out, len(said), "64 MiB" in said[-1]), (1, b"", 2, True))
    expect("is told before anything is built", time.monotonic() - began < 30, True)


def live(script):
    """A source that stays open is told of, and what comes after all is answered."""
    with subprocess.Popen([script, "check"], stdin=subprocess.PIPE, stdout=subprocess.PIPE, stderr=subprocess.PIPE) as session:
        session.stdin.write(b"early\n")
        session.stdin.flush()
        lines = [session.stderr.readline().decode().rstrip("\n") for _ in range(2)]
        expect("what is waited for", "waiting for the end of standard input" in lines[1] and "./review --proved" in lines[1], True)
        out, rest = session.communicate(b"late\n", timeout=SECONDS)
    expect("a late end", (session.returncode, out, rest), (8, b"early\nlate\n", b""))


def proved(script, source):
    """The proved program: its progress, its use where it lies there, and the unproved way where a source is newer."""
    status, out, said = start(script, "--proved", "check", given=b"x\n")
    expect("proved", (status, out), (8, b"x\n"))
    steps = [re.sub(r"\d+ min \d\d s", "TIME", line) for line in said]
    expect("progress", len(steps), 4)
    expect("each crate", steps[1:3], ["review: 1 of 2, toy_status, after TIME", "review: 2 of 2, review, after TIME"])
    expect("the end", steps[3], "review: built after TIME")
    expect("used where it lies", start(script, "check", given=b"y\n"), (8, b"y\n", []))
    expect("also by --proved", start(script, "--proved", "check", given=b"z\n"), (8, b"z\n", []))
    expect("its own words", start(script), (2, b"usage: review check\n", []))
    os.utime(source)
    status, out, said = start(script, "check", given=b"x\n")
    expect("an older one", (status, out), (8, b"x\n"))
    expect("is told", (len(said), first_line(said, "the proved program is older than its sources")), (1, True))
    status, out, said = start(script, "--proved", "check", given=b"x\n")
    expect("and built again", (status, out, len(said)), (8, b"x\n", 4))
    with open(source, "a", encoding="utf-8") as file:
        file.write("nonsense\n")
    status, out, said = start(script, "--proved", "check")
    expect("a build that fails", (status, out, said[-1]), (1, b"", "review: the build failed at toy_status"))


def main():
    if shutil.which("rt") is None:
        print("first_start: no command rt, so nothing is tried")
        return
    with tempfile.TemporaryDirectory() as room:
        top = os.path.join(room, "top")
        for path, text in SOURCES.items():
            at = os.path.join(top, path)
            os.makedirs(os.path.dirname(at), exist_ok=True)
            with open(at, "w", encoding="utf-8") as file:
                file.write(text)
        shutil.copytree(os.path.join(TOP, "tools"), os.path.join(top, "tools"))
        script = shutil.copy(os.path.join(TOP, "review"), top)
        unproved(script, room)
        limits(script)
        live(script)
        proved(script, os.path.join(top, "crates/toy_status/src/lib.rt"))
    print("first_start: as its head says")


if __name__ == "__main__":
    main()
