"""What the measurements share: the program, and the processor times of some runs."""

import os
import resource
import subprocess

ROOT = os.path.join(os.path.dirname(os.path.abspath(__file__)), "..")


def program(name):
    """The path of a program, which `tools/program` builds where it must."""
    return subprocess.run([os.path.join(ROOT, "tools", "program"), name], capture_output=True, text=True, check=True).stdout.strip()


def dump():
    """The path of the program `dump`."""
    return program("dump")


def taken(run, whose):
    """The processor time of a run, in seconds, in this process or in its children."""
    before = resource.getrusage(whose)
    run()
    after = resource.getrusage(whose)
    return after.ru_utime - before.ru_utime + after.ru_stime - before.ru_stime


def best(run, whose, times):
    """The least processor time of some runs, in seconds, in this process or in its children."""
    return min(taken(run, whose) for _ in range(times))


def turns(runs, times):
    """The processor times of several runs, in seconds, which take turns so many times: a list for each turn."""
    return [[taken(run, whose) for run, whose in runs] for _ in range(times)]


def least(runs, times):
    """The least processor time of each of several runs, in seconds, where they take turns so many times."""
    return [min(each) for each in zip(*turns(runs, times))]
