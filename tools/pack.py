#!/usr/bin/env python3
"""Packs files into a command stream for `review`, on standard output, or explains what `review` answered.

    python3 tools/pack.py [--exclude GLOB ..] FOLDER | ./review check
    python3 tools/pack.py [--exclude GLOB ..] FILE [FILE ..] | ./review check
    python3 tools/pack.py FOLDER | ./review check | python3 tools/pack.py --explain FOLDER

A folder is walked, and each file goes into the stream under its path in that folder. A file that is named by itself goes in
under the name that was given, or under its last part where that name is absolute or leaves the current folder.

The stream puts `taint.config` first, then the model files (`.pysa`), then the Python files (`.py`), each group by path, and
ends with `end`. What can't go in, or would be refused for its path alone, is left out, and standard error says which and why,
a folder that is left out in one line. Left out are also: what GLOB matches (its path in the folder, or its last part; `*` stands
for slashes too); what git ignores, where the folder lies in a repository and git is there; virtual environments, which are told
by their `pyvenv.cfg`; links out of the folder, and linked folders; named pipes, sockets and devices. The last line of standard
error counts what was packed and what was left out.

With --explain the lines of `review` are read from standard input and written as they come. Behind each that refuses a file stand
the line of the file, a caret, and what the form is and what to write instead. Other words as for the packing that was answered.

The exit status is 0, or 1 where nothing at all could be packed, or 2 where the words are wrong.
"""

import argparse
import collections
import fnmatch
import os
import re
import shutil
import stat
import subprocess
import sys

LARGEST_FILE = 1_048_576  # bytes; `review` refuses a larger file
LONGEST_PATH = 255  # bytes
PATH = re.compile(r"[A-Za-z0-9_\-./]+\Z")
IDENTIFIER = re.compile(r"[A-Za-z_][A-Za-z0-9_]*\Z")
SKIPPED_FOLDERS = {"__pycache__", "node_modules"}
ENVIRONMENT = "pyvenv.cfg"  # stands at the top of a virtual environment
OF_ENVIRONMENT = {"bin", "include", "lib", "lib64", "Include", "Lib", "Scripts"}  # its folders, where it lies in the named folder itself


class LeftOut:
    """What is left out: each is named on standard error at once, and counted by its reason."""

    def __init__(self, quiet=False):
        self.quiet = quiet
        self.counts = collections.Counter()

    def add(self, path, reason, why=None):
        """`reason` is the short form that is counted, `why` what is said of this path, where that is more."""
        self.counts[reason] += 1
        self.say(f"left out {shown(path)}: {why or reason}")

    def say(self, line):
        if not self.quiet:
            print(f"pack: {line}", file=sys.stderr)

    def summary(self, packed):
        by_reason = ", ".join(f"{count} {reason}" for reason, count in self.counts.most_common())
        files = "1 file" if packed == 1 else f"{packed} files"
        self.say(f"packed {files}, left out {sum(self.counts.values())}" + (by_reason and f": {by_reason}"))


def shown(path):
    """A path on one line."""
    return path if path.isprintable() else ascii(path)[1:-1]


def group_of(path):
    """0 for the configuration, 1 for model files, 2 for Python files, None for anything else."""
    if path == "taint.config":
        return 0
    if path.endswith(".pysa"):
        return 1
    if path.endswith(".py"):
        return 2
    return None


def reason_against(path):
    """Why no file can stand in the stream under this path, in short and whole, or None."""
    if len(path.encode("utf-8", "surrogateescape")) > LONGEST_PATH:
        return "path too long", f"its path is longer than {LONGEST_PATH} bytes"
    if not PATH.match(path):
        return "path refused", "its path has a character other than A-Z a-z 0-9 _ - . /"
    group = group_of(path)
    if group is None:
        return "of another kind", "neither taint.config, nor a .pysa nor a .py file"
    if group == 2 and not all(IDENTIFIER.match(part) for part in path[: -len(".py")].split("/")):
        return "no module", "a part of its path is no ASCII identifier, so it names no module"
    return None


def reason_against_file(on_disk):
    """Why what lies there can't be read as a file, in short and whole, or None. Nothing is opened."""
    try:
        mode = os.stat(on_disk).st_mode
    except OSError as error:
        return ("link", "a link to nothing") if os.path.islink(on_disk) else ("unreadable", error.strerror or str(error))
    for is_kind, name in ((stat.S_ISFIFO, "named pipe"), (stat.S_ISSOCK, "socket"), (stat.S_ISCHR, "device"), (stat.S_ISBLK, "device")):
        if is_kind(mode):
            return name, None
    return None if stat.S_ISREG(mode) else ("unreadable", "no file")


def leaves(on_disk, top):
    """Whether a link leads out of the folder whose real path is `top`."""
    return os.path.commonpath([os.path.realpath(on_disk), top]) != top


def ignored_by_git(folder, left_out):
    """What git ignores below the folder, as paths in it; a folder that is ignored stands for all in it."""
    if shutil.which("git") is None:
        return set()
    # The folder may be anyone's: nothing that its configuration names is run.
    git = ["git", "-c", "core.fsmonitor=false", "-C", folder]
    # Within a hook these name the repository of the hook.
    own = {key: value for key, value in os.environ.items() if key not in ("GIT_DIR", "GIT_WORK_TREE", "GIT_INDEX_FILE", "GIT_PREFIX")}
    how = {"stdin": subprocess.DEVNULL, "capture_output": True, "check": False, "env": {**own, "GIT_OPTIONAL_LOCKS": "0", "LC_ALL": "C"}}
    asked = subprocess.run([*git, "rev-parse", "--is-inside-work-tree"], **how)
    if asked.stdout != b"true\n":
        if b"dubious ownership" in asked.stderr:
            left_out.say(f"git doesn't read {shown(folder)}, which is someone else's (safe.directory), so nothing is left out as ignored")
        return set()
    listed = subprocess.run([*git, "ls-files", "-z", "--others", "--ignored", "--exclude-standard", "--directory"], **how)
    if listed.returncode != 0:
        left_out.say(f"git doesn't say what it ignores in {shown(folder)}, so nothing is left out as ignored")
        return set()
    paths = {os.fsdecode(path).rstrip("/") for path in listed.stdout.split(b"\0") if path}
    # The folder itself may be ignored where it lies; it was named all the same.
    return set() if "." in paths else paths


class Choice:
    """Which files to pack."""

    def __init__(self, exclude, left_out):
        self.left_out = left_out
        self.exclude = exclude
        self.matched = set()
        self.files = {}  # from the path in the stream to the path on disk

    def excluded(self, path):
        found = [glob for glob in self.exclude if fnmatch.fnmatchcase(path, glob) or fnmatch.fnmatchcase(path.rsplit("/", 1)[-1], glob)]
        self.matched.update(found)
        return bool(found)

    def reason_against_folder(self, path, on_disk, ignored):
        """Why a folder below the named one is left out, in short and whole, or None."""
        name = os.path.basename(path)
        if self.excluded(path):
            return "excluded", None
        if name.startswith(".") or name in SKIPPED_FOLDERS:
            return "hidden or of a tool", "a folder that is hidden or made by a tool"
        if os.path.isfile(os.path.join(on_disk, ENVIRONMENT)):
            return "virtual environment", None
        if "/" not in path and name in OF_ENVIRONMENT and os.path.isfile(os.path.join(os.path.dirname(on_disk), ENVIRONMENT)):
            return "virtual environment", "a folder of the virtual environment in the named folder itself"
        if path in ignored:
            return "ignored by git", None
        if os.path.islink(on_disk):
            return "linked folder", "a linked folder, which isn't followed"
        return None

    def walk(self, folder):
        """Chooses among the files below a folder."""
        top, ignored = os.path.realpath(folder), ignored_by_git(folder, self.left_out)

        def failed(error):
            self.left_out.add(error.filename, "unreadable", error.strerror)

        for at, folders, names in os.walk(folder, onerror=failed):
            inner = os.path.relpath(at, folder).replace(os.sep, "/")
            prefix = "" if inner == "." else inner + "/"
            kept = []
            for name in sorted(folders):
                why = self.reason_against_folder(prefix + name, os.path.join(at, name), ignored)
                if why is None:
                    kept.append(name)
                else:
                    self.left_out.add(os.path.join(at, name), *why)
            folders[:] = kept
            for name in sorted(names):
                path, on_disk = prefix + name, os.path.join(at, name)
                if path in ignored:
                    self.left_out.add(on_disk, "ignored by git")
                elif os.path.islink(on_disk) and os.path.exists(on_disk) and leaves(on_disk, top):
                    self.left_out.add(on_disk, "link", "a link that leaves the folder")
                else:
                    self.take(path, on_disk)

    def take(self, path, on_disk):
        """Chooses a file under a path, or says why not."""
        if self.excluded(path):
            self.left_out.add(on_disk, "excluded")
            return
        why = reason_against_file(on_disk) or reason_against(path)
        if why is None and path in self.files:
            why = "path taken", f"another file goes in as {path}"
        if why is None:
            self.files[path] = on_disk
        else:
            self.left_out.add(on_disk, *why)

    def choose(self, names):
        for name in names:
            if os.path.isdir(name):
                self.walk(name)
            elif os.path.lexists(name):
                self.take(named(name), name)
            else:
                self.left_out.add(name, "not there", "no such file or folder")
        for glob in self.exclude:
            if glob not in self.matched:
                self.left_out.say(f"--exclude {glob} matches nothing")
        return self.files


def named(name):
    """The path in the stream of a file that was named by itself."""
    path = os.path.normpath(name)
    if os.path.isabs(path) or path.split(os.sep)[0] == os.pardir:
        path = os.path.basename(path)
    return path.replace(os.sep, "/")


def content(on_disk):
    """The bytes of a file, at most one more than the limit."""
    # What was a file may be a pipe by now: it isn't waited for.
    with open(os.open(on_disk, os.O_RDONLY | os.O_NONBLOCK), "rb") as file:
        if not stat.S_ISREG(os.fstat(file.fileno()).st_mode):
            raise OSError("no file any more")
        return file.read(LARGEST_FILE + 1)


def pack(files, left_out, out):
    """Writes the stream of the files: how many went in."""
    packed = 0
    for path in sorted(files, key=lambda path: (group_of(path), path)):
        try:
            text = content(files[path])
        except OSError as error:
            left_out.add(files[path], "unreadable", error.strerror or str(error))
            continue
        if len(text) > LARGEST_FILE:
            left_out.add(files[path], "too large", f"larger than {LARGEST_FILE} bytes")
            continue
        out.write(f"put {path} {len(text)}\n".encode())
        out.write(text)
        out.write(b"\n")
        packed += 1
    out.write(b"end\n")
    out.flush()
    return packed


def main(words):
    parser = argparse.ArgumentParser(prog="pack.py", description="Packs files into a command stream for review, or explains its answers.")
    parser.add_argument("--exclude", metavar="GLOB", action="append", default=[], help="leave out what this matches")
    parser.add_argument("--explain", action="store_true", help="explain the lines of review that standard input gives")
    parser.add_argument("names", metavar="NAME", nargs="+", help="a folder, or files")
    said = parser.parse_args(words)
    left_out = LeftOut(quiet=said.explain)
    files = Choice(said.exclude, left_out).choose(said.names)
    try:
        if said.explain:
            import explain

            explain.explain(sys.stdin.buffer, sys.stdout, files)
            return 0
        packed = pack(files, left_out, sys.stdout.buffer)
    except BrokenPipeError:
        # The reader has ended; what it answered stands for itself.
        os.dup2(os.open(os.devnull, os.O_WRONLY), sys.stdout.fileno())
        return 0
    left_out.summary(packed)
    return 0 if packed else 1


if __name__ == "__main__":
    sys.exit(main(sys.argv[1:]))
