#!/usr/bin/env python3
"""What tools/pack.py writes and leaves out, over folders made for the purpose."""

import os
import shutil
import socket
import subprocess
import sys
import tempfile

TOOL = os.path.join(os.path.dirname(os.path.abspath(__file__)), "..", "tools", "pack.py")
OWN = {key: value for key, value in os.environ.items() if not key.startswith("GIT_")}  # a hook's words about its repository left out
SECONDS = 60  # far more than any of these packings takes; one that waits for a pipe never ends


def pack(folder, *words, path=None):
    """Status, standard output, and the lines of standard error."""
    environment = dict(OWN, GIT_CEILING_DIRECTORIES=folder)
    if path is not None:
        environment["PATH"] = path
    how = {"cwd": folder, "env": environment, "stdin": subprocess.DEVNULL, "capture_output": True, "check": False, "timeout": SECONDS}
    done = subprocess.run([sys.executable, TOOL, *words], **how)
    return done.returncode, done.stdout, done.stderr.decode().splitlines()


def write(folder, path, text=b""):
    at = os.path.join(folder, path)
    os.makedirs(os.path.dirname(at), exist_ok=True)
    with open(at, "wb") as file:
        file.write(text)


def puts(out):
    """The paths in a stream of empty files."""
    return [line.split()[1].decode() for line in out.split(b"\n") if line.startswith(b"put ")]


def expect(name, got, want):
    if got != want:
        print(f"pack: {name}: got {got!r}, wanted {want!r}")
        sys.exit(1)


def order_and_names(folder):
    write(folder, "p/b.py", b"x = 1\n")
    write(folder, "p/a/__init__.py")
    write(folder, "p/m.pysa", b"# no line end")
    write(folder, "p/taint.config", b"{}")
    write(folder, "p/not-a-name.py")
    write(folder, "p/with space.py")
    write(folder, "p/notes.txt")
    write(folder, "p/.git/hook.py")
    write(folder, "p/large.py", b"#" * 1_048_577)
    write(folder, "p/full.py", b"#" * 1_048_576)
    status, out, said = pack(folder, "p")
    expect("order", out, b"put taint.config 2\n{}\nput m.pysa 13\n# no line end\nput a/__init__.py 0\n\nput b.py 6\nx = 1\n\n"
           + b"put full.py 1048576\n" + b"#" * 1_048_576 + b"\nend\n")
    expect("status", status, 0)
    for name in ("not-a-name.py", "with space.py", "notes.txt", ".git", "large.py"):
        expect(f"{name} is named", sum(name in line for line in said), 1)
    expect("lines of standard error", len(said), 6)
    expect("summary", sorted(said[-1].replace("pack: packed 5 files, left out 5: ", "").split(", ")),
           ["1 hidden or of a tool", "1 no module", "1 of another kind", "1 path refused", "1 too large"])
    status, out, said = pack(folder, "p/b.py", os.path.join(folder, "p", "b.py"), "p/none.py")
    expect("files", out, b"put b.py 6\nx = 1\n\nput p/b.py 6\nx = 1\n\nend\n")
    expect("missing file is named", said[:-1], ["pack: left out p/none.py: no such file or folder"])
    expect("and counted", said[-1], "pack: packed 2 files, left out 1: 1 not there")
    expect("nothing", pack(folder, "p/notes.txt")[0:2], (1, b"end\n"))
    expect("no words", pack(folder)[0:2], (2, b""))
    expect("unknown words", pack(folder, "--exlude", "x", "p")[0:2], (2, b""))
    write(folder, "a line\nend/x.py")
    expect("a name of two lines", len(pack(folder, "a line\nend/x.py")[2]), 2)


def pipes_and_sockets(folder):
    write(folder, "s/a.py")
    os.mkfifo(os.path.join(folder, "s/pipe.py"))
    listening = socket.socket(socket.AF_UNIX)
    here = os.getcwd()
    os.chdir(os.path.join(folder, "s"))  # a socket's name may have 107 bytes
    listening.bind("socket.py")
    os.chdir(here)
    os.symlink("/dev/zero", os.path.join(folder, "s/device.py"))
    status, out, said = pack(folder, "s")
    listening.close()
    expect("no pipe and no socket", (status, puts(out)), (0, ["a.py"]))
    expect("they are named", said[:-1], [
        "pack: left out s/device.py: a link that leaves the folder",
        "pack: left out s/pipe.py: named pipe",
        "pack: left out s/socket.py: socket",
    ])
    expect("their summary", said[-1], "pack: packed 1 file, left out 3: 1 link, 1 named pipe, 1 socket")
    status, out, said = pack(folder, "s/pipe.py", "/dev/zero", "s/a.py")
    expect("named by themselves", (status, puts(out)), (0, ["s/a.py"]))
    expect("and named in turn", said[:-1], ["pack: left out s/pipe.py: named pipe", "pack: left out /dev/zero: device"])


def links(folder):
    write(folder, "l/real.py")
    write(folder, "l/pkg/one.py")
    write(folder, "outside.py")
    write(folder, "away/two.py")
    os.symlink("real.py", os.path.join(folder, "l/inside.py"))
    os.symlink("../outside.py", os.path.join(folder, "l/out.py"))
    os.symlink("nothing.py", os.path.join(folder, "l/dangling.py"))
    os.symlink("pkg", os.path.join(folder, "l/again"))
    os.symlink("../away", os.path.join(folder, "l/gone"))
    os.symlink("..", os.path.join(folder, "l/pkg/loop"))
    status, out, said = pack(folder, "l")
    expect("links", (status, puts(out)), (0, ["inside.py", "pkg/one.py", "real.py"]))
    expect("links are named", sorted(said[:-1]), [
        "pack: left out l/again: a linked folder, which isn't followed",
        "pack: left out l/dangling.py: a link to nothing",
        "pack: left out l/gone: a linked folder, which isn't followed",
        "pack: left out l/out.py: a link that leaves the folder",
        "pack: left out l/pkg/loop: a linked folder, which isn't followed",
    ])
    os.symlink("l", os.path.join(folder, "named"))
    expect("a named link is followed", puts(pack(folder, "named")[1]), ["inside.py", "pkg/one.py", "real.py"])
    expect("a named file that is a link", puts(pack(folder, "l/out.py")[1]), ["l/out.py"])


def environments(folder):
    write(folder, "v/a.py")
    write(folder, "v/env/pyvenv.cfg", b"home = /usr\n")
    write(folder, "v/src/deep/other/pyvenv.cfg")
    write(folder, "v/src/deep/other/x.py")
    for number in range(3_000):
        write(folder, f"v/env/lib/python3.11/site-packages/p{number % 30}/m{number}.py")
    status, out, said = pack(folder, "v")
    expect("virtual environments", (status, puts(out)), (0, ["a.py"]))
    expect("one line each", said, [
        "pack: left out v/env: virtual environment",
        "pack: left out v/src/deep/other: virtual environment",
        "pack: packed 1 file, left out 2: 2 virtual environment",
    ])
    write(folder, "v/env/mine.py")
    status, out, said = pack(folder, "v/env")
    expect("the named folder is one", (status, puts(out), len(said)), (0, ["mine.py"], 3))


def exclusions(folder):
    for path in ("e/a.py", "e/a_test.py", "e/tests/b.py", "e/sub/tests/c.py", "e/sub/d.py"):
        write(folder, path)
    status, out, said = pack(folder, "--exclude", "tests", "--exclude=*_test.py", "e")
    expect("excluded by last part", (status, puts(out)), (0, ["a.py", "sub/d.py"]))
    expect("each is named", said, [
        "pack: left out e/tests: excluded",
        "pack: left out e/a_test.py: excluded",
        "pack: left out e/sub/tests: excluded",
        "pack: packed 2 files, left out 3: 3 excluded",
    ])
    expect("excluded by path", puts(pack(folder, "--exclude", "sub/*", "e")[1]), ["a.py", "a_test.py", "tests/b.py"])
    expect("nothing to exclude", "pack: --exclude nowhere matches nothing" in pack(folder, "--exclude", "nowhere", "e")[2], True)
    expect("a named file", pack(folder, "--exclude", "a.py", "e/a.py")[0:2], (1, b"end\n"))


def repositories(folder):
    if shutil.which("git") is None:
        print("pack: no git here, so what it ignores isn't tried")
        return
    git = ["git", "-C", os.path.join(folder, "g"), "-c", "user.name=x", "-c", "user.email=x@example.org"]
    for path in ("g/a.py", "g/build/made.py", "g/sub/b.py", "g/sub/scratch.py", "g/sub/kept_scratch.py"):
        write(folder, path)
    write(folder, "g/.gitignore", b"/build/\n*scratch.py\n")
    subprocess.run([*git[:3], "init", "-q"], env=OWN, check=True)
    subprocess.run([*git, "add", "-f", "sub/kept_scratch.py"], env=OWN, check=True)
    status, out, said = pack(folder, "g")
    expect("ignored by git", (status, puts(out)), (0, ["a.py", "sub/b.py", "sub/kept_scratch.py"]))
    expect("what is ignored is named", [line for line in said if "git" in line and ".git" not in line][:-1], [
        "pack: left out g/build: ignored by git",
        "pack: left out g/sub/scratch.py: ignored by git",
    ])
    expect("a folder of a repository", puts(pack(folder, "g/sub")[1]), ["b.py", "kept_scratch.py"])
    expect("an ignored folder that is named", puts(pack(folder, "g/build")[1]), ["made.py"])
    OWN["GIT_DIR"] = os.path.join(folder, "elsewhere")
    expect("within a hook", puts(pack(folder, "g")[1]), ["a.py", "sub/b.py", "sub/kept_scratch.py"])
    del OWN["GIT_DIR"]
    os.mkdir(os.path.join(folder, "empty"))
    without = pack(folder, "g", path=os.path.join(folder, "empty"))
    expect("without git", puts(without[1]), ["a.py", "build/made.py", "sub/b.py", "sub/kept_scratch.py", "sub/scratch.py"])


def main():
    for part in (order_and_names, pipes_and_sockets, links, environments, exclusions, repositories):
        with tempfile.TemporaryDirectory() as folder:
            part(folder)
    print("pack: as its head says")


if __name__ == "__main__":
    main()
