#!/usr/bin/env python3
"""Command streams of `review check` by hand: the bytes that are written, and the status.

Besides the rows: the first example cut at each byte, with each write failing in turn (a file that may not grow beyond so many bytes), what is
written before more is read, and what the stream's commands do at their limits.
"""

import os
import resource
import select
import signal
import subprocess
import sys
import tempfile

ROOT = os.path.join(os.path.dirname(os.path.abspath(__file__)), "..")


def example(name):
    with open(os.path.join(ROOT, "examples", "first", name), "rb") as file:
        return file.read()


CONFIG = example("taint.config")
MODELS = example("general.pysa")
APP = b"import os\ndef run():\n    os.system(input())\n"
ISSUE = b"app.py:3:8 5001 app.run UserControlled:input RemoteCodeExecution:os.system Data from UserControlled may reach RemoteCodeExecution\n"
BASE = [("taint.config", CONFIG), ("general.pysa", MODELS)]
END = b"end\n"
NESTED = b"x = " + b"(" * 101 + b"1" + b")" * 101 + b"\n"


def put(path, text):
    return b"put %s %d\n%s\n" % (path.encode(), len(text), text)


def stream(*parts):
    return b"".join(put(*part) if isinstance(part, tuple) else part for part in parts)


def edits(*numbers):
    return b"".join(b"edit %d\n" % number for number in numbers)


FIRST = stream(*BASE, ("app.py", APP), END)
CLEAN = b"import os\ndef run():\n    os.system(\"x\")\n"

# name, stream, what is written, status
ROWS = [
    ("the first example", FIRST, edits(1, 2, 3) + b"issues 1\n" + ISSUE, 8),
    ("nothing at all", END, b"issues 0\n", 0),
    ("bytes after the end", END + b"frob\n", b"issues 0\n", 0),
    ("a dedent to no column; the text before it stays", stream(*BASE, ("app.py", APP), ("app.py", b"def f():\n        x = 1\n    y = 2\n"), END),
     edits(1, 2, 3) + b"refused app.py:3:5 BadDedent\nissues 1\n" + ISSUE, 9),
    ("a lambda in a second file", stream(*BASE, ("app.py", APP), ("b.py", b"f = lambda x: x\n"), END),
     edits(1, 2, 3) + b"refused b.py:1:5 Unsupported(lambda)\nissues 1\n" + ISSUE, 9),
    ("a good edit after a refused one", stream(*BASE, ("app.py", b"f = lambda x: x\n"), ("app.py", APP), END),
     edits(1, 2) + b"refused app.py:1:5 Unsupported(lambda)\nedit 3\nissues 1\n" + ISSUE, 9),
    ("a path that isn't live", stream(*BASE, ("app.py", APP), b"drop nope.py\n", END), edits(1, 2, 3) + b"absent nope.py\nissues 1\n" + ISSUE, 9),
    ("a put that ends too early", b"put app.py 44\nimport os\n", b"malformed 0\n", 3),
    ("no command", b"drop app.py\nfrob\n", b"absent app.py\nmalformed 12\n", 3),
    ("no input", b"", b"malformed 0\n", 3),
    ("no end", b"sync\n", b"sync 0\nmalformed 5\n", 3),
    ("a rule over a sink that isn't declared", stream(("taint.config", CONFIG.replace(b'"sinks":["RemoteCodeExecution"]', b'"sinks":["Shell"]')),
                                                       ("general.pysa", MODELS), ("app.py", APP), END),
     b"refused taint.config:0:0 UnknownKind\n" + edits(1, 2) + b"issues 0\n", 9),
    ("a variable that is called", stream(*BASE, ("app.py", b"def f(x):\n    x()\n"), END),
     edits(1, 2) + b"refused app.py:2:5 Unsupported(variable call)\nissues 0\n", 9),
    ("101 nestings", stream(*BASE, ("app.py", NESTED), END), edits(1, 2) + b"refused app.py:1:105 TooDeep\nissues 0\n", 9),
    ("the greatest number", stream(*BASE, ("app.py", b"x = 170141183460469231731687303715884105727\n"), END), edits(1, 2, 3) + b"not yet\n", 10),
    ("one more", stream(*BASE, ("app.py", b"x = 170141183460469231731687303715884105728\n"), END),
     edits(1, 2) + b"refused app.py:1:5 WideNumber\nissues 0\n", 9),
    ("a name that is bound twice", stream(("app.py", b"def f():\n    pass\nf = 1\n"), END), b"refused app.py:3:1 Twice(f)\nissues 0\n", 9),
    ("a file that is dropped, and dropped again", stream(*BASE, ("app.py", APP), b"drop app.py\ndrop app.py\n", END),
     edits(1, 2, 3, 4) + b"absent app.py\nissues 0\n", 9),
    ("edits are counted", stream(b"sync\n", *BASE, b"sync\n", ("app.py", b"("), b"sync\n", ("app.py", CLEAN), b"sync\n", END),
     b"sync 0\n" + edits(1, 2) + b"sync 2\nrefused app.py:1:1 OpenBracket\nsync 2\nedit 3\nsync 3\nissues 0\n", 9),
    ("a question", stream(*BASE, b"ask 1 version\n", END), edits(1, 2) + b"not yet\n", 10),
    ("a question before a bad end", stream(b"ask 16 model a.b\n", b"frob"), b"not yet\n", 10),
    ("a question of no session", b"ask 17 version\n", b"malformed 0\n", 3),
    ("a run", stream(*BASE, b"run 1 [[],[]]\n", END), edits(1, 2) + b"malformed %d\n" % len(stream(*BASE)), 3),
    ("an unfinished run", stream(*BASE, b"run"), edits(1, 2) + b"malformed %d\n" % len(stream(*BASE)), 3),
    ("another file", stream(*BASE, ("app.py", APP), ("other.py", b""), END), edits(1, 2, 3, 4) + b"not yet\n", 10),
    ("other models", stream(BASE[0], ("general.pysa", MODELS + b"def f(): ...\n"), ("app.py", APP), END), edits(1, 2, 3) + b"not yet\n", 10),
    ("not yet and a refusal", stream(*BASE, ("app.py", b"x = 1\n"), b"drop b\n", END), edits(1, 2, 3) + b"absent b\nnot yet\n", 10),
    ("a front of the end", b"en", b"malformed 0\n", 3),
    ("an end without its line end", b"sync\nend", b"sync 0\nmalformed 5\n", 3),
    ("an empty text", b"put a.py 0\n\nsync\n", b"edit 1\nsync 1\nmalformed 17\n", 3),
    ("a text that is a line end", b"put a.py 1\n\n\nsync\n", b"edit 1\nsync 1\nmalformed 18\n", 3),
    ("a text that looks like a command", b"put a.py 5\nsync\n\nend\n", b"edit 1\nnot yet\n", 10),
    ("a text without a line end", b"put a.py 5\nx = 1\nend\n", b"edit 1\nnot yet\n", 10),
    ("a length that is one too small", b"put a.py 4\nx = 1\nend\n", b"malformed 0\n", 3),
    ("a length that is one too great", b"put a.py 6\nx = 1\nend\n", b"malformed 0\n", 3),
    ("a length with a zero before it", b"put a.py 05\nx = 1\n\nend\n", b"malformed 0\n", 3),
    ("the least length that is too great", b"put a.py 4294967296\n", b"malformed 0\n", 3),
    ("a path with a space", b"put a b 1\nx\nend\n", b"malformed 0\n", 3),
    ("no path", b"drop a.py\ndrop \nend\n", b"absent a.py\nmalformed 10\n", 3),
    ("a path of 255 bytes, and of 256", b"drop " + b"a" * 255 + b"\ndrop " + b"a" * 256 + b"\nend\n", b"absent " + b"a" * 255 + b"\nmalformed 261\n", 3),
    ("a trace of number 0", b"ask 1 trace 0\n", b"malformed 0\n", 3),
    ("a name with a space", b"ask 2 model a b\n", b"malformed 0\n", 3),
    ("an end of a line with CR", b"sync\r\nend\n", b"malformed 0\n", 3),
    ("an empty line", b"sync\n\nsync\nend\n", b"sync 0\nmalformed 5\n", 3),
    ("a path where nothing may stand", stream(("a-b.py", b"x = 1\n"), ("README", b""), END),
     b"refused a-b.py:0:0 BadPath\nrefused README:0:0 BadPath\nissues 0\n", 9),
    ("a text that isn't UTF-8", stream(("app.py", b"x = '\xff'\n"), ("taint.config", b"\xff"), ("a.pysa", b"\xc0\x80"), END),
     b"refused app.py:0:0 NotUtf8\nrefused taint.config:0:0 NotUtf8\nrefused a.pysa:0:0 NotUtf8\nissues 0\n", 9),
    ("1 MiB, and a byte more", stream(("app.py", b"#" * 1048576), ("app.py", b"#" * 1048577), ("app.py", b"\xff" * 1048577), END),
     b"edit 1\nrefused app.py:0:0 TooLarge\nrefused app.py:0:0 TooLarge\nnot yet\n", 10),
    ("a model file's faults", stream(("a.pysa", b"def f() -> TaintSource[A: ...\n"), ("b.pysa", b"def f() -> 1: ...\n"), ("c.pysa", b"'\n"), END),
     b"refused a.pysa:1:23 OpenBracket\nrefused b.pysa:1:12 Syntax\nrefused c.pysa:1:1 OpenString\nissues 0\n", 9),
    ("without the models", stream(BASE[0], ("app.py", APP), END), edits(1, 2) + b"issues 0\n", 0),
    ("without the configuration", stream(BASE[1], ("app.py", APP), END), edits(1, 2) + b"issues 0\n", 0),
    ("a file and its package", stream(("a.py", b"x = 1\n"), ("a/__init__.py", b""), b"drop a/__init__.py\n", b"drop a.py\n", END), edits(1, 2, 3, 4) + b"issues 0\n", 0),
]

# the shapes of `app.py` that are answered: text, and the places of its issues; None where it is outside the form
APPS = [
    (b"0", []), (b"123456789", []), (b"1_0", []), (b"0x1f", []), (b"1000000000", None), (b'""', []), (b"'a' 'b'", []), (b"f''", None), (b"...", None), (b"None", None),
    (b"g()", []), (b"g(1)\n    g('a')", []), (b"g(1); g(2)", []), (b"g", None), (b"g(())", None), (b"g(h)", None), (b"g(h=1)", None), (b"g(1, 2)", None), (b"g(-1)", None),
    (b"(g)(1)", []), (b"a.b.c_1()", []), (b"a().b()", None), (b"a.append()", None), (b"append()", None), (b"append.a()", []), (b"a.__b()", None), (b"f()", None), (b"f.a()", None),
    (b"a.f()", []), (b"pass", None), (b"x = 1", None), (b"return 1", None), (b"os.system()\n    os.system('x')", []), (b"input(os.system('x'))", []),
    (b"1\n    os.system(input('x'))", ["4:8"]), (b"os.system(input(input()))", ["3:8"]), (b"os.system(\n        input())", ["3:8"]), (b"((os)).system((input()))", ["3:12"]),
    (b"g(os.system(h.i(os.system(input()))))\n    os.system(input())", ["3:10", "3:24", "4:8"]),
    (b"os.system(input()); os.system(1); os.system(g(input()))", ["3:8", "3:42"]),
]


def run(words, data, **more):
    done = subprocess.run([PROGRAM, *words], input=data, stdout=subprocess.PIPE, check=False, **more)
    return done.stdout, done.returncode


def issues(places, callable_name=b"app.f"):
    return b"issues %d\n" % len(places) + b"".join(ISSUE.replace(b"3:8", place.encode()).replace(b"app.run", callable_name) for place in places)


def expect(name, found, wanted):
    global WRONG, COUNT
    COUNT += 1
    if found != wanted:
        WRONG += 1
        print(f"streams: {name}: got {found}, wanted {wanted}")


def rows():
    for name, data, output, status in ROWS:
        expect(name, run(["check"], data), (output, status))
    for body, places in APPS:
        data = stream(*BASE, ("app.py", b"import os\ndef f():\n    " + body + b"\n"), END)
        wanted = (edits(1, 2, 3) + b"not yet\n", 10) if places is None else (edits(1, 2, 3) + issues(places), 8 if places else 0)
        expect(f"app.py with {body}", run(["check"], data), wanted)
    for text in (b"import os as o\ndef f():\n    1\n", b"import os\ndef f(x):\n    1\n", b"import os\ndef f() -> int:\n    1\n", b"import os\n@g\ndef f():\n    1\n",
                 b"import os\ndef __f():\n    1\n", b"def f():\n    1\n", b"import os\n", b"import os\ndef f():\n    1\ndef g():\n    1\n", b"import re\ndef f():\n    1\n", b""):
        expect(f"app.py as {text}", run(["check"], stream(*BASE, ("app.py", text), END)), (edits(1, 2, 3) + b"not yet\n", 10))


def cut():
    """The first example, cut at each byte: the lines of the puts that are whole, and where the next command begins."""
    ends = [0]
    for part in (*BASE, ("app.py", APP)):
        ends.append(ends[-1] + len(put(*part)))
    for size in range(len(FIRST)):
        whole = sum(end <= size for end in ends) - 1
        output = edits(*range(1, whole + 1)) + b"malformed %d\n" % ends[whole]
        expect(f"cut at {size}", run(["check"], FIRST[:size]), (output, 3))


def limited(size):
    def limit():
        signal.signal(signal.SIGXFSZ, signal.SIG_IGN)
        resource.setrlimit(resource.RLIMIT_FSIZE, (size, size))

    return limit


def writes():
    """The output goes to a file that takes so many bytes, and then no more."""
    output = ROWS[0][2]
    for size in range(len(output) + 1):
        with tempfile.TemporaryFile() as file:
            done = subprocess.run([PROGRAM, "check"], input=FIRST, stdout=file, preexec_fn=limited(size), check=False)
            file.seek(0)
            expect(f"room {size}", (file.read(), done.returncode), (output[:size], 5 if size < len(output) else 8))
    folder = os.open(ROOT, os.O_RDONLY)
    done = subprocess.run([PROGRAM, "check"], stdin=folder, stdout=subprocess.PIPE, check=False)
    os.close(folder)
    expect("a source that can't be read", (done.stdout, done.returncode), (b"read fault\n", 4))


def talk(pieces):
    """What is written after each of these pieces of the input, before the next one comes, and after its end; and the status."""
    with subprocess.Popen([PROGRAM, "check"], stdin=subprocess.PIPE, stdout=subprocess.PIPE) as child:
        found = []
        for data, wanted in pieces:
            child.stdin.write(data)
            child.stdin.flush()
            output = b""
            while len(output) < len(wanted) and select.select([child.stdout], [], [], 10)[0]:
                more = os.read(child.stdout.fileno(), 65536)
                if not more:
                    break
                output += more
            found.append(output)
        rest, _ = child.communicate()
    return [*found, rest], child.returncode


def pieces():
    """The lines of the commands in a piece are written before the next piece is read."""
    line = b"sync 0\n"
    for name, parts, rest in (
        ("a command a piece", [(b"sync\n", line), (b"sync\n", line)], b"malformed 10\n"),
        ("a front of a command", [(b"sync\nsync\nsy", line * 2), (b"nc\n", line), (b"s", b""), (b"ync\nsync\n", line * 2)], b"malformed 25\n"),
        ("a front of a text", [(b"drop a.py\nput a.py 5\nx =", b"absent a.py\n"), (b" 1\nsync\n", b"edit 1\nsync 1\n")], b"malformed 32\n"),
        ("more lines than go out at once", [(b"sync\n" * 1000 + b"sync", line * 1000), (b"\n", line)], b"malformed 5005\n"),
        ("a run", [(b"sync\nr", line + b"malformed 5\n")], b""),
        ("no command", [(b"sync\nx", line + b"malformed 5\n")], b""),
    ):
        expect(f"pieces, {name}", talk(parts), ([*(output for _, output in parts), rest], 3))


def limits():
    """The counts of a project and its journal, one below, at and above their limits."""
    many = [("a%d.py" % number, b"") for number in range(4096)]
    expect("4,096 files", run(["check"], stream(*many, ("b.py", b""), b"drop a0.py\n", ("b.py", b""), b"drop b.py\n", b"ask 1 version\n")),
           (edits(*range(1, 4097)) + b"full files\n" + edits(4097, 4098, 4099) + b"not yet\n", 10))
    large = [("a%d.py" % number, b"#" * 1048576) for number in range(32)]
    expect("32 MiB of text", run(["check"], stream(*large, ("b.py", b"#"), ("a0.py", b""), ("b.py", b"#"), b"ask 1 version\n")),
           (edits(*range(1, 33)) + b"full text\n" + edits(33, 34) + b"not yet\n", 10))
    again = [("a.py", b"#" * 1048576)] * 64
    expect("64 MiB in the journal", run(["check"], stream(*again, ("a.py", b"#"), ("a.py", b""), b"drop a.py\n", ("b.py", b"("), ("b.py", b"#"), END)),
           (edits(*range(1, 65)) + b"full journal\n" + edits(65, 66) + b"refused b.py:1:1 OpenBracket\nfull journal\nissues 0\n", 9))
    small = [("a.py", b"")] * 65536
    expect("65,536 edits", run(["check"], stream(*small, ("a.py", b""), b"drop a.py\ndrop b.py\nsync\n", b"ask 1 version\n")),
           (edits(*range(1, 65537)) + b"full journal\n" * 3 + b"sync 65536\nnot yet\n", 10))
    functions = b"".join(b"def f%d():\n pass\n" % number for number in range(32767))
    expect("65,535 callables", run(["check"], stream(("a.py", functions), ("b.py", functions.replace(b"def f32766():\n pass\n", b"")), ("c.py", b""), ("d.py", b""),
                                                    ("b.py", b""), ("b/__init__.py", b"def f():\n pass\n"), b"ask 1 version\n")),
           (edits(1, 2) + b"full callables\n" * 2 + edits(3, 4) + b"not yet\n", 10))
    expect("a drop that uncovers too many", run(["check"], stream(("a.py", functions), ("a/__init__.py", b""), ("b.py", functions), ("c.py", b"def f():\n pass\n"), b"drop a/__init__.py\n",
                                                                 b"ask 1 version\n")), (edits(1, 2, 3, 4) + b"full callables\nnot yet\n", 10))


COUNT = WRONG = 0
PROGRAM = subprocess.run([os.path.join(ROOT, "tools", "program"), "review"], capture_output=True, text=True, check=True).stdout.strip()
if __name__ == "__main__":
    rows()
    cut()
    writes()
    pieces()
    limits()
    for word in ([], ["serve", "0"], ["serve", "33"], ["serve", "01"], ["check", "check"]):
        expect(f"words {word}", run(word, b""), (b"usage: review check | serve W | confirm | gen N SIZE | work N SIZE\n", 2))
    print(f"streams: {COUNT} streams, {WRONG} wrong")
    sys.exit(WRONG > 0)
