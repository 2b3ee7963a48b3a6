#!/usr/bin/env python3
"""Whole files: the Python standard library of this machine, read where it lies, against CPython's own `ast`.

Each file is read by `dump trees`, and so is each function and class of its top level as a file of its own, since most whole files use
something that the subset leaves out. Of an accepted text the whole tree is compared: shape, names, constants and places. Of a refused one
the answer must be the first of what CPython's tree has and the subset hasn't, by name and place (of two that begin at one place, the one that
ends first); a lexical refusal counts by its name (`tests/tokens.py` explains those), one as Syntax under its reason. Every refusal is counted. A
difference fails.

Then each of these texts, and each file that CPython refuses, is put as `app.py` in one stream of `review check`: the answer must be `edit N` for an
accepted text, and else one refusal, by the name and the place that were judged before.
"""

import ast
import collections
import concurrent.futures
import os
import re
import subprocess
import sys
import sysconfig
import warnings

HERE = os.path.dirname(os.path.abspath(__file__))
sys.path.insert(0, os.path.join(HERE, "lib"))

from left_out import left_out  # noqa: E402
from trees import Left, Ours, Theirs  # noqa: E402

LEXICAL = {
    "BadChar", "MixedIndent", "BadDedent", "OpenString", "OpenBracket", "BadEscape", "BadNumber", "WideNumber", "NotNormal", "FStringForm",
}

# forms that are told behind their first expression
TOLD_LATER = ("comprehension", "set", "callee", "init call")


def texts_of(path):
    """A file's text and those of its functions and classes, where it is UTF-8 and CPython parses it; what encoding it declares doesn't count."""
    with open(path, "rb") as file:
        data = file.read()
    try:
        text = data.decode("utf-8-sig")
        tree = ast.parse(text)
    except (SyntaxError, UnicodeDecodeError, ValueError):
        return []
    found = [("", text)]
    lines = text.split("\n")
    if "\r" not in text and "\f" not in text:
        for node in tree.body:
            if isinstance(node, (ast.FunctionDef, ast.ClassDef)):
                first = min([node.lineno, *[one.lineno for one in node.decorator_list]])
                found.append((f":{node.name}", "\n".join(lines[first - 1 : node.end_lineno]) + "\n"))
    return found


def judge(program, text):
    """How a text was answered: a name under which it is counted, what is wrong with the answer, or None, and what `check` must say of it."""
    done = subprocess.run([program, "trees"], input=text.encode("utf-8"), stdout=subprocess.PIPE, check=False)
    printed = done.stdout.decode("utf-8", "surrogatepass")
    theirs = Theirs(text)
    if done.returncode == 0:
        return "accepted", difference(theirs, printed), "edit"
    if done.returncode != 1 or not printed.startswith("fault "):
        return "failed", f"status {done.returncode}, {printed[:100]!r}", "nothing"
    name, where = printed[len("fault ") :].rstrip("\n").rsplit(" ", 1)
    place = tuple(int(part) for part in where.split(":"))
    return *explained(theirs, text, name, place), f"refused app.py:{where} {name}"


def difference(theirs, printed):
    ours = Ours()
    found = ours.module(printed)
    if len(set(ours.numbers)) != len(ours.numbers):
        return "two nodes have one number"
    try:
        wanted = theirs.module()
    except Left as left:
        return f"accepted, but it has {left}"
    for one, other in zip(found, wanted):
        if one != other:
            return f"found {str(one)[:400]}, and not {str(other)[:400]}"
    return None if len(found) == len(wanted) else "another number of statements"


def explained(theirs, text, name, place):
    if name in LEXICAL:
        return name, None
    forms, syntax, spans = left_out(theirs, text)
    if name.startswith(("Twice(", "Unsupported(variable call)")):
        return name.split("(")[0] if name.startswith("Twice") else name, None if not forms and not syntax else f"but it has {(forms + syntax)[:1]}"
    if name == "TooDeep":
        return name, None
    first = forms[0] if forms else None
    if name == "Syntax":
        reasons = [reason for begin, end, reason in syntax if begin <= place <= end]
        if not reasons:
            return name, f"Syntax at {place} has no reason; forms {forms[:2]}, syntax {syntax[:2]}"
        if first and first[0] < place and not any(begin <= first[0] for begin, _, _ in syntax):
            return name, f"Syntax at {place}, but {first} stands before it"
        return f"Syntax: {reasons[0]}", None
    wanted = name[len("Unsupported(") : -1]
    if first is None or (place, wanted) not in forms:
        return name, f"{name} at {place} isn't what the tree has: {forms[:3]}"
    if first[0] < place or any(end < place for _, end, _ in syntax):
        return name, f"{name} at {place}, but before it {(forms + syntax)[:2]}"
    beside = [one for one in forms if one[0] == place and one[1] in TOLD_LATER and spans[one] < spans[(place, wanted)]]
    if wanted in TOLD_LATER and beside:
        return name, f"{name} at {place}, but {beside} is told first"
    return name, None


def files():
    root = sysconfig.get_paths()["stdlib"]
    for folder, folders, names in os.walk(root):
        folders[:] = sorted(one for one in folders if one not in ("site-packages", "__pycache__"))
        for name in sorted(names):
            if name.endswith(".py"):
                yield os.path.join(folder, name)


def judge_file(program, path):
    """Of a file and its parts: the part, its count's name, a problem, what `check` must say, and the bytes. Without texts CPython refuses the file."""
    found = []
    for part, text in texts_of(path):
        found.append((part, *judge(program, text), text.encode("utf-8")))
    if not found:
        with open(path, "rb") as file:
            found.append(("", "refused by CPython too", None, "refused", file.read()))
    return found


def putting(program, puts):
    """Puts all texts as `app.py` in one stream of `check`, and names each answer that isn't the one that is due."""
    script = b"".join(b"put app.py %d\n%s\n" % (len(data), data) for _, _, data in puts) + b"end\n"
    done = subprocess.run([program, "check"], input=script, stdout=subprocess.PIPE, check=False)
    lines = done.stdout.decode("utf-8", "replace").split("\n")
    wrong, counts, number = [], collections.Counter(), 0
    for (name, due, _), line in zip(puts, lines):
        if due == "edit":
            number += 1
            due = f"edit {number}"
        if line != due and not (due == "refused" and re.fullmatch(r"refused app\.py:\d+:\d+ \S+(\([^)]*\))?", line)):
            wrong.append((name, f"check says {line!r}, and not {due!r}"))
        kind = line.split(" ", 2)[2] if line.startswith("refused") else line.split(" ")[0]
        counts["Twice" if kind.startswith("Twice(") else kind] += 1
    if len(lines) != len(puts) + 2 or done.returncode not in (8, 9, 10):
        wrong.append(("check", f"{len(lines)} lines, status {done.returncode}"))
    return counts, wrong


def main():
    warnings.simplefilter("ignore")
    sys.setrecursionlimit(100_000)
    programs = []
    for name in ("dump", "review"):
        made = subprocess.run([os.path.join(HERE, "..", "tools", "program"), name], stdout=subprocess.PIPE, text=True, check=False)
        if made.returncode != 0:
            print(f"real_python: {name} doesn't build")
            return 1
        programs.append(made.stdout.strip())
    program, review = programs
    whole, parts, wrong, puts = collections.Counter(), collections.Counter(), [], []
    with concurrent.futures.ThreadPoolExecutor(os.cpu_count() or 1) as pool:
        paths = list(files())
        for path, found in zip(paths, pool.map(lambda path: judge_file(program, path), paths)):
            for part, name, problem, due, data in found:
                (parts if part else whole)[name] += 1
                puts.append((os.path.basename(path) + part, due, data))
                if problem:
                    wrong.append((os.path.basename(path) + part, problem))
    answers, differing = putting(review, puts)
    wrong += differing
    for title, counts in (("files", whole), ("functions and classes", parts), ("puts to check", answers)):
        print(f"real_python: {sum(counts.values())} {title}")
        for name, count in sorted(counts.items(), key=lambda one: -one[1]):
            print(f"  {count:6} {name}")
    for name, problem in wrong[:40]:
        print(f"{name}: {problem}")
    print(f"real_python: {len(wrong)} differences")
    return 1 if wrong else 0


if __name__ == "__main__":
    sys.exit(main())
