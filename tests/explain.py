#!/usr/bin/env python3
"""What `tools/pack.py --explain` says of refusals, each of which `review check` is asked for, and that what it proposes is accepted.

The forms of Pysa's model files that are `Syntax` stand here line by line, with what to write instead; docs/SPECIFICATION.md, 14,
has the same lines. Of each form of Python that is left out there is a text here, and of each fault of a configuration.
"""

import io
import json
import os
import subprocess
import sys
import tempfile

TOP = os.path.join(os.path.dirname(os.path.abspath(__file__)), "..")
sys.path.insert(0, os.path.join(TOP, "tools"))

import explain  # noqa: E402

# What the form is, the model, and what to write instead.
MODELS = [
    ("a model of a class", "class a.B(TaintSource[K]): ...", "def a.B.f(self) -> TaintSource[K]: ..."),
    ("a kind of `TaintInTaintOut`", "def a.f(x: TaintInTaintOut[LocalReturn]): ...", "def a.f(x: TaintInTaintOut): ..."),
    ("a sub-kind", "def a.f() -> TaintSource[A[B]]: ...", "def a.f() -> TaintSource[A_B]: ..."),
    ("a value", "def a.f(x: TaintSink[K] = None): ...", "def a.f(x: TaintSink[K] = ...): ..."),
    ("a value", "a.b: TaintSource[K] = None", "a.b: TaintSource[K] = ..."),
    ("a model of a name without its end", "a.b: TaintSource[K]", "a.b: TaintSource[K] = ..."),
    ("the type of a parameter", "def a.f(x: int, y: TaintSink[K]): ...", "def a.f(x, y: TaintSink[K]): ..."),
    ("the type of a result", "def a.f(x: TaintSink[K]) -> None: ...", "def a.f(x: TaintSink[K]): ..."),
    ("an annotation that the profile lacks", "def a.f(x: AttachToSink[Via[f]]): ...", "def a.f(x): ..."),
    ("an annotation that the profile lacks", "def a.f(x: AddFeatureToArgument[Via[f]]): ...", "def a.f(x): ..."),
    ("an annotation that the profile lacks", "def a.f(x: Sanitize): ...", "def a.f(x): ..."),
    ("an annotation that the profile lacks", "def a.f() -> CrossRepositoryTaint[TaintSource[K]]: ...", "def a.f() -> TaintSource[K]: ..."),
    ("a feature of a mark", "def a.f(x: TaintSink[K, ViaValueOf[x]]): ...", "def a.f(x: TaintSink[K]): ..."),
    ("marks joined by `|`", "def a.f() -> TaintSource[K] | TaintSource[L]: ...", "def a.f() -> Union[TaintSource[K], TaintSource[L]]: ..."),
    ("a `Union` of one mark", "def a.f(x: Union[TaintSink[K]]): ...", "def a.f(x: TaintSink[K]): ..."),
    ("a mark without a kind", "def a.f(x: TaintSink): ...", "def a.f(x: TaintSink[K]): ..."),
    ("a model of a property", "@property\ndef a.B.f(self) -> TaintSource[K]: ...", "a.B.f: TaintSource[K] = ..."),
    ("a model of a setter", "@a.B.f.setter\ndef a.B.f(self, v: TaintSink[K]): ...", "a.B.f: TaintSink[K] = ..."),
    ("a decorator that the profile lacks", "@Entrypoint\ndef a.f(x): ...", "def a.f(x): ..."),
    ("a body on a line of its own", "def a.f(x: TaintSink[K]):\n    ...", "def a.f(x: TaintSink[K]): ..."),
    ("a body", "def a.f(x: TaintSink[K]): pass", "def a.f(x: TaintSink[K]): ..."),
    ("a model of an asynchronous function", "async def a.f(x: TaintSink[K]): ...", "def a.f(x: TaintSink[K]): ..."),
    ("an import", "import a", "# import a"),
]

# Forms of model files that are told by name.
NAMED_MODELS = {
    "AppliesTo": "def a.f(x: AppliesTo[0, TaintSink[K]]): ...",
    "ParameterPath": "def a.f(x: ParameterPath[_[0]]): ...",
    "ReturnPath": "def a.f() -> ReturnPath[_[0]]: ...",
    "Via": "def a.f(x: TaintSink[K, Via[f]]): ...",
    "Updates": "def a.f(x: Updates[self]): ...",
    "Transform": "def a.f(x: Transform[T]): ...",
    "PartialSink": "def a.f(x: PartialSink[K[a]]): ...",
    "SkipAnalysis": "@SkipAnalysis\ndef a.f(x): ...",
    "SkipOverrides": "@SkipOverrides\ndef a.f(x): ...",
    "Sanitize": "@Sanitize\ndef a.f(x): ...",
    "ModelQuery": "ModelQuery(name = 'q')",
}

FORMS = {
    "async": "async def f():\n    pass\n",
    "await": "def f(x):\n    return await x\n",
    "lambda": "f = lambda x: x\n",
    "yield": "def f():\n    yield 1\n",
    "comprehension": "a = [x for x in y]\n",
    "walrus": "if a := 1:\n    pass\n",
    "star": "f(*a)\n",
    "super": "def f(x):\n    super().f(x)\n",
    "init call": "def f(x):\n    A.__init__(x)\n",
    "callee": "f(1)(2)\n",
    "slice": "a = b[1:2]\n",
    "bytes": "a = b'x'\n",
    "float": "a = 1.5\n",
    "set": "a = {1, 2}\n",
    "with": "with a:\n    pass\n",
    "try": "try:\n    pass\nfinally:\n    pass\n",
    "raise": "def f():\n    raise A\n",
    "global": "def f():\n    global a\n",
    "nonlocal": "def f():\n    nonlocal a\n",
    "del": "del a\n",
    "match": "match a:\n    case 1:\n        pass\n",
    "inner def": "def f():\n    def g():\n        pass\n",
    "inner class": "def f():\n    class A:\n        pass\n",
    "inner import": "def f():\n    import a\n",
    "bases": "class A(B, C):\n    pass\n",
    "class keyword": "class A(metaclass=B):\n    pass\n",
    "class statement": "class A:\n    f(1)\n",
    "staticmethod": "class A:\n    @staticmethod\n    def f():\n        pass\n",
    "classmethod": "class A:\n    @classmethod\n    def f(c):\n        pass\n",
    "property": "class A:\n    @property\n    def f(s):\n        pass\n",
    "decorator": "@a[1]\ndef f():\n    pass\n",
    "chained assignment": "a = b = 1\n",
    "star import": "from a import *\n",
    "relative import": "from . import a\n",
    "loop else": "for a in b:\n    pass\nelse:\n    pass\n",
    "variable call": "def f(x):\n    x()\n",
}

FAULTS = {
    "BadChar": "a = $\n",
    "MixedIndent": "if a:\n    b\nif a:\n\tb\n",
    "BadDedent": "if a:\n    b\n  c\n",
    "OpenString": "a = 'x\n",
    "OpenBracket": "a = (1\n",
    "BadEscape": "a = '\\N{DIGIT ONE}'\n",
    "BadNumber": "a = 1x\n",
    "WideNumber": "a = 0x" + "f" * 32 + "\n",
    "NotNormal": "\ufb01 = 1\n",
    "FStringForm": "a = f'{b:>3}'\n",
    "TooDeep": "a = " + "(" * 101 + ")" * 101 + "\n",
    "Twice(f)": "def f():\n    pass\ndef f():\n    pass\n",
    "Syntax": "a = [1] [\n] 2\n",
    "TooLarge": "#" * 1_048_577,
    "NotUtf8": b"a = '\xff'\n",
}

S, K, R = {"name": "S"}, {"name": "K"}, {"name": "r", "code": 1, "sources": ["S"], "sinks": ["K"], "message_format": "m"}


def config(**other):
    return {"sources": [S], "sinks": [K], "rules": [R], **other}


# A configuration, its fault, and what the sentence must name.
CONFIGS = [
    ("{", "NotJson", []),
    ([], "WrongType", ['"sources"']),
    ({"sources": [], "rules": []}, "Missing", ['"sinks"']),
    (config(sources={}), "WrongType", ['"sources"', "list"]),
    (config(sources=[S, {"nam": "T"}]), "Missing", ['"sources", item 2', '"name"']),
    (config(sinks=[{"name": "a b"}]), "WrongType", ['"sinks", item 1', '"name"', "a b"]),
    (config(sinks=[K, {"name": "L", "comment": 3}]), "WrongType", ['"sinks", item 2 (name L)', '"comment"']),
    (config(sources=[S, S]), "Twice", ["kind S", '"sources"', "item 2"]),
    (config(rules=[R, {**R, "code": 2, "sinks": ["Exec"]}]), "UnknownKind", ["kind Exec", '"sinks"', '"rules", item 2 (name r)']),
    (config(rules=[{**R, "sources": ["K"]}]), "UnknownKind", ["kind K", '"sources"']),
    (config(rules=[{**R, "sources": ["Q", 7]}]), "WrongType", ['"sources"', "7"]),
    (config(rules=[R, R]), "CodeTwice", ["code 1", '"rules", item 2']),
    (config(rules=[{**R, "code": 1.5}]), "WrongType", ['"code"', "1.5"]),
    (config(rules=[{**R, "code": 1 << 32}]), "WrongType", ['"code"']),
    (config(rules=[{key: R[key] for key in R if key != "message_format"}]), "Missing", ['"message_format"']),
    (config(features=[{"name": 1}]), "WrongType", ['"features", item 1', '"name"']),
    (config(sources=[{"name": f"S{number}"} for number in range(256)], rules=[]), "TooManyKinds", ["257"]),
]


def block():
    """The lines of docs/SPECIFICATION.md."""
    lines = []
    for what, model, instead in MODELS:
        lines += [f"# {what}", *(f"- {line}" for line in model.split("\n")), *(f"+ {line}" for line in instead.split("\n"))]
    return "\n".join(lines)


def cases():
    """A path, bytes, the fault that is due (None: accepted), and words of which the sentence must have each."""
    for what, model, instead in MODELS:
        yield "m.pysa", model + "\n", "Syntax", [what + ";"]
        yield "m.pysa", instead + "\n", None, []
    for name, model in NAMED_MODELS.items():
        yield "m.pysa", model + "\n", f"Unsupported({name})", [explain.MODEL_FORMS[name]]
    for name, text in FORMS.items():
        yield "app.py", text, f"Unsupported({name})", [explain.FORMS[name]]
    for name, text in FAULTS.items():
        yield "app.py", text, name, [explain.FAULTS[name.split("(")[0]]]
    yield "not-a-name.py", "", "BadPath", [explain.FAULTS["BadPath"]]
    for value, fault, words in CONFIGS:
        yield "taint.config", value if isinstance(value, str) else json.dumps(value), fault, words


def fail(*words):
    print("explain:", *words)
    sys.exit(1)


def answered(found):
    """What `review check` answers to each put."""
    script = b"".join(b"put %s %d\n%s\n" % (path.encode(), len(data), data) for path, data, _, _ in found) + b"end\n"
    done = subprocess.run([os.path.join(TOP, "review"), "check"], input=script, stdout=subprocess.PIPE, check=False)
    lines = done.stdout.decode().splitlines()
    if len(lines) != len(found) + 1:
        fail(f"review gave {len(lines)} lines to {len(found)} puts, status {done.returncode}")
    return lines


def by_pack(folder):
    """The whole of --explain: lines go through as they are, and the caret stands below its column."""
    texts = {"a.py": "\tx = 1\n\té = '€'; y = 1.5\n", "b.py": "a = 1  # " + "x" * 300 + "\n", "taint.config": "{"}
    for name, text in texts.items():
        with open(os.path.join(folder, name), "w", encoding="utf-8") as file:
            file.write(text)
    said = "edit 1\nrefused a.py:2:15 Unsupported(float)\nrefused taint.config:0:0 NotJson\nrefused c.py:1:1 Syntax\nissues 0\n"
    words = [sys.executable, os.path.join(TOP, "tools", "pack.py"), "--explain", folder]
    done = subprocess.run(words, input=said.encode(), capture_output=True, check=False)
    lines = done.stdout.decode().split("\n")
    if [line for line in lines if not line.startswith(" ")] != said.split("\n"):
        fail("lines don't go through:", lines)
    if lines[2:5] != ["    \té = '€'; y = 1.5", "    \t" + " " * 13 + "^", "  " + explain.FORMS["float"]]:
        fail("no caret below the number:", lines[2:5])
    if lines[-2] != "  of the files that are kept; 3 refused before, of which nothing is said":
        fail("issues beside refusals:", lines[-3:])
    if "no JSON" not in lines[6] or "none of the files" not in lines[8] or (done.returncode, done.stderr) != (0, b""):
        fail("what isn't there:", lines[5:], done.stderr)
    if len(explain.show("x" * 1000, 900).split("\n")[1].rstrip("^")) > explain.WIDEST:
        fail("a long line isn't cut")


def main():
    found = [(path, text if isinstance(text, bytes) else text.encode("utf-8"), fault, words) for path, text, fault, words in cases()]
    with tempfile.TemporaryDirectory() as folder:
        by_pack(folder)
        at = os.path.join(folder, "text")
        for (path, data, fault, words), line in zip(found, answered(found)):
            told = explain.REFUSED.match(line)
            if (told["fault"] if told else None) != fault or (told is None and not line.startswith("edit ")):
                fail(f"{data[:80]!r} gives {line!r}, and not {fault}")
            if told is None:
                continue
            with open(at, "wb") as file:
                file.write(data)
            out = io.StringIO()
            explain.explain([line.encode()], out, {path: at})
            last = out.getvalue().split("\n")[-2]
            if not all(word in last for word in words):
                fail(f"{line}, {data[:80]!r}: {last!r} lacks one of {words}")
            if path == "taint.config" and next(explain.config_faults(data))[0] != fault:
                fail(f"{data[:80]!r}: the first fault isn't {fault}")
    missing = set(explain.FORMS) - set(FORMS) | set(explain.MODEL_FORMS) - set(NAMED_MODELS)
    if missing:
        fail("no text for", sorted(missing))
    with open(os.path.join(TOP, "docs", "SPECIFICATION.md"), encoding="utf-8") as file:
        if f"```\n{block()}\n```" not in file.read():
            fail("docs/SPECIFICATION.md, 14, lacks these lines:\n" + block())
    print(f"explain: {len(found)} texts, each as its refusal says")


if __name__ == "__main__":
    main()
