"""Explains the lines of `review`: of each refusal the line of the file, a caret, what the form is, and what to write instead.

`tools/pack.py --explain` calls `explain`. The forms and faults are those of docs/SPECIFICATION.md, 8, 13, 14, 16, 17 and 19.
"""

import json
import re

WIDEST = 120  # columns of a line that are shown
REFUSED = re.compile(r"refused (?P<path>[^:\s]+):(?P<line>\d+):(?P<column>\d+) (?P<fault>\S.*)\Z")
LINE_END = re.compile("\r\n|\r|\n")

# Forms of Python that the subset leaves out, by the name in Unsupported(..).
FORMS = {
    "async": "an asynchronous statement; write the plain `def` or `for`",
    "await": "an `await`; write the call without it",
    "lambda": "a lambda; write a `def` at the top level, and its name here",
    "yield": "a `yield`; let the function return a list",
    "comprehension": "a comprehension; write a `for` loop that fills a list or dictionary",
    "walrus": "an assignment inside an expression; write the assignment on a line before",
    "star": "a star: unpacking, or `*args` and `**kwargs`; write the arguments, parameters or items one by one",
    "super": "a use of `super`; write the base's name, as `Base.method(self, x)`",
    "init call": "a call of `__init__` by name; write the work as a method of another name, and call that",
    "callee": "a call of what another call or expression gives; write a function or method that takes the arguments of both",
    "slice": "a slice; write a loop over the places, or a function of yours that takes the part",
    "bytes": "a bytes literal; write a string",
    "float": "a number with a point, an exponent or a `j`; write a whole number, or a string",
    "set": "a set display; write a list, or a dictionary with the items as keys",
    "with": "a `with` statement; write the calls that open and close, one after the other",
    "try": "a `try` statement; write the body of the `try` alone",
    "raise": "a `raise`; write a `return`",
    "global": "a `global` statement; pass the value, or keep it in an attribute",
    "nonlocal": "a `nonlocal` statement; pass the value, or keep it in an attribute",
    "del": "a `del` statement; leave it out, or assign None",
    "match": "a `match` statement; write `if` and `elif`",
    "inner def": "a function inside a function or block; write it at the top level, with what it uses as parameters",
    "inner class": "a class inside a class, function or block; write it at the top level",
    "inner import": "an import inside a function, class or block; write it at the top level",
    "bases": "a class with several bases; write one base",
    "class keyword": "a keyword in a class's parentheses, as `metaclass=`; leave it out",
    "class statement": "a statement that a class block may not hold; write it in a method, or at the top level behind the class",
    "staticmethod": "a static method; write a function at the top level",
    "classmethod": "a class method; write a function at the top level that names the class",
    "property": "a property; write a method, and call it",
    "decorator": "a decorator that is more than a dotted name with literals; write a name, and literals as its arguments",
    "chained assignment": "an assignment to several targets in a row; write one line for each",
    "star import": "an import of all names; import the names that are used",
    "relative import": "a relative import; write the module's whole name",
    "loop else": "an `else` behind a loop; write a flag, and an `if` behind the loop",
    "variable call": "a call of a variable by its bare name; call a function that a `def` or an import names, or a method",
}

# Forms of Pysa's model files that are told by name.
MODEL_FORMS = {
    "AppliesTo": "a mark on a part of a value; write the mark without `AppliesTo[..]`, so for the whole value",
    "ParameterPath": "a path into a parameter; write the mark for the whole parameter",
    "ReturnPath": "a path into the result; write the mark for the whole result",
    "Via": "a feature of a mark; leave `Via[..]` out: features aren't kept",
    "Updates": "a mark of what a call changes; write `TaintInTaintOut` alone, which stands for the result",
    "Transform": "a transform of a mark; write a kind of its own in its place, and a rule for that",
    "PartialSink": "a part of a sink with several inputs; write a `TaintSink[..]` of a kind of its own, and a rule for that",
    "SkipAnalysis": "a model without an analysis of the body; leave the decorator out, or write `@SkipObscure` where that is meant",
    "SkipOverrides": "a call without its overrides; leave the decorator out",
    "Sanitize": "a sanitizer; leave the decorator out: no taint is taken away",
    "ModelQuery": "a query that makes models; write the models that it would make, one by one",
}

LACKING = r"(Sanitize|AttachTo|AddFeatureTo|CrossRepositoryTaint)\w*"

# Forms of model files that are Syntax: what stands before the place, what stands at it, and the sentence.
MODEL_SYNTAX = [
    (r"\A\s*\Z", r"class\b", "a model of a class; write one model for each method, as `def a.B.f(self, x: TaintSink[K]): ...`"),
    (r"\A\s*\Z", r"async\b", "a model of an asynchronous function; write `def`"),
    (r"\A\s*\Z", r"(import|from)\b", "an import; leave it out: models name things by their whole names"),
    (r"@\s*\Z", r"property\b", "a model of a property; write it as an attribute, as `a.B.f: TaintSource[K] = ...`"),
    (r"@\s*\Z", r"[\w.]+\.setter\b", "a model of a setter; write it as an attribute, as `a.B.f: TaintSink[K] = ...`"),
    (r"@\s*SkipObscure\s*\Z", r"\Z", "a decorator without its `def`; write it directly before one"),
    (r"@\s*\Z", r"\w", "a decorator that the profile lacks; leave it out: only `@SkipObscure` is known"),
    (r"TaintInTaintOut\s*\Z", r"\[", "a kind of `TaintInTaintOut`; write `TaintInTaintOut` alone"),
    (r"[\[,]\s*Via\w+\s*\Z", r"\[", "a feature of a mark; leave it out: features aren't kept"),
    (r"Taint(Source|Sink)\s*\[[^]]*\w\s*\Z", r"\[", "a sub-kind; write a kind of its own, as `A_B`, and declare that in taint.config"),
    (r"Taint(Source|Sink)\s*\[[^]]*\Z", r"[\"']", "a kind in quotes; write its name alone"),
    (r",\s*\Z", r"\]", "a comma behind the last one; leave it out"),
    (r"Taint(Source|Sink)\s*\Z", r"", "a mark without a kind; write `TaintSource[KIND]` or `TaintSink[KIND]`"),
    (r"Union\s*\[.*\]\s*\Z", r"\]", "a `Union` of one mark; write the mark alone"),
    (r"(\]|TaintInTaintOut)\s*\Z", r"\|", "marks joined by `|`; write `Union[.., ..]`"),
    (r"->.*(\]|TaintInTaintOut)\s*\Z", r",", "several marks of a result; write `Union[.., ..]`"),
    (r"=\s*\Z", r"", "a value; write `...` in its place"),
    (r"->\s*\Z", LACKING, "an annotation that the profile lacks; leave it out with its `->`"),
    (r"->\s*\Z", r"", "the type of a result; leave it out with its `->`: only marks stand there"),
    (r"\(.*:\s*\Z", LACKING, "an annotation that the profile lacks; leave it out with its `:`"),
    (r"\)\s*(->.*)?:\s*\Z", r"\Z", "a body on a line of its own; write `...` behind the `:`"),
    (r"\)\s*(->.*)?:\s*\Z", r"", "a body; write `...`"),
    (r"\(.*:\s*\Z", r"", "the type of a parameter; leave it out with its `:`: only marks stand there"),
    (r"\)\s*(->.*)?\Z", r"\Z", "a model without its end; write `: ...`"),
    (r"\A[\w.]+\s*:.*(\]|TaintInTaintOut)\s*\Z", r"", "a model of a name without its end; write `= ...` behind the mark"),
    (r"\A[\w.]+\s*\Z", r"=", "a model of a name without a mark; write `a.b: TaintSource[K] = ...`"),
    (r"\A[\w.]+\s*:\s*\Z", r"", "a type or another annotation; write a mark, as `a.b: TaintSource[K] = ...`, or leave the model out"),
]

# What is refused as Syntax in Python files though Python has it: likewise.
PYTHON_SYNTAX = [
    (r"\bdef\b.*\(.*\Z", r"[/*]", "a mark between parameters; leave it out"),
    (r"[\])]\s*\Z", r"=[^=]", "an assignment to a list, or to something in parentheses; write names with commas between them"),
    (r"\A\s*for\b.*\Z", r"", "a target of a loop that is more than names; write names, and take them apart in the block"),
    (r"\A\s*class\b.*\Z", r"", "a base that is more than a dotted name; write the name of a class"),
]

FAULTS = {
    "BadPath": "nothing of a project stands at this path; name a module by ASCII identifiers and `.py`, a model file by `.pysa`",
    "TooLarge": "a file of more than 1,048,576 bytes; cut it into several",
    "NotUtf8": "bytes that aren't UTF-8; write the file in UTF-8",
    "BadChar": "a character that begins nothing in Python; take it out, or put it into a string or comment",
    "MixedIndent": "spaces and tabs at the beginning of lines; write one kind of them in the whole file",
    "BadDedent": "a line that goes back to a column at which no block began; indent it as the block that it belongs to",
    "OpenString": "a string without its end; write the closing quotes",
    "OpenBracket": "a bracket that is still open at the end of the file; close it",
    "BadEscape": r"an escape that is none, or `\N{..}` or a surrogate; write the character itself, or `\u` with four digits",
    "BadNumber": "a number with a letter right behind it; put a space or an operator between them",
    "WideNumber": "a whole number above 2^127 - 1; write it as a string, or as a product",
    "NotNormal": "a name that isn't in the normal form NFKC; write its normal letters",
    "FStringForm": "a formatted string with quotes, a format, `!`, a line end or the like; write plain fields, or join strings by `+`",
    "TooDeep": "more than 100 nestings; give a part of it a name on a line before",
    "Twice": "a name that a `def`, a class or an import binds and something else binds too; give one of them another name",
    "Syntax": "no form of the subset of Python goes on here (docs/SPECIFICATION.md, 16)",
}

OTHERS = {
    "not yet": "the files that no line refuses are read, and not analysed: today only the cut form is (docs/SPECIFICATION.md, 2)",
    "full journal": "too many edits, or too much text, in one stream; begin a new one",
    "full files": "more than 4,096 files; pack a part of the project",
    "full text": "more than 32 MiB of files; pack a part of the project",
    "full callables": "more than 65,535 functions and modules; pack a part of the project",
    "read fault": "standard input failed; start again",
    "input too long": "more than 512 MiB of commands; pack a part of the project",
}


def by_place(rules, before, rest):
    """The sentence of the first rule whose two patterns match at a place, or None."""
    for behind, ahead, sentence in rules:
        if re.search(behind, before) and re.match(ahead, rest):
            return sentence
    return None


def sentence(path, fault, before, rest, data):
    """What a refusal is about, and what to write instead."""
    if path == "taint.config" and data is not None:
        return config_sentence(fault, data)
    name, _, inside = fault.partition("(")
    inside = inside.rstrip(")")
    if name == "Unsupported":
        table = MODEL_FORMS if path.endswith(".pysa") else FORMS
        return table.get(inside, f"a form that is left out: {inside}")
    if fault == "Syntax" and path.endswith(".pysa"):
        return by_place(MODEL_SYNTAX, before, rest) or "no form of the profile of model files goes on here (docs/SPECIFICATION.md, 14)"
    if fault == "Syntax":
        return by_place(PYTHON_SYNTAX, before, rest) or FAULTS["Syntax"]
    return FAULTS.get(name, "a fault that this explanation doesn't know")


# The configuration: its faults in the order in which they are told, each with what it is about.


def is_kind(value):
    return isinstance(value, str) and re.fullmatch(r"[A-Za-z_][A-Za-z0-9_]{0,63}", value) is not None


def is_code(value):
    return isinstance(value, int) and not isinstance(value, bool) and 0 <= value < 1 << 32


def is_text(value):
    return isinstance(value, str)


def field(where, item, key, is_right, wanted, needed=True):
    """The faults of one field of an object."""
    if key not in item:
        if needed:
            yield "Missing", f'{where}: the key "{key}" is missing; write it'
    elif not is_right(item[key]):
        yield "WrongType", f'{where}: the key "{key}" wants {wanted}, and not {json.dumps(item[key])[:60]}'


def called(item):
    """The name or the code of an item of a list, where it has one."""
    if isinstance(item, dict):
        for key in ("name", "code"):
            if isinstance(item.get(key), (str, int)):
                return f" ({key} {item[key]})"
    return ""


def each(config, key, needed=True):
    """The faults of a list itself, and its items with how each is called."""
    value = config.get(key)
    if key not in config:
        return [("Missing", f'the key "{key}" is missing; write a list, if need be an empty one')] if needed else [], []
    if not isinstance(value, list):
        return [("WrongType", f'the key "{key}" wants a list')], []
    return [], [(f'"{key}", item {number}{called(item)}', item) for number, item in enumerate(value, 1)]


def kinds_in(config, key):
    """The names of the sources or the sinks, as far as they have some."""
    value = config.get(key)
    items = value if isinstance(value, list) else []
    return [item["name"] for item in items if isinstance(item, dict) and isinstance(item.get("name"), str)]


def object_faults(where, item):
    if not isinstance(item, dict):
        yield "WrongType", f"{where}: an object is wanted"


def kind_list_faults(config, key):
    faults, items = each(config, key)
    yield from faults
    before = set()
    for where, item in items:
        if not isinstance(item, dict):
            yield from object_faults(where, item)
            continue
        yield from field(where, item, "name", is_kind, "an ASCII identifier of at most 64 characters")
        name = item.get("name")
        if is_kind(name) and name in before:
            yield "Twice", f'{where}: the kind {name} stands in "{key}" already; leave one of them out'
        before.update([name] if isinstance(name, str) else [])
        yield from field(where, item, "comment", is_text, "a string", needed=False)


def rule_kinds_faults(config, where, item, key):
    """The faults of a rule's sources, or of its sinks."""
    yield from field(where, item, key, lambda value: isinstance(value, list), "a list of names")
    names = item.get(key)
    if isinstance(names, list):
        known = kinds_in(config, key)
        for one in names:
            if not is_text(one):
                yield "WrongType", f'{where}: the key "{key}" wants names, and not {json.dumps(one)[:60]}'
        for one in names:
            if is_text(one) and one not in known:
                yield "UnknownKind", f'{where}: its key "{key}" has the kind {one}, unknown to "{key}"; declare it there, or mend it'


def rule_faults(config):
    faults, items = each(config, "rules")
    yield from faults
    codes = set()
    for where, item in items:
        if not isinstance(item, dict):
            yield from object_faults(where, item)
            continue
        yield from field(where, item, "name", is_text, "a string")
        yield from field(where, item, "code", is_code, "a whole number from 0 to 4294967295")
        code = item.get("code")
        if is_code(code):
            if code in codes:
                yield "CodeTwice", f"{where}: an earlier rule has the code {code}; give this one another"
            codes.add(code)
        yield from rule_kinds_faults(config, where, item, "sources")
        yield from rule_kinds_faults(config, where, item, "sinks")
        yield from field(where, item, "message_format", is_text, "a string")


def feature_faults(config):
    faults, items = each(config, "features", needed=False)
    yield from faults
    for where, item in items:
        if not isinstance(item, dict):
            yield from object_faults(where, item)
            continue
        yield from field(where, item, "name", is_text, "a string")
        yield from field(where, item, "comment", is_text, "a string", needed=False)


def config_faults(data):
    """The faults of a configuration, each with a sentence, in the order in which `review` tells them."""
    try:
        config = json.loads(data.decode("utf-8"))
    except (ValueError, RecursionError) as error:
        yield "NotJson", f"no JSON in UTF-8: {error}"
        return
    if not isinstance(config, dict):
        yield "WrongType", 'the whole file wants an object with the keys "sources", "sinks" and "rules"'
        return
    yield from kind_list_faults(config, "sources")
    yield from kind_list_faults(config, "sinks")
    yield from rule_faults(config)
    yield from feature_faults(config)
    count = len(kinds_in(config, "sources")) + len(kinds_in(config, "sinks"))
    if count > 255:
        yield "TooManyKinds", f'"sources" and "sinks" have {count} kinds together, and at most 255 are taken; leave some out'


def config_sentence(fault, data):
    """The sentence of the first fault of this name, which is the file's first fault where the two readings agree."""
    return next((said for name, said in config_faults(data) if name == fault), f"a fault of the configuration: {fault}")


# The lines


def show(text, column):
    """A line and a caret below its column, cut where it is long."""
    begin = max(0, column - 1 - WIDEST // 2) if len(text) > WIDEST else 0
    shown = text[begin : begin + WIDEST]
    blank = "".join("\t" if one == "\t" else " " for one in shown[: column - 1 - begin])
    return f"    {shown}\n    {blank}^\n"


def refusal(found, files):
    """What stands behind the line of a refusal."""
    path, place = found["path"], (int(found["line"]), int(found["column"]))
    data = None
    if path in files:
        try:
            with open(files[path], "rb") as file:
                data = file.read()
        except OSError as error:
            return f"  {path} can't be read now: {error.strerror}\n"
    lines = LINE_END.split(data.decode("utf-8-sig", "replace")) if data is not None else []
    text = lines[place[0] - 1] if 0 < place[0] <= len(lines) else None
    before, rest = (text[: place[1] - 1], text[place[1] - 1 :]) if text is not None else ("", "")
    if not files.get(path):
        return f"  {path} is none of the files that are named here\n  {sentence(path, found['fault'], '', '', None)}\n"
    return (show(text, place[1]) if text is not None else "") + f"  {sentence(path, found['fault'], before, rest, data)}\n"


def explain(answers, out, files):
    """Writes the lines of `answers` to `out`, and behind each that refuses or ends without an answer what it is about."""
    refused = 0
    for line in answers:
        line = line.decode("utf-8", "replace").rstrip("\n")
        out.write(line + "\n")
        found = REFUSED.match(line)
        if found:
            refused += 1
            out.write(refusal(found, files))
        elif line.startswith("issues ") and refused:
            out.write(f"  of the files that are kept; {refused} refused before, of which nothing is said\n")
        elif line in OTHERS:
            out.write(f"  {OTHERS[line]}\n")
        out.flush()
