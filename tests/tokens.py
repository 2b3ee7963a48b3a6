#!/usr/bin/env python3
"""The tokens of `dump tokens` against CPython's own `tokenize`, over the Python standard library of this machine.

Each file is read where it lies. Of an accepted file every token is compared: its place, its kind, and the value of names, whole
numbers and strings. (A formatted string is one token in CPython before 3.12, so the tokens between its quotes are passed over.)
A refused file counts under its fault, and the fault is explained where CPython refuses the file too, or where the text at
the fault's place is what the subset leaves out. Any difference, and any fault that isn't explained, fails.
"""

import ast
import collections
import concurrent.futures
import io
import os
import re
import subprocess
import sys
import sysconfig
import tokenize
import unicodedata
import warnings

ROOT = os.path.join(os.path.dirname(os.path.abspath(__file__)), "..")
WHITE = " \t\f"
NAMES = {"Newline": "NEWLINE", "Indent": "INDENT", "Dedent": "DEDENT"}
SKIPPED = {tokenize.ENCODING, tokenize.COMMENT, tokenize.NL, tokenize.ENDMARKER}


def source_of(path):
    """The text of a file as CPython reads it, or None where it isn't UTF-8."""
    with open(path, "rb") as file:
        data = file.read()
    try:
        encoding, _ = tokenize.detect_encoding(io.BytesIO(data).readline)
        if encoding.lower() not in ("utf-8", "utf-8-sig", "ascii"):
            return None
        text = data.decode("utf-8-sig")
    except (SyntaxError, UnicodeDecodeError):
        return None
    return text.replace("\r\n", "\n").replace("\r", "\n")


def theirs(text):
    """CPython's tokens, or the error that it answers."""
    found = []
    try:
        for token in tokenize.generate_tokens(io.StringIO(text).readline):
            if token.type == tokenize.ERRORTOKEN and token.string.strip(WHITE):
                return f"error token {token.string!r}"
            if token.type not in SKIPPED and token.type != tokenize.ERRORTOKEN:
                found.append(token)
    except (tokenize.TokenError, SyntaxError) as error:
        return str(error)
    return found


def is_formatted(token):
    return token.type == tokenize.STRING and "f" in token.string[: re.search("['\"]", token.string).start()].lower()


def kind_of(token):
    """The name under which a token of CPython's is compared."""
    if token.type in (tokenize.NEWLINE, tokenize.INDENT, tokenize.DEDENT):
        return tokenize.tok_name[token.type]
    if token.type == tokenize.NUMBER:
        return "Number" if isinstance(ast.literal_eval(token.string), int) else "Float"
    if token.type == tokenize.STRING:
        prefix = token.string[: re.search("['\"]", token.string).start()].lower()
        return "FString" if "f" in prefix else "Bytes" if "b" in prefix else "Text"
    if tokenize.tok_name[token.type] == "FSTRING_START":
        return "FString"
    return "word"


def value_of(token, kind):
    """What our value has to be, as `dump` prints it."""
    if kind == "Number":
        return str(ast.literal_eval(token.string))
    if kind == "Text":
        return ast.literal_eval(token.string).encode("utf-8", "surrogatepass").hex()
    return ""


def without_formatted(tokens):
    """CPython's tokens with each formatted string as one, at its beginning."""
    depth = 0
    for token in tokens:
        name = tokenize.tok_name[token.type]
        if depth == 0 or name == "FSTRING_START" and depth == 0:
            yield token
        depth += (name == "FSTRING_START") - (name == "FSTRING_END")


def ours(lines):
    """Our tokens as (line, column, kind, value), each formatted string as one."""
    inside = False
    for line in lines:
        place, kind, *value = line.split(" ", 2)
        row, column = place.split(":")
        if kind == "FStringEnd":
            inside = False
        elif kind == "FStringStart":
            inside = True
            yield int(row), int(column), "FString", ""
        elif not inside:
            yield int(row), int(column), NAMES.get(kind, kind), value[0] if value else ""


def words():
    """The spelling of each keyword and operator, by our kind."""
    import keyword

    table = {word: word for word in keyword.kwlist}
    signs = (
        "Plus + Minus - Star * DoubleStar ** Slash / DoubleSlash // Percent % At @ LeftShift << RightShift >> Ampersand & Bar | "
        "Caret ^ Tilde ~ ColonEqual := Less < Greater > LessEqual <= GreaterEqual >= DoubleEqual == NotEqual != LeftParen ( "
        "RightParen ) LeftBracket [ RightBracket ] LeftBrace { RightBrace } Comma , Colon : Dot . Semicolon ; Equal = Arrow -> "
        "PlusEqual += MinusEqual -= StarEqual *= SlashEqual /= DoubleSlashEqual //= PercentEqual %= AtEqual @= AmpersandEqual &= "
        "BarEqual |= CaretEqual ^= RightShiftEqual >>= LeftShiftEqual <<= DoubleStarEqual **= Ellipsis ..."
    ).split()
    table.update(dict(zip(signs[1::2], signs[0::2])))
    for word in keyword.kwlist:
        table[word] = word if word in ("False", "None", "True") else word.capitalize()
    return table


WORDS = words()


def difference(text, lines):
    """The first difference between our tokens and CPython's, or None."""
    found = theirs(text)
    if isinstance(found, str):
        return f"CPython refuses it: {found}"
    wanted, got = list(without_formatted(found)), list(ours(lines))
    last = (text.count("\n") + 1, len(text) - text.rfind("\n"))
    for token, (row, column, kind, value) in zip(wanted, got):
        name = kind_of(token)
        if name == "word":
            name = WORDS.get(token.string, "Name")
            expected = token.string if name == "Name" else ""
        else:
            expected = value_of(token, name)
        at = (token.start[0], token.start[1] + 1)
        if name == "INDENT":
            at = (token.end[0], token.end[1] + 1)
        at_end = name in ("DEDENT", "NEWLINE") and token.start[0] >= last[0]
        if (name, expected) != (kind, value) or (at != (row, column) and not (at_end and (row, column) == last)):
            return f"{at} {name} {expected!r}, but {(row, column)} {kind} {value!r}"
    if len(wanted) != len(got):
        return f"{len(wanted)} tokens, but {len(got)}"
    return None


def explained(text, kind, row, column):
    """Why the subset refuses a text at this place, or None."""
    line = text.split("\n")[row - 1]
    rest = line[column - 1 :]
    before = line[: column - 1]
    if kind == "FStringForm" and rest[:1] in "'\"" and re.search(r"(?i)(?<!\w)(f|fr|rf)$", before):
        return "f-string of another form"
    if kind == "WideNumber" and re.match(r"[0-9]", rest):
        return "a whole number above 2^127 - 1"
    if kind == "NotNormal":
        name = re.match(r"\w+", rest)
        if name and unicodedata.normalize("NFKC", name.group()) != name.group():
            return "an identifier outside NFKC"
    if kind == "MixedIndent" and rest[:1] in WHITE and not before.strip(WHITE):
        return "tabs and spaces in one file"
    if kind == "BadNumber" and re.match(r"(0[xX][0-9a-fA-F_]+|0[oO][0-7_]+|0[bB][01_]+|[0-9._]+([eE][-+]?[0-9_]+)?)[jJ]?\w", rest):
        return "a number directly before a letter"
    if kind == "BadEscape" and re.match(r"\\(N|u[dD][89a-fA-F]|U0000[dD][89a-fA-F])", rest):
        return "an escape that is left out"
    with warnings.catch_warnings():
        warnings.simplefilter("ignore")
        try:
            ast.parse(text)
        except (SyntaxError, ValueError, RecursionError, MemoryError):
            return "CPython refuses it too"
    return None


def look_at(job):
    """What became of a file: ('same' | 'skipped' | fault, explanation or None)."""
    program, path = job
    text = source_of(path)
    if text is None:
        return "skipped", None
    with open(path, "rb") as file:
        done = subprocess.run([program, "tokens"], stdin=file, capture_output=True, check=False)
    lines = done.stdout.decode().splitlines()
    with warnings.catch_warnings():
        warnings.simplefilter("ignore")
        if done.returncode == 0:
            return "same", difference(text, lines)
        if done.returncode == 1 and len(lines) == 1 and lines[0].startswith("fault "):
            _, kind, place = lines[0].split()
            row, column = map(int, place.split(":"))
            why = explained(text, kind, row, column)
            return (f"{kind}: {why}", None) if why else (kind, f"not explained, at {place}")
    return "failed", f"status {done.returncode}: {done.stderr[-200:]!r}"


def library():
    """The Python files of the standard library, without installed packages."""
    top = sysconfig.get_paths()["stdlib"]
    for at, folders, names in os.walk(top):
        folders[:] = sorted(name for name in folders if name not in ("site-packages", "__pycache__"))
        yield from (os.path.join(at, name) for name in sorted(names) if name.endswith(".py"))


def main():
    made = subprocess.run([os.path.join(ROOT, "tools", "program"), "dump"], capture_output=True, text=True, check=False)
    if made.returncode != 0:
        print(f"tokens: no program: {made.stderr[-300:]}")
        return 1
    program = made.stdout.strip()
    paths = list(library())
    if not paths:
        print("tokens: skips, since this machine has no Python standard library in files")
        return 0
    counts, wrong = collections.Counter(), []
    with concurrent.futures.ProcessPoolExecutor() as pool:
        jobs = [(program, path) for path in paths]
        for path, (outcome, why) in zip(paths, pool.map(look_at, jobs, chunksize=16)):
            counts[outcome] += 1
            if why is not None:
                wrong.append(f"{os.path.relpath(path, sysconfig.get_paths()['stdlib'])}: {outcome}: {why}")
    print(f"tokens: {counts.pop('same', 0)} files have CPython's tokens, {counts.pop('skipped', 0)} aren't UTF-8 and are skipped")
    for outcome, count in sorted(counts.items()):
        print(f"tokens: {count} refused by {outcome}")
    for line in wrong[:20]:
        print(f"tokens: {line}")
    print(f"tokens: {len(wrong)} unexplained")
    return 1 if wrong else 0


if __name__ == "__main__":
    sys.exit(main())
