"""Trees of Python files in one plain shape: as `dump trees` prints them, and as CPython's `ast` gives them.

A node is a tuple that begins with its word. Both sides say the same of shape, names and constants. Places stand in an expression's
second item: the place of its first character, without parentheses round the whole, as (line, column), from 1 and in characters.
Inside the fields of formatted strings CPython's places aren't exact before 3.12, so both sides have None there.
"""

import ast
import re

UNARY = {ast.UAdd: "+", ast.USub: "-", ast.Invert: "~"}
BINARY = {
    ast.Add: "+", ast.Sub: "-", ast.Mult: "*", ast.MatMult: "@", ast.Div: "/", ast.FloorDiv: "//", ast.Mod: "%",
    ast.LShift: "<<", ast.RShift: ">>", ast.BitAnd: "&", ast.BitXor: "^", ast.BitOr: "|", ast.Pow: "**",
}
COMPARISONS = {
    ast.Lt: "<", ast.LtE: "<=", ast.Gt: ">", ast.GtE: ">=", ast.Eq: "==", ast.NotEq: "!=", ast.In: "in", ast.NotIn: "not-in",
    ast.Is: "is", ast.IsNot: "is-not",
}
CONSTANTS = ("True", "False", "None", "...")


class Left(Exception):
    """A tree that the subset leaves out."""


# ---- CPython's trees


class Theirs:
    """CPython's trees of one text in the plain shape."""

    def __init__(self, text):
        self.text = text
        self.lines = [line.encode("utf-8", "surrogatepass") for line in re.split("\r\n|\r|\n", text)]

    def column(self, line, offset):
        return len(self.lines[line - 1][:offset].decode("utf-8", "surrogatepass")) + 1

    def at(self, node):
        return (node.lineno, self.column(node.lineno, node.col_offset))

    def word_at(self, node):
        """The word that stands where a node begins."""
        return re.match(rb"[a-z]*", self.lines[node.lineno - 1][node.col_offset :]).group().decode()

    def module(self):
        return [self.statement(one) for one in ast.parse(self.text).body]

    def expression(self):
        return self.expr(ast.parse(self.text).body[0].value)

    # expressions

    def expr(self, node):
        method = getattr(self, "expr_" + type(node).__name__, None)
        if method is None:
            raise Left(type(node).__name__)
        return method(node)

    def all(self, nodes):
        return [self.expr(node) for node in nodes]

    def expr_Name(self, node):
        return ("name", self.at(node), node.id)

    def expr_Constant(self, node):
        value = node.value
        if value is True or value is False or value is None:
            return (str(value), self.at(node))
        if value is ...:
            return ("...", self.at(node))
        if isinstance(value, int):
            return ("number", self.at(node), value)
        if isinstance(value, str):
            return ("text", self.at(node), value)
        raise Left(type(value).__name__)

    def expr_JoinedStr(self, node):
        parts = []
        for part in node.values:
            if isinstance(part, ast.Constant):
                parts.append(part.value)
            elif part.conversion != -1 or part.format_spec is not None:
                raise Left("format")
            else:
                parts.append(without_places(self.expr(part.value)))
        return ("formatted", self.at(node), joined_texts(parts))

    def expr_Tuple(self, node):
        return ("tuple", self.at(node), self.all(node.elts))

    def expr_List(self, node):
        return ("list", self.at(node), self.all(node.elts))

    def expr_Dict(self, node):
        if None in node.keys:
            raise Left("**")
        return ("dictionary", self.at(node), [(self.expr(k), self.expr(v)) for k, v in zip(node.keys, node.values)])

    def expr_IfExp(self, node):
        return ("conditional", self.at(node), self.expr(node.body), self.expr(node.test), self.expr(node.orelse))

    def expr_BoolOp(self, node):
        return ("or" if isinstance(node.op, ast.Or) else "and", self.at(node), self.all(node.values))

    def expr_UnaryOp(self, node):
        if isinstance(node.op, ast.Not):
            return ("not", self.at(node), self.expr(node.operand))
        return ("unary", self.at(node), UNARY[type(node.op)], self.expr(node.operand))

    def expr_Compare(self, node):
        return (
            "comparison", self.at(node), self.expr(node.left),
            [(COMPARISONS[type(op)], self.expr(right)) for op, right in zip(node.ops, node.comparators)],
        )

    def expr_BinOp(self, node):
        """The operators of one level as a list, so that long sums don't nest."""
        rights = []
        while isinstance(node, ast.BinOp) and not isinstance(node.op, ast.Pow):
            rights.append((BINARY[type(node.op)], node))
            node = node.left
        made = self.expr(node) if not isinstance(node, ast.BinOp) else self.power(node)
        for operator, whole in reversed(rights):
            made = ("binary", self.at(whole), operator, made, self.expr(whole.right))
        return made

    def power(self, node):
        return ("binary", self.at(node), "**", self.expr(node.left), self.expr(node.right))

    def chain(self, node):
        steps = []
        while isinstance(node, (ast.Attribute, ast.Subscript, ast.Call)):
            steps.append(node)
            node = node.func if isinstance(node, ast.Call) else node.value
        made = self.expr(node)
        for step in reversed(steps):
            made = self.step(step, made)
        return made

    expr_Attribute = expr_Subscript = expr_Call = chain

    def step(self, node, base):
        if isinstance(node, ast.Attribute):
            name_at = (node.end_lineno, self.column(node.end_lineno, node.end_col_offset) - len(node.attr))
            return ("attribute", self.at(node), base, node.attr, name_at)
        if isinstance(node, ast.Subscript):
            return ("subscript", self.at(node), base, self.expr(node.slice))
        arguments = [(None, self.expr(argument)) for argument in node.args]
        for keyword in node.keywords:
            if keyword.arg is None:
                raise Left("**")
            arguments.append(((keyword.arg, self.at(keyword)), self.expr(keyword.value)))
        return ("call", self.at(node), base, arguments)

    # statements

    def block(self, body):
        return [self.statement(one) for one in body]

    def statement(self, node):
        method = getattr(self, "statement_" + type(node).__name__, None)
        if method is None:
            raise Left(type(node).__name__)
        return method(node)

    def optional(self, node):
        return None if node is None else self.expr(node)

    def statement_Expr(self, node):
        return ("expression", self.expr(node.value))

    def statement_Assign(self, node):
        if len(node.targets) != 1:
            raise Left("chained assignment")
        return ("assign", self.expr(node.targets[0]), self.expr(node.value))

    def statement_AnnAssign(self, node):
        return ("annotate", self.expr(node.target), self.expr(node.annotation), self.optional(node.value))

    def statement_AugAssign(self, node):
        return (BINARY[type(node.op)] + "=", self.expr(node.target), self.expr(node.value))

    def statement_Assert(self, node):
        return ("assert", self.at(node), self.expr(node.test), self.optional(node.msg))

    def statement_Pass(self, node):
        return ("pass", self.at(node))

    def statement_Break(self, node):
        return ("break", self.at(node))

    def statement_Continue(self, node):
        return ("continue", self.at(node))

    def statement_Return(self, node):
        return ("return", self.at(node), self.optional(node.value))

    def statement_Import(self, node):
        return ("import", self.at(node), [(one.name, one.asname) for one in node.names])

    def statement_ImportFrom(self, node):
        if node.level:
            raise Left("relative import")
        return ("from", self.at(node), node.module, [(one.name, one.asname) for one in node.names])

    def statement_If(self, node):
        branches = [(self.at(node), self.expr(node.test), self.block(node.body))]
        begins = self.at(node)
        otherwise = node.orelse
        while len(otherwise) == 1 and isinstance(otherwise[0], ast.If) and self.word_at(otherwise[0]) == "elif":
            node = otherwise[0]
            branches.append((self.at(node), self.expr(node.test), self.block(node.body)))
            otherwise = node.orelse
        return ("if", begins, branches, self.block(otherwise))

    def statement_While(self, node):
        if node.orelse:
            raise Left("loop else")
        return ("while", self.at(node), self.expr(node.test), self.block(node.body))

    def statement_For(self, node):
        if node.orelse:
            raise Left("loop else")
        target = node.target
        names = target.elts if isinstance(target, ast.Tuple) else [target]
        if not all(isinstance(name, ast.Name) for name in names):
            raise Left("for target")
        return ("for", self.at(node), [(name.id, self.at(name)) for name in names], self.expr(node.iter), self.block(node.body))

    def decorators(self, node):
        found = []
        for one in node.decorator_list:
            name, arguments = one, None
            if isinstance(one, ast.Call):
                name, arguments = one.func, self.step(one, None)[3]
            found.append((ast.unparse(name), arguments))
        return found

    def statement_FunctionDef(self, node):
        given = node.args
        if given.vararg or given.kwarg or given.kwonlyargs or given.posonlyargs:
            raise Left("star")
        defaults = [None] * (len(given.args) - len(given.defaults)) + list(given.defaults)
        parameters = [
            (one.arg, self.at(one), self.optional(one.annotation), self.optional(default))
            for one, default in zip(given.args, defaults)
        ]
        return ("def", self.at(node), self.decorators(node), node.name, parameters, self.optional(node.returns), self.block(node.body))

    def statement_ClassDef(self, node):
        if node.keywords or len(node.bases) > 1:
            raise Left("bases")
        base = ast.unparse(node.bases[0]) if node.bases else None
        return ("class", self.at(node), self.decorators(node), node.name, base, self.block(node.body))


def joined_texts(parts):
    """Parts of a formatted string, with texts beside one another joined and empty ones left out."""
    found = []
    for part in parts:
        if isinstance(part, str) and found and isinstance(found[-1], str):
            found[-1] += part
        else:
            found.append(part)
    return [part for part in found if part != ""]


def without_places(tree):
    """A tree with None in place of each place."""
    if isinstance(tree, list):
        return [without_places(one) for one in tree]
    if isinstance(tree, tuple):
        if len(tree) == 2 and all(isinstance(one, int) and not isinstance(one, bool) for one in tree):
            return None
        return tuple(without_places(one) for one in tree)
    return tree


# ---- the trees of `dump trees`


class Node:
    """A line of `dump trees`, with the lines below it."""

    __slots__ = ("word", "rest", "parts")

    def __init__(self, word, rest):
        self.word = word
        self.rest = rest
        self.parts = []


def read_lines(printed):
    """The lines of `dump trees` as nodes."""
    roots, open_nodes = [], []
    for line in printed.splitlines():
        depth, word, *rest = line.split(" ")
        node = Node(word, rest)
        del open_nodes[int(depth) :]
        (open_nodes[-1].parts if open_nodes else roots).append(node)
        open_nodes.append(node)
    return roots


def place(text):
    line, column = text.split(":")
    return (int(line), int(column))


def text_of(digits):
    return bytes.fromhex(digits).decode("utf-8", "surrogatepass")


class Ours:
    """The trees of `dump trees` in the plain shape; `numbers` gathers the nodes' numbers."""

    def __init__(self):
        self.numbers = []

    def module(self, printed):
        return [self.statement(node) for node in read_lines(printed)]

    def numbered(self, node):
        self.numbers.append(place(node.rest[0]))
        return self.numbers[-1]

    def expr(self, node):
        if node.word != "postfix":  # whose number is that of its last step
            self.numbered(node)
        word, anchor, start = node.word, place(node.rest[1]), place(node.rest[2])
        values, parts = node.rest[3:], node.parts
        if word == "name":
            return ("name", anchor, values[0])
        if word == "number":
            return ("number", anchor, int(values[0]))
        if word == "text":
            return ("text", anchor, text_of(values[0]))
        if word in CONSTANTS:
            return (word, anchor)
        if word == "formatted":
            return ("formatted", anchor, joined_texts([self.part(part) for part in parts]))
        if word in ("tuple", "list", "or", "and"):
            return (word, anchor, [self.expr(part) for part in parts])
        if word == "dictionary":
            made = [self.expr(part) for part in parts]
            return (word, anchor, list(zip(made[::2], made[1::2])))
        if word == "conditional":
            return (word, anchor, *[self.expr(part) for part in parts])
        if word == "not":
            return (word, anchor, self.expr(parts[0]))
        if word in ("+", "-", "~"):
            return ("unary", anchor, word, self.expr(parts[0]))
        if word == "comparison":
            return (word, anchor, self.expr(parts[0]), [(one.word, self.expr(value)) for one, value in zip(parts[1::2], parts[2::2])])
        if word == "binary":
            made = self.expr(parts[0])
            for operator, value in zip(parts[1::2], parts[2::2]):
                made = ("binary", anchor, operator.word, made, self.expr(value))
            return made
        if word == "power":
            return ("binary", anchor, "**", self.expr(parts[0]), self.expr(parts[1]))
        assert word == "postfix", word
        return self.postfix(parts, start)

    def postfix(self, parts, start):
        begins = place(parts[0].rest[2])
        made = self.expr(parts[0])
        for step in parts[1:]:
            at = self.numbered(step)
            if step.word == "attribute":
                made = ("attribute", begins, made, step.rest[1], at)
            elif step.word == "subscript":
                made = ("subscript", begins, made, self.expr(step.parts[0]))
            else:
                made = ("call", begins, made, [self.argument(part) for part in step.parts])
        return made

    def part(self, node):
        if node.word == "text" and len(node.rest) == 1:
            return text_of(node.rest[0])
        return without_places(self.expr(node))

    def argument(self, node):
        if node.word == "keyword":
            return ((node.rest[1], place(node.rest[0])), self.expr(node.parts[0]))
        return (None, self.expr(node))

    # statements

    def block(self, node):
        return [self.statement(part) for part in node.parts]

    def statement(self, node):
        word, parts = node.word, node.parts
        at = place(node.rest[0])
        if word != "expression":
            self.numbers.append(at)
        if word == "expression":
            return (word, self.expr(parts[0]))
        if word == "assign" or (word.endswith("=") and len(parts) == 2):
            return (word, self.expr(parts[0]), self.expr(parts[1]))
        if word == "annotate":
            return (word, self.expr(parts[0]), self.expr(parts[1]), self.expr(parts[2]) if parts[2:] else None)
        if word == "assert":
            return (word, at, self.expr(parts[0]), self.expr(parts[1]) if parts[1:] else None)
        if word in ("pass", "break", "continue"):
            return (word, at)
        if word == "return":
            return (word, at, self.expr(parts[0]) if parts else None)
        if word == "import":
            return (word, at, named(parts))
        if word == "from":
            return (word, at, parts[0].rest[1], named(parts[1:]))
        if word == "if":
            branches = [(place(one.rest[0]), self.expr(one.parts[0]), self.block(one.parts[1])) for one in parts[:-1]]
            return (word, at, branches, self.block(parts[-1]))
        if word == "while":
            return (word, at, self.expr(parts[0]), self.block(parts[1]))
        if word == "for":
            names = [(one.rest[1], place(one.rest[0])) for one in parts if one.word == "target"]
            return (word, at, names, self.expr(parts[-2]), self.block(parts[-1]))
        return self.definition(word, at, parts)

    def definition(self, word, at, parts):
        decorators = [self.decorator(one) for one in parts if one.word in ("decorator", "decorator-call")]
        name = next(one for one in parts if one.word == "named").rest[1]
        body = self.block(parts[-1])
        if word == "class":
            bases = [one.rest[1] for one in parts if one.word == "base"]
            return (word, at, decorators, name, bases[0] if bases else None, body)
        assert word == "def", word
        parameters = [self.parameter(one) for one in parts if one.word == "parameter"]
        returns = [self.expr(one.parts[0]) for one in parts if one.word == "returns"]
        return (word, at, decorators, name, parameters, returns[0] if returns else None, body)

    def decorator(self, node):
        arguments = [self.argument(part) for part in node.parts[1:]] if node.word == "decorator-call" else None
        return (node.parts[0].rest[1], arguments)

    def parameter(self, node):
        found = {one.word: self.expr(one.parts[0]) for one in node.parts}
        return (node.rest[1], place(node.rest[0]), found.get("annotation"), found.get("default"))


def named(parts):
    """Imported names with the names that they get."""
    return [(one.rest[1], one.parts[0].rest[1] if one.parts else None) for one in parts]
