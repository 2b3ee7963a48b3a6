"""What the subset of Python leaves out of a file, found in CPython's own tree of it, so that a refusal can be held against it.

`left_out` gives each form that is left out with its name and the place where it begins, and what is no form of its own and is refused as
Syntax somewhere inside a statement, with the reason.
"""

import ast
import re


class Forms(ast.NodeVisitor):
    """Gathers (place, name) of each left-out form, and (first place, last place, reason) of what is refused as Syntax."""

    def __init__(self, theirs, text):
        self.theirs = theirs
        self.lines = re.split("\r\n|\r|\n", text)
        self.forms = []
        self.spans = {}
        self.syntax = []
        self.stack = ["module"]

    # helpers

    def at(self, node):
        return self.theirs.at(node)

    def end(self, node):
        return (node.end_lineno, self.theirs.column(node.end_lineno, node.end_col_offset))

    def form(self, node, name):
        self.forms.append((self.at(node), name))
        self.spans[(self.at(node), name)] = self.end(node)

    def bad(self, node, reason, last=None):
        self.syntax.append((self.at(node), last or self.end(node), reason))

    def find_back(self, place, character):
        """The last place before this one where a character stands."""
        line, column = place
        while line >= 1:
            found = self.lines[line - 1][: column - 1].rfind(character)
            if found >= 0:
                return (line, found + 1)
            line -= 1
            column = len(self.lines[line - 1]) + 1 if line else 1
        return None

    def find(self, place, word):
        """The first place from this one on where a word stands."""
        line, column = place
        while line <= len(self.lines):
            found = re.compile(word).search(self.lines[line - 1], column - 1)
            if found:
                return (line, found.start() + 1)
            line, column = line + 1, 1
        return None

    def inside(self, where, nodes):
        self.stack.append(where)
        for node in nodes:
            self.visit(node)
        self.stack.pop()

    @property
    def where(self):
        return self.stack[-1]

    def in_loop(self):
        for one in reversed(self.stack):
            if one == "loop":
                return True
            if one in ("function", "class", "module"):
                return False
        return False

    # statements

    def statement(self, node):
        """A statement in a class block that isn't one of a class."""
        if self.where != "class":
            return False
        if isinstance(node, (ast.FunctionDef, ast.Pass)):
            return False
        if isinstance(node, ast.Expr) and isinstance(node.value, ast.Constant) and (isinstance(node.value.value, str) or node.value.value is ...):
            return False
        if isinstance(node, ast.Assign) and isinstance(node.targets[0], ast.Name):
            return False
        if isinstance(node, ast.AnnAssign) and isinstance(node.target, ast.Name) and node.simple:
            return False
        if isinstance(node, (ast.ClassDef, ast.Import, ast.ImportFrom)):
            return False
        names = {
            ast.AsyncFunctionDef: "async", ast.AsyncFor: "async", ast.AsyncWith: "async", ast.With: "with", ast.Try: "try",
            ast.Raise: "raise", ast.Global: "global", ast.Nonlocal: "nonlocal", ast.Delete: "del", ast.Match: "match",
        }
        if type(node) not in names:
            self.form(node, "class statement")
        return False

    def visit(self, node):
        if isinstance(node, ast.stmt):
            self.statement(node)
        super().visit(node)

    def block(self, node, name):
        self.form(node, name)
        self.generic_visit(node)

    def visit_AsyncFunctionDef(self, node):
        if not self.decorated(node):
            self.form(node, "async")
        self.inside("function", node.body)

    def visit_AsyncFor(self, node):
        self.form(node, "async")
        self.inside("block", node.body)

    visit_AsyncWith = visit_AsyncFor

    def visit_With(self, node):
        self.form(node, "with")
        for item in node.items:
            self.visit(item)
        self.inside("block", node.body)

    def visit_Try(self, node):
        self.form(node, "try")
        self.inside("block", node.body)

    visit_TryStar = visit_Try

    def visit_Raise(self, node):
        self.block(node, "raise")

    def visit_Global(self, node):
        self.form(node, "global")

    def visit_Nonlocal(self, node):
        self.form(node, "nonlocal")

    def visit_Delete(self, node):
        self.block(node, "del")

    def visit_Match(self, node):
        self.form(node, "match")

    def visit_Import(self, node):
        if self.where != "module":
            self.form(node, "inner import")

    def visit_ImportFrom(self, node):
        if self.where != "module":
            self.form(node, "inner import")
        if node.level:
            self.form(node, "relative import")
        elif node.names[0].name == "*":
            self.form(node, "star import")

    def visit_Assign(self, node):
        if len(node.targets) > 1:
            # the `=` behind the second target
            self.forms.append((self.find(self.behind(node.targets[1]), "="), "chained assignment"))
        for target in node.targets:
            self.target(target)
        self.generic_visit(node)

    def behind(self, node):
        """The place behind a node and the parentheses that close round it."""
        line, column = self.end(node)
        return (line, column)

    def target(self, target, among=False):
        if isinstance(target, ast.List):
            # the `=` behind the display
            self.bad(target, "a list as target", self.find(self.end(target), "="))
        elif isinstance(target, ast.Tuple):
            if len(target.elts) < 2:
                self.bad(target, "one name with a comma as target", (target.end_lineno, 10**6))
            for one in target.elts:
                if isinstance(one, ast.Starred):
                    continue
                if not isinstance(one, ast.Name) or among:
                    self.bad(target, "more than names among several targets", (target.end_lineno, 10**6))
                    break
        if self.lines[self.at(target)[0] - 1][: self.at(target)[1] - 1].rstrip().endswith("("):
            self.bad(target, "parentheses round a target", (target.end_lineno, 10**6))

    def visit_AnnAssign(self, node):
        if not node.simple and not isinstance(node.target, ast.Attribute):
            self.bad(node, "annotation of something else than a name or attribute")
        self.generic_visit(node)

    def visit_For(self, node):
        names = node.target.elts if isinstance(node.target, ast.Tuple) else [node.target]
        if not all(isinstance(name, ast.Name) for name in names) or (isinstance(node.target, ast.Tuple) and len(names) < 2):
            self.bad(node.target, "target of a loop that isn't names", (node.target.end_lineno, 10**6))
        for name in names:
            if isinstance(name, (ast.Starred, ast.Attribute, ast.Subscript)):
                self.visit(name)
        self.visit(node.iter)
        self.inside("loop", node.body)
        if node.orelse:
            self.loop_else(node)

    def loop_else(self, node):
        last = node.body[-1]
        self.forms.append((self.find(self.end(last), r"\belse\b"), "loop else"))
        self.inside("block", node.orelse)

    def visit_While(self, node):
        self.visit(node.test)
        self.inside("loop", node.body)
        if node.orelse:
            self.loop_else(node)

    def visit_If(self, node):
        self.visit(node.test)
        self.inside("block", node.body)
        self.inside("block", node.orelse)

    def visit_Break(self, node):
        if not self.in_loop():
            self.bad(node, "outside a loop")

    visit_Continue = visit_Break

    def visit_Return(self, node):
        if "function" not in self.stack:
            self.bad(node, "outside a function")
        self.generic_visit(node)

    def decorators(self, node):
        for one in node.decorator_list:
            at = self.find_back(self.at(one), "@")
            name = one.func if isinstance(one, ast.Call) else one
            dotted = name
            while isinstance(dotted, ast.Attribute):
                dotted = dotted.value
            if isinstance(name, ast.Name) and name.id in ("staticmethod", "classmethod", "property"):
                self.forms.append((at, name.id))
            elif not isinstance(dotted, ast.Name):
                self.forms.append((at, "decorator"))
            elif isinstance(one, ast.Call) and not all(
                literal(value) for value in [*one.args, *[keyword.value for keyword in one.keywords]]
            ):
                self.forms.append((at, "decorator"))

    def decorated(self, node):
        """Whether decorators stand before a definition that may have none there."""
        if node.decorator_list and self.where not in ("module", "class"):
            at = self.find_back(self.at(node.decorator_list[0]), "@")
            self.syntax.append((at, at, "a decorated definition inside a function or block"))
            return True
        return False

    def visit_FunctionDef(self, node):
        decorated = self.decorated(node)
        if self.where not in ("module", "class") and not decorated:
            self.form(node, "inner def")
        self.decorators(node)
        given = node.args
        for one in [*given.args, *given.kwonlyargs, *given.posonlyargs]:
            if one.annotation:
                self.visit(one.annotation)
        for value in [*given.defaults, *given.kw_defaults]:
            if value:
                self.visit(value)
        for star, one in (("*", given.vararg), ("**", given.kwarg)):
            if one:
                self.forms.append((self.find_back(self.at(one), "*") if star == "*" else self.stars(self.at(one)), "star"))
                if one.annotation:
                    self.visit(one.annotation)
        if (given.kwonlyargs and not given.vararg) or given.posonlyargs:
            self.bad(node, "a bare `*` or `/` among parameters", self.at(node.body[0]))
        if node.returns:
            self.visit(node.returns)
        self.inside("function", node.body)

    def stars(self, place):
        line, column = self.find_back(place, "*")
        return (line, column - 1)

    def visit_ClassDef(self, node):
        if self.where == "class" or self.where not in ("module",):
            if not self.decorated(node) or self.where == "class":
                self.form(node, "inner class")
        self.decorators(node)
        if len(node.bases) > 1:
            self.forms.append((self.at(node.bases[0]), "bases"))
        for base in node.bases[:1]:
            dotted = base
            while isinstance(dotted, ast.Attribute):
                dotted = dotted.value
            if isinstance(base, ast.Starred):
                self.form(base, "star")
            elif not isinstance(dotted, ast.Name):
                self.bad(base, "a base that is no dotted name", (base.end_lineno, 10**6))
            if node.keywords:
                self.bad(node, "a keyword behind a base", self.at(node.body[0]))
        if node.keywords and not node.bases:
            self.forms.append((self.at(node.keywords[0]), "class keyword" if node.keywords[0].arg else "star"))
        self.inside("class", node.body)

    # expressions

    def visit_Await(self, node):
        self.block(node, "await")

    def visit_Lambda(self, node):
        self.form(node, "lambda")

    def visit_ListComp(self, node):
        self.block(node, "comprehension")

    visit_SetComp = visit_DictComp = visit_GeneratorExp = visit_ListComp

    def visit_Yield(self, node):
        self.block(node, "yield")

    visit_YieldFrom = visit_Yield

    def visit_NamedExpr(self, node):
        self.block(node, "walrus")

    def visit_Starred(self, node):
        self.block(node, "star")

    def visit_Dict(self, node):
        for key, value in zip(node.keys, node.values):
            if key is None:
                self.forms.append((self.stars(self.at(value)), "star"))
        self.generic_visit(node)

    def visit_Set(self, node):
        self.block(node, "set")

    def visit_Slice(self, node):
        self.generic_visit(node)

    def visit_Subscript(self, node):
        parts = node.slice.elts if isinstance(node.slice, ast.Tuple) else [node.slice]
        for part in parts:
            if isinstance(part, ast.Slice):
                begins = self.end(part.lower) if part.lower else self.at(part)
                self.forms.append((self.find(begins, ":"), "slice"))
        self.generic_visit(node)

    def visit_Call(self, node):
        callee = node.func
        if isinstance(callee, ast.Name) and callee.id == "__init__" or isinstance(callee, ast.Attribute) and callee.attr == "__init__":
            self.form(node, "init call")
        elif not isinstance(callee, (ast.Name, ast.Attribute)):
            self.form(node, "callee")
        for keyword in node.keywords:
            if keyword.arg is None:
                self.form(keyword, "star")
        self.generic_visit(node)

    def visit_Name(self, node):
        if node.id == "super":
            self.form(node, "super")

    def visit_Constant(self, node):
        if isinstance(node.value, bytes):
            self.form(node, "bytes")
        elif isinstance(node.value, (float, complex)):
            self.form(node, "float")


def literal(node):
    """A literal, or a display of literals."""
    if isinstance(node, ast.Constant):
        return not isinstance(node.value, (bytes, float, complex))
    if isinstance(node, (ast.Tuple, ast.List)):
        return all(literal(one) for one in node.elts)
    if isinstance(node, ast.Dict):
        return None not in node.keys and all(literal(one) for one in [*node.keys, *node.values])
    return False


def left_out(theirs, text):
    """The forms and the syntax that a text has and the subset hasn't, by place, and where each form ends."""
    found = Forms(theirs, text)
    found.inside("module", ast.parse(text).body)
    return sorted(found.forms), sorted(found.syntax), found.spans
