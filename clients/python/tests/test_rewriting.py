"""What a watched module is rewritten to: each expression is visited once, and stays as it was beside what is made of it.

A module that cannot be rewritten runs as it is.
"""

from __future__ import annotations

import ast
import importlib.util
import io
import unittest
from pathlib import Path
from types import ModuleType
from unittest import mock

from itc_trace.watch import finder, helper, making, nodes
from itc_trace.watch.rewrite import Rewriter
from itc_trace.watch.scopes import Scopes

from .support import PACKAGE
from .test_same_output import of_file

SOURCE = """
def compare(rows, most):
    total = 0
    def add(more):
        nonlocal total
        total += more
        return total + len(rows) <= most, rows == [total, most], [*rows] < rows < [total], len(rows) == len(most) != total
    def show():
        return globals()["compare"] is compare or f"{total}" == repr(total + 1)
    def tell(template):
        return "{0} {rows}".format(len(rows), rows=rows[0], **most), template.format(rows=str(total)), "".format_map(most[total])
    return add, show, tell
def change(rows, table, one):
    rows[0], *table["a"] = one.field, *rows
    one.field += table.pop("b", rows)[len(rows)]
    rows[one.first()] |= table[rows[1]]
    one.add(rows).field.update(table.items(), key=rows.sort, **table)
    del rows[1:2], table[str(rows)], one.field.part
    print(*rows, f"{one.field:{table['width']}}", file=one.file, sep=table.get("sep"))
    list.append(rows, table["c"]); setattr(one, "x" + str(rows), map(len, rows)); one.made = a, b = [], {}
    return [(key := row.key) for row, *rest in rows if row.key], (lambda rows=rows: rows[0])(), {**table, "k": rows[:]}, -rows % (one, rows)
"""
SIMPLE = (ast.Expr, ast.Assign, ast.AugAssign, ast.AnnAssign, ast.Return, ast.Delete, ast.Raise, ast.Assert)


def visited_twice(source: str) -> list[str]:
    """What the rewriter of a module visits more than once: the second visit is of what the first one has made."""
    seen: dict[int, ast.AST] = {}
    found = []
    plain = Rewriter._visit

    def visit(rewriter: Rewriter, node: ast.AST) -> ast.AST:
        if id(node) in seen and not isinstance(node, ast.Constant):
            found.append(ast.unparse(node))
        seen[id(node)] = node
        return plain(rewriter, node)

    tree = ast.parse(source)
    with mock.patch.object(Rewriter, "_visit", visit):
        Rewriter(Scopes(tree), "program.py").module(tree)
    return found


def changed_in_place(source: str) -> list[str]:
    """The simple statements of a module that the rewriter changes, where it has to make others."""
    tree = ast.parse(source)
    plain = [(node, ast.dump(node)) for node in ast.walk(tree) if isinstance(node, SIMPLE)]
    Rewriter(Scopes(tree), "program.py").module(tree)
    return [ast.unparse(node) for node, text in plain if ast.dump(node) != text]


class Rewriting(unittest.TestCase):
    def test_each_expression_is_visited_once(self) -> None:
        self.assertEqual(visited_twice(SOURCE), [])

    def test_each_expression_of_programs_is_visited_once(self) -> None:
        for path in [*Path(PACKAGE, "tests", "programs", "unchanged").glob("*.py"), *Path(PACKAGE, "itc_trace", "watch").glob("*.py")]:
            with self.subTest(program=path.name):
                self.assertEqual(visited_twice(path.read_text()), [])

    def test_what_stands_there_twice_is_plain_once(self) -> None:
        programs = [path.read_text() for path in Path(PACKAGE, "tests", "programs", "unchanged").glob("*.py")]
        for source in [SOURCE, *programs, *of_file("same.txt").values(), *of_file("forms.txt").values(), *of_file("kinds.txt").values()]:
            with self.subTest(program=source):
                self.assertEqual(changed_in_place(source), [])

    def test_a_fault_of_the_package_leaves_the_module_as_it_is(self) -> None:
        plain = compile("one = 1", "part.py", "exec")
        with mock.patch.object(making, "written", side_effect=KeyError("a node")), mock.patch("sys.__stderr__", io.StringIO()) as told:
            with mock.patch.object(finder, "UNWATCHED", []) as unwatched, mock.patch.object(finder, "FILES", set()):
                code = finder.with_hooks(b"one = 1", "/folder/part.py", "part", finder.Selection([]), lambda: plain)
        self.assertIs(code, plain)
        self.assertEqual([one.text for one in unwatched], ["part.py runs as it is, and is not watched: KeyError: 'a node'"])
        self.assertEqual(told.getvalue(), "itc_trace: part.py runs as it is, and is not watched: KeyError: 'a node'\n")


if __name__ == "__main__":
    unittest.main()


def nodes_in_python() -> ModuleType:
    """What makes nodes where there are no hooks in C."""
    spec = importlib.util.spec_from_file_location(f"{nodes.__package__}.nodes_in_python", nodes.__file__)
    assert spec is not None and spec.loader is not None
    made = importlib.util.module_from_spec(spec)
    with mock.patch.object(helper, "quick", None):
        spec.loader.exec_module(made)
    return made


class Odd(ast.Name):
    """A kind of node that says of itself that it is another one."""

    __class__ = property(lambda self: ast.Constant)  # type: ignore[assignment]


def answers(node: ast.Name) -> tuple[object, ...]:
    return node.__class__, node.id, hasattr(node, "other"), Odd("one").__class__, isinstance(Odd("one"), ast.Constant)


@unittest.skipIf(helper.quick is None, "there are no hooks in C")
class Nodes(unittest.TestCase):
    def setUp(self) -> None:
        self.in_python = nodes_in_python()
        self.place = ast.parse("\n  \nfirst(second,\n  third)").body[0].value  # type: ignore[attr-defined]

    def made_by(self, maker: ModuleType) -> list[ast.AST]:
        name = maker.name_at(self.place, "one")
        call = maker.call_of("hook", (name, 7, "text", ("a", 1), True), self.place)
        statement = maker.as_statement(call, self.place)
        choice = maker.chosen(name, [statement], [], self.place)
        return [name, call, statement, choice, maker.copied(self.place), maker.call_of("hook", (), name)]

    def test_those_made_in_c_are_those_made_in_python(self) -> None:
        self.assertNotEqual(nodes.call_of, self.in_python.call_of)
        for node, other in zip(self.made_by(nodes), self.made_by(self.in_python), strict=True):
            self.assertIs(type(node), type(other))
            self.assertEqual(vars(node).keys(), vars(other).keys())
            self.assertEqual(ast.dump(node, include_attributes=True), ast.dump(other, include_attributes=True))

    def test_a_copy_has_parts_of_its_own(self) -> None:
        for maker in (nodes, self.in_python):
            copy: ast.Call = maker.copied(self.place)
            copy.args = []
            self.assertEqual((len(self.place.args), self.place.func), (2, copy.func))

    def test_a_node_without_a_place_has_none_to_give(self) -> None:
        for maker in (nodes, self.in_python):
            with self.assertRaises(KeyError):
                maker.name_at(ast.Name("one", ast.Load()), "other")

    def test_nodes_answer_the_same_while_trees_are_compiled_and_behind_it(self) -> None:
        tree = ast.parse("one.field")
        name: ast.Name = tree.body[0].value.value  # type: ignore[attr-defined]
        plain = answers(name)
        self.assertEqual(plain, (ast.Name, "one", False, ast.Constant, True))
        self.assertEqual(helper.quick.call_with_quick_nodes(nodes.KINDS, answers, name), plain)
        self.assertEqual(nodes.compiled(tree, "program.py"), compile(tree, "program.py", "exec", dont_inherit=True))
        name.id = "None"
        self.assertRaises(ValueError, nodes.compiled, tree, "program.py")
        name.id = "one"
        self.assertEqual(answers(name), plain)
