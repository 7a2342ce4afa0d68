"""What only a yes leads to, by the source of a function."""

from __future__ import annotations

import ast
import linecache
import unittest
from types import CodeType
from unittest import mock

from itc_trace.model import trees
from itc_trace.model.answers import NO, NOTHING, YES, Says, Use, use_of

BEHIND = (
    "if e.is_set():\n  look()",
    "if not e.is_set():\n  return\nlook()",
    "while not e.is_set():\n  sleep()\nlook()",
    "while True:\n  if e.is_set():\n    break\nlook()",
    "if x and e.is_set():\n  look()",
    "if x or not e.is_set():\n  pass\nelse:\n  look()",
    "ok = e.is_set()\nif ok:\n  look()",
    "ok = e.is_set()\nif not ok:\n  raise X\nlook()",
    "if (ok := e.is_set()):\n  look()",
    "assert e.is_set()\nlook()",
    "x = (\n look()\n if e.is_set() else 1)",
    "if all(e.is_set() for e in es):\n  look()",
    "while any(not e.is_set() for e in es):\n  pass\nlook()",
    "for e in es:\n  while not e.is_set():\n    pass\nlook()",
    "for e in es:\n  if e.is_set():\n    look()",
    "for e in es:\n  if not e.is_set():\n    continue\n  look()",
    "if e.is_set() is True:\n  look()",
    "try:\n  if not e.is_set(): raise X\nexcept X:\n  return\nlook()",
    "with lock:\n  if not e.is_set(): return\nlook()",
    "if not e.is_set():\n  pass\nelse:\n  look()",
    "if x:\n  if e.is_set():\n    look()",
    "while not e.is_set():\n  pass\nelse:\n  look()",
    "if not e.is_set():\n  e.wait()\nlook()",
    "if x:\n  e.is_set()\n  e.wait()\n  look()",
    "while True:\n  if not e.is_set():\n    sleep()\n    continue\n  break\nlook()",
    "while True:\n  if not e.is_set():\n    sleep()\n    continue\n  look()\n  break",
    "for n in es:\n  if e.is_set(): break\nelse:\n  return\nlook()",
    "if x: pass\nelif e.is_set():\n  look()",
    "if x: return\nelif not e.is_set(): return\nlook()",
    "while not (ok := e.is_set()):\n  pass\nlook()",
    "x = not e.is_set() or look()",
    "if e.is_set() == False:\n  return\nlook()",
    "y = [look() for e in es if e.is_set()]",
    "if bool(e.is_set()):\n  look()",
    "try:\n  if not e.is_set(): raise X\nexcept X: pass\nelse:\n  look()",
    "try:\n  pass\nfinally:\n  if not e.is_set(): return\nlook()",
    "ok = e.is_set()\nif ok and n:\n  look()",
    "while e.is_set():\n  look()",
)
"""Only a yes leads to `look`."""

BESIDE = (
    "t = e.is_set()\nlook()",
    "if e.is_set():\n  pass\nlook()",
    "while not e.is_set():\n  if x: break\nlook()",
    "while not e.is_set():\n  look()",
    "while True:\n  if e.is_set() or n:\n    break\nlook()",
    "if x or e.is_set():\n  look()",
    "ok = e.is_set()\nok = True\nif ok:\n  look()",
    "if any(e.is_set() for e in es):\n  look()",
    "for e in es:\n  if not e.is_set():\n    break\nlook()",
    "for e in es:\n  if not e.is_set():\n    continue\n  pass\nlook()",
    "try:\n  if not e.is_set(): raise X\nexcept X:\n  pass\nlook()",
    "with suppress(X):\n  if not e.is_set(): raise X\nlook()",
    "print(e.is_set())\nlook()",
    "try:\n  if not e.is_set(): return\nfinally:\n  look()",
    "if x:\n  if not e.is_set(): return\nlook()",
    "if not e.is_set():\n  x.wait()\nlook()",
    "if not e.is_set():\n  e.wait(1)\nlook()",
    "while True:\n  if not e.is_set():\n    look()\n    continue\n  break",
    "for n in es:\n  if e.is_set(): break\nelse:\n  pass\nlook()",
    "if x: pass\nelif not e.is_set():\n  look()",
    "if x: pass\nelif not e.is_set(): return\nlook()",
    "match e.is_set():\n  case True:\n    look()",
    "f = lambda: e.is_set()\nlook()",
    "if e.is_set():\n  def g():\n    look()",
    "x = not e.is_set() and look()",
    "if e.is_set() > x:\n  look()",
    "y = [look() for e in es if not e.is_set()]",
    "if int(e.is_set()):\n  look()",
    "if not e.is_set():\n  del x\nlook()",
    "x = e.is_set()\nx |= True\nif x:\n  look()",
    "x = e.is_set()\nif x and n:\n  look()",
    "ok = e.is_set()\nif ok or n:\n  look()",
    "while e.is_set():\n  pass\nlook()",
)
"""`look` may be reached without a yes."""


def use(text: str, asked: str = "e.is_set()", says: Says | None = YES, number: int = 0) -> Use:
    """What a function with this body does with an answer."""
    file = f"answers_{abs(hash((text, asked)))}.py"
    source = "def f(e, es, x, n, lock):\n" + "".join(f"  {line}\n" for line in text.split("\n"))
    linecache.cache[file] = len(source), None, source.splitlines(True), file
    code = next(one for one in compile(source, file, "exec").co_consts if isinstance(one, CodeType))
    calls = [node for node in ast.walk(ast.parse(source)) if isinstance(node, ast.Call) and ast.unparse(node) == asked]
    place = calls[number].lineno, calls[number].end_lineno, calls[number].col_offset, calls[number].end_col_offset
    found = next(
        use_of(one, 2 * index, says) for one in _codes(code)
        for index, position in enumerate(one.co_positions()) if position == place
    )
    assert found is not None
    return found


def _codes(code: CodeType) -> list[CodeType]:
    return [code, *(inner for one in code.co_consts if isinstance(one, CodeType) for inner in _codes(one))]


def line_of(text: str) -> int:
    return next(number for number, line in enumerate(text.split("\n"), 2) if "look()" in line)


class Answers(unittest.TestCase):
    def test_only_a_yes_leads_there(self) -> None:
        for text in BEHIND:
            with self.subTest(text):
                behind = use(text).behind
                self.assertTrue(behind.leads_to(behind.file, line_of(text), "f"))

    def test_a_no_leads_there_too(self) -> None:
        for text in BESIDE:
            with self.subTest(text):
                behind = use(text).behind
                self.assertFalse(behind.leads_to(behind.file, line_of(text), "f"))

    def test_the_other_answer_leads_the_other_way(self) -> None:
        text = "while e.is_alive():\n  pass\nlook()"
        behind = use(text, "e.is_alive()", NO).behind
        self.assertTrue(behind.leads_to(behind.file, line_of(text), "f"))
        self.assertFalse(use(text, "e.is_alive()", YES).behind.leads_to(behind.file, line_of(text), "f"))

    def test_what_is_called_behind_a_yes_is_behind_it(self) -> None:
        behind = use("if e.is_set():\n  look()").behind
        self.assertTrue(behind.leads_to("other.py", 7, "Class.look"))
        self.assertFalse(behind.leads_to("other.py", 7, "Class.go"))
        self.assertFalse(use("if e.is_set():\n  look()\nlook()").behind.leads_to("other.py", 7, "look"))

    def test_lines_of_another_file_are_others(self) -> None:
        self.assertFalse(use("if e.is_set():\n  look()").behind.leads_to("other.py", 3, "g"))

    def test_a_function_that_only_a_yes_leaves_is_known(self) -> None:
        self.assertTrue(use("while not e.is_set():\n  pass").is_whole)
        self.assertTrue(use("if not e.is_set():\n  raise x\nreturn n").is_whole)
        self.assertFalse(use("if e.is_set():\n  return n").is_whole)
        self.assertFalse(use("while True:\n  if e.is_set():\n    look()").is_whole)

    def test_an_answer_that_is_given_back_is_that_of_the_caller(self) -> None:
        self.assertEqual(use("return e.is_set()").returns, YES)
        self.assertEqual(use("return not e.is_set()").returns, NO)
        self.assertEqual(use("return e.is_set() and n").returns, Says(True, False))
        self.assertIsNone(use("return e.is_set() or n").returns)
        self.assertIsNone(use("return [e.is_set()]").returns)

    def test_what_raises_otherwise_is_a_yes_where_it_comes_back(self) -> None:
        text = "try:\n  e.result(1)\nexcept x:\n  pass\nlook()"
        behind = use(text, "e.result(1)", None).behind
        self.assertFalse(behind.leads_to(behind.file, line_of(text), "f"))
        text = "try:\n  e.result(1)\nexcept x:\n  return\nlook()"
        behind = use(text, "e.result(1)", None).behind
        self.assertTrue(behind.leads_to(behind.file, line_of(text), "f"))

    def test_a_value_that_says_nothing_leads_nowhere(self) -> None:
        text = "if e.join(1):\n  look()"
        self.assertEqual(use(text, "e.join(1)", NOTHING).behind.lines, ())

    def test_without_its_source_nothing_is_known(self) -> None:
        code = compile("e.is_set()", "nowhere.py", "exec")
        self.assertIsNone(use_of(code, 0, YES))


class Trees(unittest.TestCase):
    def test_a_tree_that_another_thread_has_disturbed_is_made_once_more(self) -> None:
        faults = [SystemError("AST constructor recursion depth mismatch"), SyntaxError()]

        def parse(*words: str) -> ast.Module:
            raise faults.pop(0)

        with mock.patch.object(ast, "parse", parse):
            self.assertRaises(SyntaxError, trees.tree_of_text, "n")
        self.assertEqual(faults, [])

    def test_a_file_of_which_no_tree_can_be_made_has_none(self) -> None:
        for fault in (SystemError, SyntaxError, ValueError, RecursionError):
            with self.subTest(fault=fault), mock.patch.object(ast, "parse", mock.Mock(side_effect=fault)):
                self.assertIsNone(trees.tree_of_file(__file__))
        self.assertIsNone(trees.tree_of_file("nowhere.py"))
        self.assertIsNotNone(trees.tree_of_file(__file__))


if __name__ == "__main__":
    unittest.main()
