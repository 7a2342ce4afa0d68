"""A function or a class of a watched program that leaves its process by value works in another one, where no hook is."""

from __future__ import annotations

import os
import tempfile
import unittest
from pathlib import Path

from itc_trace import Verdict

from .same import FORMS
from .support import PACKAGE, run_python, run_traced

DEBIAN = "/usr/lib/python3/dist-packages/cloudpickle"
OTHER = "/usr/lib/python3/dist-packages/dill"
STAND_IN = """
import copyreg, io, pickle, types
from collections import ChainMap
from pickle import loads
def _code(code):
    words = (
        code.co_argcount, code.co_posonlyargcount, code.co_kwonlyargcount, code.co_nlocals, code.co_stacksize, code.co_flags, code.co_code,
        code.co_consts, code.co_names, code.co_varnames, code.co_filename, code.co_name, code.co_qualname, code.co_firstlineno,
        code.co_linetable, code.co_exceptiontable, code.co_freevars, code.co_cellvars,
    )
    return _make_code, words
def _make_code(*words):
    return types.CodeType(*words)
def _make(code, names, defaults, named, cells):
    made = types.FunctionType(code, {"__builtins__": __builtins__, "__name__": "elsewhere", **names}, None, defaults, cells)
    made.__kwdefaults__ = named
    return made
def _cell(value):
    return types.CellType(value)
def _module(name):
    return __import__(name)
def _class(name, bases, fields):
    return type(name, bases, dict(fields))
def _names(code):
    return {*code.co_names}.union(*(_names(one) for one in code.co_consts if isinstance(one, types.CodeType)))
class CloudPickler(pickle.Pickler):
    _dispatch_table = {
        types.CodeType: _code,
        types.ModuleType: lambda module: (_module, (module.__name__,)),
        types.CellType: lambda cell: (_cell, (cell.cell_contents,)),
    }
    dispatch_table = ChainMap(_dispatch_table, copyreg.dispatch_table)
    def reducer_override(self, one):
        if isinstance(one, types.FunctionType) and one.__module__ == "__main__":
            names = {name: one.__globals__[name] for name in _names(one.__code__) if name in one.__globals__ and one.__globals__[name] is not one}
            return _make, (one.__code__, names, one.__defaults__, one.__kwdefaults__, one.__closure__)
        if isinstance(one, type) and one.__module__ == "__main__":
            fields = {name: value for name, value in vars(one).items() if name not in ("__dict__", "__weakref__", "__doc__")}
            return _class, (one.__name__, one.__bases__, fields)
        return NotImplemented
def dumps(one):
    file = io.BytesIO()
    CloudPickler(file).dump(one)
    return file.getvalue()
"""
"""Pickles by value as cloudpickle does, as far as it goes."""

PROGRAM = """
import inspect, marshal, subprocess, sys, threading, types
import cloudpickle
count, rows = 3, [1, 2, 3]
def plain(one):
    made = {"a": [one]}
    made["a"].append(count)
    return made, [row + one for row in rows], sorted(row for row in rows)
def outer():
    total = 1
    def inner(more, *words, key=None):
        nonlocal total
        total += more
        return total, (lambda: total + more)(), [total + row for row in rows], {one: total for one in words}
    return inner
class Part:
    def __init__(self, name):
        self.name, self.items = name, []
    def add(self, one):
        self.items.append(one)
        self.last = len(self.items)
        return self
    def tell(self):
        return f"{self.name} {self.items[0]} {self.last} {[one for one in self.items]}"
def generating(most):
    for one in range(most):
        yield one, rows[one]
thread = threading.Thread(target=plain, args=(1,))
thread.start()
thread.join()
inner = outer()
def elsewhere(source, *given):
    ran = subprocess.run([sys.executable, "-c", LOAD + source], input=repr(given), capture_output=True, text=True)
    print(ran.stdout, ran.stderr[-600:], ran.returncode)
LOAD = "import sys, marshal, types, cloudpickle; given = eval(sys.stdin.read()); one = WAY(given[0]);"
LOAD = LOAD.replace("WAY", "cloudpickle.loads")
elsewhere("print(one(2))", cloudpickle.dumps(plain))
elsewhere("print(one(2, 'a'), one(3))", cloudpickle.dumps(inner))
elsewhere("print(one('p').add(1).tell())", cloudpickle.dumps(Part))
elsewhere("print([*one(2)])", cloudpickle.dumps(generating))
elsewhere("print(one(5))", cloudpickle.dumps(lambda given: [given + row for row in rows]))
LOAD = LOAD.replace("cloudpickle.loads", "marshal.loads")
elsewhere("print(types.FunctionType(one, {'count': 3, 'rows': [1]})(2))", marshal.dumps(plain.__code__))
elsewhere("print(types.FunctionType(one['code'][0], {'count': 3, 'rows': [1]})(2))", marshal.dumps({"code": [plain.__code__]}))
elsewhere("print(types.FunctionType(one, {'count': 3, 'rows': [1]})(2))", marshal.dumps(plain.__code__.replace(co_name="other")))
LOAD = LOAD.replace("marshal.loads", "str")
elsewhere("count, rows = 3, [1]; exec(one); print(plain(2))", inspect.getsource(plain))
there = {"count": 4, "rows": [7]}
exec(inspect.getsource(plain), there)
print(there["plain"](2), types.FunctionType(plain.__code__.replace(co_name="other"), there)(2), cloudpickle.loads(cloudpickle.dumps(plain))(2))
print(plain(2), inner(1), Part("q").add(3).tell(), [*generating(1)])
"""

OF_OTHER = """
import subprocess, sys, threading
import dill
count = 3
def work(one):
    made = {"a": [one]}
    made["a"].append(count)
    return made
thread = threading.Thread(target=work, args=(1,))
thread.start()
thread.join()
given = dill.dumps(work, recurse=True)
print(subprocess.run([sys.executable, "-c", f"import dill; print(dill.loads({given!r})(2))"], capture_output=True, text=True).stdout)
"""


ALONE = """
import threading
import cloudpickle
rows = []
def work(one):
    rows.append(one)
thread = threading.Thread(target=print, args=("begun",))
thread.start()
thread.join()
cloudpickle.loads(cloudpickle.dumps(work))(1)
"""


class ByValue(unittest.TestCase):
    def assert_same(self, folder: str) -> None:
        """The program prints the same traced as untraced, where a package of this name lies in the folder."""
        path = os.pathsep.join((str(PACKAGE), folder))
        with tempfile.TemporaryDirectory() as own:
            program = Path(own, "program.py")
            program.write_text(PROGRAM)
            plain = run_python(str(program), PYTHONPATH=path)
            self.assertEqual((plain.stderr, plain.returncode, plain.stdout.count(" 0\n")), ("", 0, 9), plain.stdout)
            for form in FORMS:
                traced = run_traced(str(program), PYTHONPATH=path, ITC_TRACE_PURE=FORMS[form])
                with self.subTest(hooks=form):
                    self.assertEqual(traced.stdout, plain.stdout, traced.stderr)
                    self.assertIn(", plain where it runs by value at program.py:5", traced.stderr)

    def test_what_a_pickler_by_value_takes_works_without_hooks(self) -> None:
        with tempfile.TemporaryDirectory() as folder:
            Path(folder, "cloudpickle.py").write_text(STAND_IN)
            self.assert_same(folder)

    def test_a_run_whose_function_leaves_by_value_is_no_all_clear(self) -> None:
        """The pickler lies in the program's own folder, so it is watched, too."""
        with tempfile.TemporaryDirectory() as folder:
            Path(folder, "cloudpickle.py").write_text(STAND_IN)
            program = Path(folder, "program.py")
            program.write_text(ALONE)
            traced = run_traced(str(program), PYTHONPATH=os.pathsep.join((str(PACKAGE), folder)))
        self.assertEqual((traced.stdout, traced.returncode), ("begun\n", Verdict.INCOMPLETE), traced.stderr)
        self.assertIn("itc_trace: incomplete: what left by value was not traced where it runs: work at program.py:5\n", traced.stderr)
        self.assertIn("itc_trace: no race in what was seen; not looked into: ", traced.stderr)

    def test_what_left_by_value_in_one_tracing_is_no_matter_of_the_next_one(self) -> None:
        program = ALONE.replace("thread = ", "import itc_trace\nwith itc_trace.tracing() as first:\n    cloudpickle.dumps(work)\nthread = ")
        program = program[:program.index("thread = ")] + "with itc_trace.tracing() as second:\n    work(1)\nprint(*(one.races().verdict().name for one in (first, second)))\n"
        with tempfile.TemporaryDirectory() as folder:
            Path(folder, "cloudpickle.py").write_text(STAND_IN)
            Path(folder, "program.py").write_text(program)
            ran = run_python(str(Path(folder, "program.py")), PYTHONPATH=os.pathsep.join((str(PACKAGE), folder)))
        self.assertEqual((ran.stdout, ran.stderr), ("INCOMPLETE NO_RACE\n", ""))

    @unittest.skipUnless(os.path.isdir(DEBIAN), "python3-cloudpickle is not there")
    def test_what_cloudpickle_takes_works_without_hooks(self) -> None:
        with tempfile.TemporaryDirectory() as folder:
            os.symlink(DEBIAN, os.path.join(folder, "cloudpickle"))
            self.assert_same(folder)

    @unittest.skipUnless(os.path.isdir(DEBIAN), "python3-cloudpickle is not there")
    def test_functions_and_classes_of_many_kinds_work_elsewhere(self) -> None:
        text = Path(__file__).with_name("leaving_by_value.py").read_text()
        with tempfile.TemporaryDirectory() as folder, tempfile.TemporaryDirectory() as own:
            os.symlink(DEBIAN, os.path.join(folder, "cloudpickle"))
            program, path = Path(own, "program.py"), os.pathsep.join((str(PACKAGE), folder))
            program.write_text(text)
            plain = run_python(str(program), PYTHONPATH=path)
            self.assertEqual((plain.returncode, plain.stdout.count("\n"), plain.stdout.count("fails")), (0, 34, 0), plain.stdout + plain.stderr)
            for form, pure in FORMS.items():
                with self.subTest(hooks=form):
                    self.assertEqual(run_traced(str(program), PYTHONPATH=path, ITC_TRACE_PURE=pure).stdout, plain.stdout)

    @unittest.skipUnless(os.path.isdir(OTHER), "python3-dill is not there")
    def test_what_dill_takes_works_without_hooks(self) -> None:
        with tempfile.TemporaryDirectory() as folder:
            os.symlink(OTHER, os.path.join(folder, "dill"))
            program = Path(folder, "program.py")
            program.write_text(OF_OTHER)
            for form in FORMS.values():
                traced = run_traced(str(program), PYTHONPATH=os.pathsep.join((str(PACKAGE), folder)), ITC_TRACE_PURE=form)
                self.assertEqual(traced.stdout, "{'a': [2, 3]}\n\n", traced.stderr)


if __name__ == "__main__":
    unittest.main()
