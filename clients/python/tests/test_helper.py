"""The hooks in C note what those in Python note, keep nothing alive, and are left out where they cannot be built."""

from __future__ import annotations

import json
import os
import re
import subprocess
import sys
import tempfile
import textwrap
import unittest
from pathlib import Path

from itc_trace.watch import helper

from .forked_runs import run_program, sample
from .support import PACKAGE, PROGRAM_RUNS, WAIT, ProgramCase, run_traced
from .test_programs import PROGRAMS, programs

FORMS = {"in Python": "1", "in C": ""}
EACH = 8 if PROGRAM_RUNS == 1 else 1
"""So many programs of the others one is run of in both forms, which takes long. If each of them is run several times, all are."""
TRIES = 6
"""So often a program is run in each form until both have noted the same, as threads may come in another order."""
HAS_HELPER = helper.quick is not None
NO_HELPER = "there is no compiler here, or another Python"

Noted = frozenset[tuple[str, str, str, int]]

OF_RUN = re.compile(r"\b\d{9,}\b")
"""The identities of threads and objects, which differ between two runs."""


def noted(program: Path, form: str, place: int) -> Noted:
    """The things that tasks share, with what was done to each, and where. The place is that of the program among all of its test."""
    with tempfile.TemporaryDirectory() as folder:
        journal = Path(folder, "journal")
        run_program(program, place, "--journal", str(journal), ITC_TRACE_PURE=FORMS[form])
        rows = [json.loads(line) for line in journal.read_text().splitlines()]
    touches = [row for row in rows if row.get("thing") and "name" in row]
    return frozenset((OF_RUN.sub("a number", row["name"]), row["kind"], os.path.basename(row["file"]), row["line"]) for row in touches)


def own_process(*texts: str, **environment: str) -> str:
    """What a program writes that looks at the hooks from inside."""
    words = [sys.executable, "-c", "".join(map(textwrap.dedent, texts))]
    ran = subprocess.run(
        words, env={**os.environ, "PYTHONPATH": str(PACKAGE), **environment}, capture_output=True, text=True, timeout=WAIT, check=False,
    )
    return ran.stdout + ran.stderr


FILLED_IN_MEANWHILE = """
    import gc
    from itc_trace.watch import things

    class Box:
        pass

    def told_by_another(field, make, put):
        def collecting(phase, told):
            if phase == "start":
                put(getattr(owner, field))

        box = Box()
        owner = things.owner_of(box, "box")
        gc.disable()
        gc.collect()
        gc.callbacks.append(collecting)
        kept = [make() for _ in range(2000)]
        gc.enable()
        found = getattr(owner, field)
        gc.callbacks.remove(collecting)
        print(field, len(found), len(getattr(owner, field)))

    told_by_another("history", list, lambda marks: marks.append(1))
    told_by_another("things", dict, lambda things: things.setdefault(1, Box()))
    told_by_another("recipes", dict, lambda recipes: recipes.setdefault(1, 1))
"""
"""Another task comes as garbage is collected, which making a list or a dict may begin."""

LOOKED_AT = """
    import resource, sys, threading
    from itc_trace import tracing
    from itc_trace.watch import hooks, things
    from itc_trace.watch.rewrite import rewritten

    TEXT = '''
    class Point:
        count = 0
        def __init__(self, x):
            self.x, self.items, self.table = x, [1, 2], {"k": 1}
        def move(self):
            self.x += 1
            self.items[0] = self.x
            self.items.append(self.items.pop())
            self.table["k"] = self.x
            self.table.get("k"), len(self.table), self.count
            for one in self.items:
                pass
    def work(points, turns):
        for turn in range(turns):
            for point in points:
                point.move()
    def make(turns):
        for turn in range(turns):
            Point(turn).move()
    '''
    variables = {"__name__": "watched"}
    exec(rewritten(TEXT, "<watched>", "watched", lambda name: False), variables)
"""


@unittest.skipUnless(HAS_HELPER, NO_HELPER)
class BothForms(ProgramCase):
    def test_they_note_the_same_of_unchanged_programs(self) -> None:
        print(sample(), file=sys.stderr)
        for place, program in enumerate(programs(PROGRAMS / "unchanged")[::EACH]):
            with self.subTest(program=program.stem):
                found: dict[str, set[Noted]] = {form: set() for form in FORMS}
                for _ in range(TRIES):
                    for form, known in found.items():
                        known.add(noted(program, form, place))
                    if set.intersection(*found.values()):
                        break
                self.assertTrue(set.intersection(*found.values()), found)

    def test_they_note_the_same_inside_of_containers(self) -> None:
        """What the hooks in C leave to those in Python: containers inside of others, and what is looked at deeply."""
        text = """
            import copy, threading
            from collections import ChainMap, UserDict, UserList
            from dataclasses import dataclass
            @dataclass
            class Point:
                x: int = 0
            class Lines(list):
                def append(self, line):
                    super().append(line)
            point, nested, bag, items, table, lines = Point(), {"k": [1]}, UserDict(a=1), UserList([1]), {"b": 1}, Lines()
            def look():
                str(point), copy.deepcopy(nested), len(bag), bag["a"], bag.get("a"), "a" in bag, len(lines), ChainMap(table)["b"]
                for one in items:
                    pass
            def change():
                point.x = 1
                nested["k"].append(2)
                bag["a"], table["b"], items[0] = 2, 2, 2
                lines.append("line")
            for task in look, change:
                thread = threading.Thread(target=task)
                thread.start()
                thread.join()
        """
        program = Path(self.program(textwrap.dedent(text)))
        first, second = (noted(program, form, 0) for form in FORMS)
        self.assertEqual(first, second)
        looked_at = {name for name, _, _, _ in first}
        self.assertEqual({"Point.x", "nested[..]", "bag", "bag['a']", "items", "lines", "table", "table['b']"}, looked_at)

    def test_each_line_touches_the_same(self) -> None:
        """The tables of what a line touches, and of programs that write the same, hold of the hooks in Python, too."""
        words = [sys.executable, "-m", "unittest", "tests.test_watch.WhatIsTouched", "tests.test_watch.TheProgramDoesWhatItDid"]
        environment = {**os.environ, "ITC_TRACE_PURE": FORMS["in Python"]}
        ran = subprocess.run(words, cwd=PACKAGE, env=environment, capture_output=True, text=True, timeout=WAIT, check=False)
        self.assertEqual(ran.returncode, 0, ran.stderr)

    def test_references_stay_as_they_are(self) -> None:
        """A million hooks leave nothing behind: no reference to what they look at or to what the package has, and no memory.

        Python itself keeps some hundreds more of `None` or fewer, so a thousand count as none. What is lost in each turn is 60000.
        """
        text = """
            FEW, FEW_KILOBYTES = 1000, 20000
            with tracing() as traced:
                hooks.put(True)
                for is_shared in (False, True):
                    points = [variables["Point"](1)]
                    if is_shared:
                        other = threading.Thread(target=variables["work"], args=(points, 1))
                        other.start()
                        other.join()
                    variables["work"](points, 100)
                    point = points[0]
                    owner = things.OWNERS.get(id(point))
                    looked = [point, point.items, point.table, variables["Point"], None, owner, owner.seen, 300]
                    before, blocks = [sys.getrefcount(one) for one in looked], sys.getallocatedblocks()
                    size = resource.getrusage(resource.RUSAGE_SELF).ru_maxrss
                    variables["work"](points, 60000)
                    more, after = sys.getallocatedblocks() - blocks, [sys.getrefcount(one) for one in looked]
                    grown = resource.getrusage(resource.RUSAGE_SELF).ru_maxrss - size
                    kept = [abs(one - other) < FEW for one, other in zip(before, after)]
                    print(owner.is_shared, all(kept), more < FEW, grown < FEW_KILOBYTES, *[] if all(kept) and more < FEW else [before, after, more])
                hooks.put(False)
        """
        told = "".join(f"{is_shared} True True True\n" for is_shared in (False, True))
        self.assertEqual(own_process(LOOKED_AT, text, ITC_TRACE_PURE=""), told)

    def test_what_the_program_lets_go_of_leaves(self) -> None:
        text = """
            import gc
            with tracing() as traced:
                hooks.put(True)
                variables["make"](20000)
                gc.collect()
                things.let_go_of_some(10 ** 6)
                left = len(things.OWNERS.values())
                hooks.put(False)
            print(left < 20)
        """
        for form in FORMS.values():
            self.assertEqual(own_process(LOOKED_AT, text, ITC_TRACE_PURE=form), "True\n")

    def test_what_one_task_touches_under_a_free_lock_is_kept_in_short(self) -> None:
        text = """
            with tracing() as traced:
                hooks.put(True)
                point, lock = variables["Point"](1), threading.Lock()
                points = [point]
                for turn in range(5000):
                    with lock:
                        variables["work"](points, 1)
                    variables["work"](points, 1)
                owner = things.OWNERS.get(id(point))
                print(owner.is_shared, 0 < len(owner.history) < 2500)
                hooks.put(False)
        """
        for form in FORMS.values():
            self.assertEqual(own_process(LOOKED_AT, text, ITC_TRACE_PURE=form), "False True\n")

    @unittest.skipUnless(HAS_HELPER, NO_HELPER)
    @unittest.skipIf(sys.version_info >= (3, 12), "this Python collects no garbage as something is made")
    def test_what_another_task_touches_as_garbage_is_collected_is_not_lost(self) -> None:
        told = own_process(FILLED_IN_MEANWHILE, ITC_TRACE_PURE="")
        self.assertEqual(told, "history 1 1\nthings 1 1\nrecipes 1 1\n")

    def test_a_class_that_gets_a_descriptor_is_looked_at_anew(self) -> None:
        text = """
            import threading
            class Shop:
                pass
            shop = Shop()
            shop.left = 1
            def sell():
                return shop.left
            def change():
                Shop.left = property(lambda self: 3, lambda self, value: None)
            def in_turn(*functions):
                for function in functions:
                    thread = threading.Thread(target=function)
                    thread.start()
                    thread.join()
            in_turn(sell, sell, change, sell)
            print(sell())
        """
        ran = run_traced(self.program(textwrap.dedent(text)))
        self.assertEqual((ran.returncode, ran.stdout), (0, "3\n"), ran.stderr)

    def test_a_comparison_of_keys_may_have_all_decided_anew(self) -> None:
        text = """
            import threading
            class Shop:
                pass
            class Key:
                def __hash__(self):
                    return hash("left")
                def __eq__(self, other):
                    if names:
                        setattr(Shop, names.pop(), 1)
                    return False
            names, table, one = [], {Key(): 0}, 1
            table["left"] = 1
            def sell():
                for turn in range(5):
                    names.append(f"name{turn}")
                    table["left"] += one
            thread = threading.Thread(target=sell)
            thread.start()
            thread.join()
            print(table["left"])
        """
        for form in FORMS.values():
            ran = run_traced(self.program(textwrap.dedent(text)), ITC_TRACE_PURE=form)
            self.assertEqual((ran.returncode, ran.stdout), (0, "6\n"), ran.stderr)


@unittest.skipUnless(HAS_HELPER, NO_HELPER)
class OtherInterpreters(unittest.TestCase):
    WATCHED = '''
    from itc_trace.watch import helper, hooks
    from itc_trace.watch.rewrite import rewritten
    variables = {"__name__": "watched"}
    hooks.put(False)
    exec(rewritten("table, items = {'left': 2}, [1]\\ndef work():\\n    table['left'] -= 1\\n    for one in items: pass", "<w>", "w", bool), variables)
    hooks.put(True)
    print(helper.quick is not None)
    '''

    def test_a_second_interpreter_has_the_hooks_in_python_and_leaves_those_of_the_first_one(self) -> None:
        text = f"""
            import sys, threading
            import _xxsubinterpreters as interpreters
            from itc_trace import tracing
            TEXT = {textwrap.dedent(self.WATCHED)!r}
            def in_another():
                other = interpreters.create()
                interpreters.run_string(other, f"import sys; sys.path[:] = {{sys.path}}\\n{{TEXT}}\\nvariables['work']()\\nhooks.put(False)")
                interpreters.destroy(other)
            with tracing(watched=None) as traced:
                exec(TEXT)
                in_another()
                threads = [threading.Thread(target=variables["work"]) for _ in range(2)]
                for thread in threads:
                    thread.start()
                for thread in threads:
                    thread.join()
                hooks.put(False)
            print(int(traced.races().verdict()))
        """
        self.assertEqual(own_process(text, ITC_TRACE_PURE=""), "True\nFalse\n66\n")


class WithoutTheHelper(ProgramCase):
    SHOP = "import threading\nstock = {}\ndef sell():\n    stock['left'] = 1\n" + (
        "threads = [threading.Thread(target=sell) for _ in range(2)]\nfor one in threads:\n    one.start()\nfor one in threads:\n    one.join()\n"
    )
    TOLD = "import itc_trace.watch.helper as helper; print(helper.quick is None)"

    @unittest.skipUnless(helper._is_known(), "the hooks in C are for another Python")
    def test_where_there_is_no_compiler_hooks_in_python_find_the_same(self) -> None:
        with tempfile.TemporaryDirectory() as folder:
            environment = {"XDG_CACHE_HOME": folder, "PATH": folder}
            self.assertEqual(own_process(self.TOLD, **environment), "True\n")
            self.assertEqual([path.suffix for path in Path(folder, "itc_trace").iterdir()], [".failed"])
            ran = run_traced(self.program(self.SHOP), **environment)
        self.assertEqual(ran.returncode, 66, ran.stderr)

    def test_a_folder_that_others_may_write_to_is_not_used(self) -> None:
        with tempfile.TemporaryDirectory() as folder:
            Path(folder, "itc_trace").mkdir(mode=0o700)
            Path(folder, "itc_trace").chmod(0o777)
            self.assertEqual(own_process(self.TOLD, XDG_CACHE_HOME=folder), "True\n")
            self.assertEqual(list(Path(folder, "itc_trace").iterdir()), [])

    def test_they_can_be_asked_for(self) -> None:
        self.assertEqual(own_process(self.TOLD, ITC_TRACE_PURE="1"), "True\n")


if __name__ == "__main__":
    unittest.main()
