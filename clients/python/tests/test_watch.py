"""Programs that nobody changed are watched: their races are found, and they do what they did."""

from __future__ import annotations

import ast
import contextlib
import dis
import gc
import importlib.util
import io
import linecache
import os
import re
import subprocess
import sys
import tempfile
import textwrap
import threading
import traceback
import types
import unittest
import weakref
from collections.abc import Iterator
from pathlib import Path
from typing import Any
from unittest import mock

from itc_trace import tracing
from itc_trace.model.stretches import STRETCHES
from itc_trace.watch import hooks, late, stored, things
from itc_trace.watch.process_state import CHANGED_STATE, changed_by
from itc_trace.watch.rewrite import rewritten
from itc_trace.watch.scopes import Scopes

from .support import PACKAGE, ProgramCase, fresh_tenant, run_python, run_traced

RACE = 66


def code_of(text: str, name: str = "watched_module") -> types.CodeType:
    return rewritten(textwrap.dedent(text), f"<{name}>", name, lambda name: False)


@contextlib.contextmanager
def noting() -> Iterator[None]:
    """Traces, with hooks that note."""
    port, tenant = fresh_tenant()
    with tempfile.NamedTemporaryFile(suffix=".journal") as journal, tracing(port=port, tenant=tenant, journal=journal.name):
        hooks.put(True)
        try:
            yield
        finally:
            hooks.put(False)
            things.let_go()


def run_of(code: types.CodeType, **names: Any) -> tuple[str, dict[str, Any]]:
    """What the code writes, and its variables."""
    module = sys.modules["watched_module"] = types.ModuleType("watched_module")
    written, variables = io.StringIO(), vars(module)
    variables.update(names)
    with contextlib.redirect_stdout(written):
        exec(code, variables)
    return written.getvalue(), variables


def touches() -> list[tuple[str, str]]:
    """What this thread has touched in this stretch: names of things, and kinds."""
    stretch = STRETCHES.get(threading.get_ident())
    noted = {} if stretch is None else dict(stretch)
    for owner in list(things.OWNERS.values()):
        for seen in owner.history:
            if stretch is not None and seen.stretch is stretch:
                noted |= late.touches_of(owner, seen.items(), None)
    return [(thing.name, kind) for thing, kind, _ in noted.values() if kind != "making"]


SAME = {
    "order of evaluation": """
        def say(text, value):
            print(text)
            return value
        class Box:
            pass
        box = Box()
        box.items = {"k": 1}
        say("a", box).items[say("b", "k")] = say("c", 5)
        say("d", box).items[say("e", "k")] += say("f", 5)
        say("g", box).items.setdefault(say("h", "z"), say("i", []))
        say("j", "k") in say("k", box).items
        say("l", box).n = say("m", 3)
        del say("n", box).items[say("o", "k")]
        print(box.items, box.n)
    """,
    "what is evaluated once": """
        count = 0
        class Box:
            @property
            def items(self):
                global count
                count += 1
                return self.kept
        def key():
            global count
            count += 10
            return "k"
        box = Box()
        box.kept = {"k": 1}
        box.items[key()] += 1
        box.items["k"] = 2
        box.items.get(key())
        key() in box.items
        [one for one in box.items]
        print(count, box.kept)
    """,
    "scopes": """
        total = 1
        class Total:
            total = total + 1
            values = [total for _ in range(2)]
            def get(self):
                return total
        def outer():
            inner_total = 0
            def add():
                nonlocal inner_total
                inner_total += 1
                return [inner_total + x for x in range(2)], (lambda: inner_total)()
            add()
            return add(), sorted(locals())
        def change():
            global total
            total = 7
            del total
            total = 8
        change()
        print(Total.total, Total.values, Total().get(), outer(), total, sorted(vars(Total))[:4])
    """,
    "private names": """
        class Safe:
            __slots__ = ("__code", "other")
            def __init__(self):
                self.__code = 1
                self.other = self.__code + 1
                self.__code += 1
            def get(self):
                return self.__code, self.other, getattr(self, "_Safe__code")
        print(Safe().get())
    """,
    "special methods are called as often": """
        calls = []
        class Key:
            def __hash__(self):
                calls.append("hash")
                return 1
            def __eq__(self, other):
                calls.append("eq")
                return self is other
            def __bool__(self):
                calls.append("bool")
                return True
            def __len__(self):
                calls.append("len")
                return 3
            def __getattr__(self, name):
                calls.append("getattr " + name)
                return 5
            def __iter__(self):
                calls.append("iter")
                return iter(())
            def __contains__(self, one):
                calls.append("contains")
                return False
            def __getitem__(self, one):
                calls.append("getitem")
                return one
            @property
            def __class__(self):
                calls.append("class")
                return dict
        one = Key()
        table = {one: 1}
        table[one] += 1
        table.get(one)
        if one and one.missing:
            list(one), len(one), 3 in one, one[2]
        for _ in one:
            pass
        print(calls, getattr(one, "gone"), *one)
    """,
    "generators, slices, unpacking and matches": """
        import asyncio
        def numbers(box):
            got = yield box[0]
            box[got:] = [7, 8]
            yield from box
        box = [1, 2, 3]
        steps = numbers(box)
        print(next(steps), steps.send(1), list(steps))
        a, *b = box
        first, (second, third) = 1, [2, 3]
        print(a, b, first, second, third, *box, {**{"x": 1}})
        del box[-1:]
        box[0], box[1] = box[1], box[0]
        match box:
            case [x, y] if x:
                print(x, y)
        class Point:
            __match_args__ = ("x",)
            def __init__(self, x):
                self.x = x
        match Point(3):
            case Point(x=3 as three):
                print(three)
        async def later(box):
            box["n"] += await asyncio.sleep(0, 3)
            box["all"] = [one async for one in many()]
            return box
        async def many():
            for n in range(2):
                yield n
        print(asyncio.run(later({"n": 1})))
        text = f"{box!r:>10} {box[0] = } {len(box):{4}}"
        print(text, text if (n := len(text)) else "", n)
        print([y for x in [[1], [2]] for y in x if (z := y)], z)
        print((lambda *words, key=box: (words, key))(1), sorted(box, key=lambda one: -one))
        with open("/dev/null") as file, open("/dev/null"):
            print(file.closed)
        try:
            box["no"]
        except TypeError as error:
            print(error)
        finally:
            print("end")
        assert box, "none"
        i = 0
        while not i:
            i += 1
        else:
            print("else")
    """,
    "documentation, classes and annotations": '''
        """The module's text."""
        from __future__ import annotations
        from __future__ import division
        import dataclasses, enum, inspect, pickle, typing
        def use():
            return annotations
        annotations = division
        @dataclasses.dataclass
        class Point:
            """A point."""
            x: int
            y: typing.List[int] = dataclasses.field(default_factory=list)
            z: typing.ClassVar[int] = 3
        class Color(enum.Enum):
            RED = 1
            BLUE = RED + 1
        class Text(typing.NamedTuple):
            a: int = 1
        def add(a: Point, b: "int" = 2, *, c: int = 3) -> int:
            """Adds."""
            a.x += b
            return a.x
        print(__doc__, Point.__doc__, add.__doc__, inspect.signature(add), add.__annotations__, Point.__annotations__)
        print(Point(1), Point(1) == Point(1), list(Color), Color.RED.name, Text(2), add(Point(1)), dataclasses.asdict(Point(2, [3])))
        print([name for name in sorted(globals()) if not name.startswith("__")])
    ''',
    "matching and other ways to a field": """
        import collections, functools, operator, string, types
        class Loud(type):
            def __instancecheck__(cls, one):
                print("is it one?")
                return True
        class Anything(metaclass=Loud):
            pass
        class Shop:
            __match_args__ = ("left", "price")
            def __init__(self, left):
                self.left, self.items = left, {"a": [1, 2], "b": None}
            @property
            def price(self):
                print("priced")
                return 7
            def __getattr__(self, name):
                print("asked for", name)
                raise AttributeError(name)
        class Table(dict):
            def get(self, key, default=None):
                print("got", key)
                return dict.get(self, key, default)
            def keys(self):
                print("keys")
                return dict.keys(self)
        found = None
        def change(one):
            global found, helper, Kind
            def helper():
                return 1
            class Kind:
                pass
            match one:
                case Shop(3, 8) | Shop(left=4):
                    found = "priced otherwise"
                case Shop(left=2, items={"a": [first, *_], "b": None, **more}, none=_):
                    found = "none"
                case Shop(2, 7, items={"a": [first, *rest] as both, **more}) if first == 1:
                    print(first, rest, both, more)
                case {"x": -1 | 1.5 | True as one, **found}:
                    print(one)
                case [_, _, *found] | collections.deque([*found]):
                    pass
                case None | "text" | b"bytes":
                    found = "simple"
                case Anything():
                    found = "anything"
            print(found if not isinstance(found, Shop) else "shop")
        table = Table(x=-1, y=2)
        for one in Shop(3), Shop(2), Shop(4), {"x": 1.5}, table, [1, 2, 3], "text", None, 7, (1, 2), types.SimpleNamespace():
            change(one)
        shop = Shop(5)
        shop.__dict__["left"] += 1
        vars(shop).update(left=shop.__dict__.pop("left"), right=1)
        shop.__dict__.setdefault("more", [])
        print(vars(shop)["left"], shop.__dict__.get("none"), "{0.left:>4} {0.items[a][1]} {more.price}".format(shop, more=shop), "left" in vars(shop))
        add = functools.partial(shop.more.append, 1)
        print(add(), functools.partial(shop.more.append, 2)(), shop.more * 2, 2 * shop.more, shop.more < [2], operator.iadd(shop.more, [3]), add.func == shop.more.append)
        view, keys = shop.items.items(), shop.items.keys()
        print([*view], len(view), [one for one in keys], ("b", None) in view, sorted(keys), list(reversed(view)))
        def steps():
            try:
                print("sent", (yield 1))
                yield 2
            except ValueError as fault:
                print("thrown", fault)
                yield 3
        one, other = steps(), steps()
        print(next(one), one.send(5), one.close(), next(other), other.throw(ValueError("x")), other.__next__.__name__)
        try:
            one.send(1), "{0} {}".format(1)
        except StopIteration as found:
            print("over")
        print(found if "found" in globals() else "unbound", "{".join("ab"), "{}}}{{".format(1))
    """,
    "exec and eval": """
        shared = {"n": 1}
        def run():
            names = {}
            exec("x = shared['n'] + 1", globals(), names)
            return names, eval("shared['n']"), sorted(locals())
        print(run())
    """,
}


class TheProgramDoesWhatItDid(unittest.TestCase):
    def test_programs_write_the_same(self) -> None:
        for name, text in SAME.items():
            plain = run_of(compile(textwrap.dedent(text), "<watched_module>", "exec", dont_inherit=True))[0]
            self.assertTrue(plain)
            for is_on in (False, True):
                with self.subTest(program=name, on=is_on):
                    with noting() if is_on else contextlib.nullcontext():
                        hooks.put(is_on)
                        self.assertEqual(run_of(code_of(text))[0], plain)

    def test_a_hook_that_fails_does_not_reach_the_program(self) -> None:
        def fail(*_: object) -> None:
            raise LookupError("planted")

        places = "_touch_field", "_touch_whole", "_touch_keyed", "_touch_method", "_stepping", "_touch_cell", "_touch_variable", "saw", "_what_of"
        for name in places:
            for text in SAME.values():
                plain = run_of(compile(textwrap.dedent(text), "<watched_module>", "exec", dont_inherit=True))[0]
                with self.subTest(name=name), contextlib.redirect_stderr(io.StringIO()), noting(), mock.patch.object(hooks, name, fail):
                    self.assertEqual(run_of(code_of(text))[0], plain)

    def test_tracebacks_are_the_same(self) -> None:
        text = """
            class Box:
                def __init__(self):
                    self.items = {}

                def fail(self, key):
                    return (self.items[
                        key.lower()] +
                        1)

            def work(box):
                for one in box.items:
                    pass
                box.missing.append(
                    box.fail("A"))

            def first(box):
                box.fail("A")

            def change(box):
                box.items["a"] = 1
                for one in box.items:
                    box.items[one + "b"] = 2
        """
        for function in ("work", "first", "change"):
            told = []
            for code in (compile(textwrap.dedent(text), "<watched_module>", "exec"), code_of(text)):
                linecache.cache["<watched_module>"] = (len(text), None, textwrap.dedent(text).splitlines(True), "<watched_module>")
                with noting():
                    variables = run_of(code)[1]
                    try:
                        variables[function](variables["Box"]())
                    except Exception:
                        told.append(traceback.format_exc())
            self.assertEqual(len(told), 2)
            self.assertEqual(told[1], told[0])

    def test_no_line_is_lost_or_gained(self) -> None:
        text = Path(textwrap.__file__).read_text()
        plain, watched = compile(text, "t.py", "exec"), code_of(text)
        self.assertEqual(_lines(watched), _lines(plain))

    def test_what_the_program_lets_go_of_is_gone(self) -> None:
        text = """
            class Box:
                pass
            def work():
                box = Box()
                box.items = [Box()]
                box.items.append(1)
                box.table = {"k": box.items[0]}
                box.table["k"].n = 1
                private = [Box()]
                private.append(2)
                return [watch(box), watch(box.items[0]), watch(private[0])]
        """
        with noting():
            _, variables = run_of(code_of(text), watch=weakref.ref)
            boxes = variables["work"]()
            self.assertIsNone(boxes[0](), "an object is kept")
            self.assertIsNone(boxes[2](), "what only a variable has is kept")
        gc.collect()
        self.assertIsNone(boxes[1]())

    def test_what_is_deleted_is_gone(self) -> None:
        text = """
            class Box:
                pass
            def deleted():
                box = Box()
                box.items = [Box()]
                box.items.append(1)
                seen = watch(box.items[0])
                del box.items
                return seen()
            def replaced():
                box = Box()
                box.table = {"k": Box()}
                box.table["n"] = 1
                seen = watch(box.table["k"])
                box.table = None
                return seen()
        """
        with noting():
            _, variables = run_of(code_of(text), watch=weakref.ref)
            for name in ("deleted", "replaced"):
                with self.subTest(name=name):
                    self.assertIsNone(variables[name]())


def _lines(code: types.CodeType) -> set[int | None]:
    inner = [one for one in code.co_consts if isinstance(one, types.CodeType)]
    return {line for _, line in dis.findlinestarts(code)}.union(*map(_lines, inner))


class WhatIsTouched(unittest.TestCase):
    """Each line of a function, and what it touches."""

    def assert_touches(self, body: str, *expected: tuple[str, str], before: str = "") -> None:
        text = "class Shop:\n    count = 0\n    def __init__(self):\n        self.items = []\n        self.stock = {'left': 2}\n"
        text += f"shop = Shop()\nkeep = [shop, shop.items, shop.stock]\n{textwrap.dedent(before)}\n"
        text += "def work():\n" + textwrap.indent(textwrap.dedent(body), "    ") + "\n"
        with noting():
            _, variables = run_of(code_of(text))
            STRETCHES.pop(threading.get_ident(), None)
            kept = variables["work"]()
            self.assertEqual(sorted(set(touches())), sorted(expected), body)
            del kept

    def test_fields(self) -> None:
        self.assert_touches("shop.items", ("Shop.items", "read"))
        self.assert_touches("shop.items = 1", ("Shop.items", "write"))
        self.assert_touches("shop.items += []", ("Shop.items", "read"), ("Shop.items", "write"), ("Shop.items", "addition"))
        self.assert_touches("del shop.items", ("Shop.items", "write"))
        self.assert_touches("getattr(shop, 'items')", ("Shop.items", "read"))
        self.assert_touches("setattr(shop, 'items', 1)", ("Shop.items", "write"))
        self.assert_touches("shop.count", ("Shop.count", "read"))
        self.assert_touches("Shop.count += 1", ("Shop.count", "read"), ("Shop.count", "write"))
        self.assert_touches("shop.work", before="Shop.work = lambda self: 1")

    def test_elements(self) -> None:
        read, of_field = ("Shop.stock['left']", "read"), ("Shop.stock", "read")
        self.assert_touches("shop.stock['left']", of_field, read, ("Shop.stock", "lookup"))
        self.assert_touches("shop.stock['left'] = 1", of_field, ("Shop.stock['left']", "write"), ("Shop.stock", "replacement"))
        self.assert_touches("shop.stock['new'] = 1", of_field, ("Shop.stock['new']", "write"), ("Shop.stock", "addition"))
        self.assert_touches("del shop.stock['left']", of_field, ("Shop.stock['left']", "write"), ("Shop.stock", "addition"))
        self.assert_touches("shop.stock.get('left')", of_field, read, ("Shop.stock", "lookup"))
        self.assert_touches("'left' in shop.stock", of_field, read, ("Shop.stock", "lookup"))
        self.assert_touches("shop.stock['LEFT'.lower()]", of_field, read, ("Shop.stock", "lookup"))

    def test_setdefault_adds_or_looks_at_once(self) -> None:
        of_field, look = ("Shop.stock", "read"), ("Shop.stock", "lookup")
        self.assert_touches("shop.stock.setdefault('left', 1)", of_field, look, ("Shop.stock['left']", "lookup"))
        added = look, ("Shop.stock", "addition"), ("Shop.stock['new']", "addition")
        for line in ("shop.stock.setdefault('new', 1)", "shop.stock.setdefault('NEW'.lower(), 1)", "dict.setdefault(shop.stock, 'new', 1)"):
            with self.subTest(line=line):
                self.assert_touches(line, of_field, *added)
        for made in ("collections.OrderedDict()", "collections.Counter()", "Own()"):
            before = f"import collections\nclass Own(dict): pass\ntable = {made}\nkeep.append(table)"
            with self.subTest(made=made):
                self.assert_touches("table.setdefault('a', 1)", ("table", "lookup"), ("table", "addition"), ("table['a']", "addition"), before=before)
                self.assert_touches("table.setdefault('a', 1)", ("table", "lookup"), ("table['a']", "lookup"), before=before + "\ntable['a'] = 1")
        for made in ("collections.UserDict()", "weakref.WeakValueDictionary()", "collections.ChainMap({})"):
            before = f"import collections, weakref\ntable = {made}\nkeep.append(table)"
            written = ("table", "lookup"), ("table", "addition"), ("table['a']", "read"), ("table['a']", "write")
            with self.subTest(made=made):
                self.assert_touches("table.setdefault('a', shop)", *written, before=before)
        own = "class Key:\n    def __hash__(self): return 1\n    def __eq__(self, other): return True\nkey, table = Key(), {}\nkeep += [key, table]"
        self.assert_touches(
            "table.setdefault(key, 1)", ("table", "lookup"), ("table", "addition"), ("table[a Key]", "read"), ("table[a Key]", "write"), before=own,
        )

    def test_fields_have_the_names_that_the_program_has(self) -> None:
        functions = "def count():\n    count.calls += 1\ncount.calls = 0"
        self.assert_touches("count()", ("count.calls", "read"), ("count.calls", "write"), before=functions)
        sell = "def sell(self): pass\nsell.__qualname__ = 'Shop.sell'\nsell.calls = 0\nShop.sell = sell"
        self.assert_touches("Shop.sell.calls", ("Shop.sell", "read"), ("Shop.sell.calls", "read"), before=sell)
        private = "class Safe:\n    def __init__(self): self.__code = 1\n    def look(self): return self.__code\n"
        self.assert_touches("safe.look()", ("Safe.__code", "read"), before=private + "safe = Safe()")
        self.assert_touches("safe.look()", ("Safe.__code", "read"), before=private + "class Larger(Safe): pass\nsafe = Larger()")
        self.assert_touches("one.look()", ("safe.__code", "read"), before=private.replace("Safe", "safe") + "one = safe()")
        for name in ("_sum__all", "_Sum", "_Sum__all__", "_"):
            with self.subTest(name=name):
                self.assert_touches(f"shop.{name}", (f"Shop.{name}", "read"), before=f"shop.{name} = 1")

    def test_elements_of_a_deque(self) -> None:
        before, length, new = "import collections\nline = collections.deque([1, 2, 3])\nkeep.append(line)", ("line", "length"), ("line", "replacement")
        for place in ("0", "-3"):
            with self.subTest(place=place):
                self.assert_touches(f"line[{place}]", length, ("line[0]", "read"), before=before)
                self.assert_touches(f"line[{place}] += 1", length, new, ("line[0]", "read"), ("line[0]", "write"), before=before)
        self.assert_touches("line[0] = 1", new, ("line[0]", "write"), before=before)
        self.assert_touches("line[-3] = 1", length, new, ("line[0]", "write"), before=before)
        self.assert_touches("del line[0]", ("line", "rewrite"), before=before)

    def test_containers_of_a_class_have_its_name(self) -> None:
        before = "class Store:\n    rows, sizes = [], {}\n    class Part:\n        ids: list = []\nkeep += [Store.rows, Store.sizes, Store.Part.ids]"
        for line, name in (("Store.rows.append(1)", "rows"), ("Store().sizes.clear()", "sizes"), ("Store.Part.ids.append(1)", "ids")):
            with self.subTest(line=line):
                owner = "Part" if name == "ids" else "Store"
                kind = "rewrite" if name == "sizes" else "addition"
                looked = [("Store.sizes", "read")] if name == "sizes" else [(f"{owner}.{name}", "read")]
                extra = [("Store.Part", "read")] if name == "ids" else []
                self.assert_touches(line, *looked, *extra, (f"{owner}.{name}", kind), before=before)

    def test_rows_are_written_into_buffers(self) -> None:
        before = "import csv, io\ntext = io.StringIO()\nrows, named = csv.writer(text), csv.DictWriter(text, ['a'])\nkeep += [rows, named]"
        for line in (
            "rows.writerow([1])", "rows.writerows([[1], [2]])", "named.writeheader()", "named.writerow({'a': 1})", "list(map(rows.writerow, [[1]]))",
        ):
            with self.subTest(line=line):
                self.assert_touches(line, ("text", "addition"), before=before)
        self.assert_touches("csv.writer(text)\ncsv.DictWriter(text, ['a'])\nrows == named, str(rows)", before=before)
        file = "import csv\nfile = open('/dev/null', 'w')\nrows, named = csv.writer(file), csv.DictWriter(file, ['a'])\nkeep += [rows, named]"
        self.assert_touches("rows.writerow([1])\nnamed.writeheader()\nfile.close()", before=file)

    def test_what_a_template_puts_in(self) -> None:
        of_field, look = ("Shop.items", "read"), ("Shop.items", "iteration")
        before = "import string\ntext = string.Template('$a')"
        for line in (
            "text.substitute(a=shop.items)", "text.safe_substitute(a=shop.items)", "string.Template('$a').substitute(a=shop.items)",
            "text.substitute({}, a=shop.items)", "(text or None).substitute(a=shop.items)",
        ):
            with self.subTest(line=line):
                self.assert_touches(line, of_field, look, before=before)

    def test_elements_that_a_function_looks_at_have_a_name(self) -> None:
        for line, whole in (
            ("list(map(len, keep))", "iteration"), ("max(keep, key=len)", "iteration"), ("sorted(keep, key=len)", "iteration"), ("keep.sort(key=len)", "rewrite"),
        ):
            with self.subTest(line=line):
                self.assert_touches(line, ("keep[..]", "length"), ("keep", whole), before="keep[:] = [[1], [2]]")
        for line in ("list(map(itemgetter('n'), rows))", "sorted(rows, key=itemgetter('n'))", "max(rows, key=itemgetter('n'))"):
            with self.subTest(line=line):
                touched = ("rows", "iteration"), ("rows[..]", "lookup"), ("rows[..]['n']", "read")
                self.assert_touches(line, *touched, before="from operator import itemgetter\nrows = [{'n': 1}]\nkeep[:] = rows")
        self.assert_touches("list(map(dict.copy, rows))", ("rows", "iteration"), ("rows[..]", "iteration"), before="rows = [{'n': 1}]\nkeep[:] = rows")
        rows = "rows = {'a': [1]}\nkeep.append(rows['a'])\nkeep.append(rows)"
        self.assert_touches("rows.get('a').append(1)", ("rows", "lookup"), ("rows['a']", "read"), ("rows['a']", "addition"), before=rows)
        self.assert_touches("rows.setdefault('A'.lower(), []).append(1)", ("rows", "lookup"), ("rows['a']", "lookup"), ("rows[..]", "addition"), before=rows)

    def test_shapes(self) -> None:
        of_field = ("Shop.items", "read")
        for line, kind in (
            ("shop.items.append(1)", "addition"), ("len(shop.items)", "length"), ("if shop.items: pass", "length"),
            ("for one in shop.items: pass", "iteration"), ("[one for one in shop.items]", "iteration"), ("sorted(shop.items)", "iteration"),
            ("shop.items.clear()", "rewrite"), ("shop.items[:] = [1]", "rewrite"), ("1 in shop.items", "iteration"),
            ("print(end='', *shop.items)", "iteration"), ("f'{shop.items}'", "iteration"),
        ):
            self.assert_touches(line, of_field, ("Shop.items", kind))
        self.assert_touches("shop.items.append(1); shop.items.pop()", of_field, ("Shop.items", "addition"), ("Shop.items", "removal"))
        self.assert_touches("for key in shop.stock: pass", ("Shop.stock", "read"), ("Shop.stock", "keys"))
        self.assert_touches("list(shop.stock.items())", ("Shop.stock", "read"), ("Shop.stock", "iteration"))

    def test_variables_and_cells(self) -> None:
        before = "total = 0\ndef change():\n    global total\n    total = 1\n"
        self.assert_touches("total", ("watched_module.total", "read"), before=before)
        self.assert_touches("change()", ("watched_module.total", "write"), before=before)
        counter = "count = 0\ndef add():\n    nonlocal count\n    count += 1\nadd()\nreturn add"
        self.assert_touches(counter, ("count", "write"), ("count", "read"))

    def test_library_functions(self) -> None:
        of_field = ("Shop.items", "read")
        self.assert_touches("heapq.heappush(shop.items, 1)", of_field, ("Shop.items", "rewrite"), before="import heapq")
        self.assert_touches("push(shop.items, 1)", of_field, ("Shop.items", "rewrite"), before="from heapq import heappush as push")

    def test_patterns(self) -> None:
        read, length = ("Shop.items", "read"), ("Shop.items", "length")
        table = ("Shop.stock", "read"), ("Shop.stock['left']", "read"), ("Shop.stock", "lookup")
        for cases, *expected in (
            ("case Shop(items=1): pass", read), ("case Shop(items=[1, *rest]): pass", read, length), ("case Shop(7): pass", read),
            ("case Shop(items=other) | Shop(count=other): pass", read), ("case Shop(sold=3, items=1): pass", ("Shop.sold", "read"), read),
            ("case Shop(): pass\n    case Shop(items=1): pass",), ("case Shop() if not shop: pass\n    case Shop(items=1): pass", read),
            ("case int() | str(): pass\n    case Other(items=1): pass",), ("case [Shop(items=1)]: pass",), ("case other: pass",),
        ):
            with self.subTest(cases=cases):
                self.assert_touches(f"match shop:\n    {cases}", *expected, before="shop.sold = 5\nShop.__match_args__ = ('items',)\nclass Other: pass")
        for line, *expected in (
            ("match shop.items:\n    case [1, *rest]: pass", read, length), ("match shop.items:\n    case {'left': 1}: pass", read),
            ("match shop.stock:\n    case {'left': 7}: pass", *table), ("match shop.stock:\n    case {'left': 2}: pass\n    case {'new': _}: pass", *table),
            ("match shop.stock:\n    case {**rest}: pass", ("Shop.stock", "read"), ("Shop.stock", "iteration")),
            ("match [shop.stock]:\n    case [{'left': 7}]: pass", *table),
        ):
            with self.subTest(line=line):
                self.assert_touches(line, *expected)

    def test_what_statements_bind(self) -> None:
        for line in (
            "def total(): pass", "async def total(): pass", "class total: pass", "import json as total", "from json import loads as total",
            "try: 1 / 0\n    except ZeroDivisionError as total: pass", "match 1:\n        case total: pass", "match [1]:\n        case [*total]: pass",
            "with open('/dev/null') as total: pass", "for total in (1,): pass", "match {}:\n        case {**total}: pass",
        ):
            before = f"total = 0\ndef show():\n    return total\ndef change():\n    global total\n    {line}\n"
            with self.subTest(line=line):
                self.assert_touches("change()", ("watched_module.total", "write"), before=before)

    def test_generators_and_views(self) -> None:
        steps = "def counted():\n    while True:\n        yield 1\nsteps = counted()\nnext(steps)\n"
        for line in ("steps.send(1)", "next(steps)", "steps.close()", "for one in steps:\n    break", "steps.__next__()"):
            self.assert_touches(line, ("steps", "write"), before=steps)
        self.assert_touches("sink.send(1)", before="class Sink:\n    def send(self, one): pass\nsink = Sink()")
        for view, kind in (("items", "iteration"), ("values", "iteration"), ("keys", "keys")):
            for line in ("for one in view: pass", "[*view]", "sorted(view)"):
                self.assert_touches(line, ("Shop.stock", kind), before=f"view = shop.stock.{view}()")

    def test_iterators(self) -> None:
        of_list = ("steps", "write"), ("Shop.items", "iteration")
        for line in (
            "next(steps)", "for one in steps:\n    break", "[one for one in steps]", "sum(steps)", "dict(zip('ab', steps))", "1 in steps",
            "steps.__next__()", "first, *rest = steps", "''.join(map(str, steps))", "[].extend(steps)", "list(itertools.islice(steps, 1))",
        ):
            with self.subTest(line=line):
                self.assert_touches(line, *of_list, before="import itertools\nshop.items += [1, 2]\nsteps = iter(shop.items)")
                self.assert_touches(line, of_list[0], before="import itertools\nsteps = filter(None, (1, 2))")
        for made in ("enumerate(shop.items)", "zip(shop.items, 'ab')", "map(str, shop.items)", "itertools.cycle(shop.items)", "csv.reader(iter(shop.items))", "reversed(shop.items)"):
            with self.subTest(made=made):
                self.assert_touches("next(steps, None)", *of_list, before=f"import csv, itertools\nshop.items += ['a', 'b']\nsteps = {made}")
        self.assert_touches("next(one)", ("one", "write"), ("one[..]", "write"), before="import itertools\none, other = itertools.tee(iter((1, 2)))")
        self.assert_touches("next(pairs)", ("pairs", "write"), ("steps", "write"), before="steps = iter((1, 2))\npairs = enumerate(steps)")

    def test_what_leaves_an_iterator_where_it_is(self) -> None:
        for line in ("print(steps, end='')", "f'{steps}'", "steps == 1", "if steps: pass", "steps is None", "next(numbers)", "repr(numbers)", "next(zeros)"):
            with self.subTest(line=line):
                self.assert_touches(line, before="import itertools\nsteps, numbers, zeros = iter((1, 2)), itertools.count(), itertools.repeat(0)")
        for line in ("next(iter((1, 2)))", "mine = iter((1, 2))\nnext(mine)\nfor one in mine: pass", "for one in enumerate(zip('ab', 'cd')): pass"):
            with self.subTest(line=line):
                self.assert_touches(line)

    def test_fields_by_other_ways(self) -> None:
        read, write, look = ("Shop.items", "read"), ("Shop.items", "write"), ("Shop.items", "iteration")
        for line, *expected in (
            ("shop.__dict__['items']", read), ("shop.__dict__['items'] = 1", write), ("vars(shop)['items'] = 1", write),
            ("del shop.__dict__['items']", write), ("shop.__dict__['items'] += []", read, write), ("shop.__dict__.get('items')", read),
            ("vars(shop).pop('items')", write), ("shop.__dict__.update(items=1, new=2)", write, ("Shop.new", "write")),
            ("'{0.items} {one.count}'.format(shop, one=shop)", read, look, ("Shop.count", "read")), ("'{.items!r:>9}'.format(shop)", read, look),
        ):
            with self.subTest(line=line):
                self.assert_touches(line, *expected)
        made = "import types\nmade = types.ModuleType('made')\nmade.debug = False"
        self.assert_touches("made.debug", ("made.debug", "read"), before=made)
        self.assert_touches("made.debug = True", ("made.debug", "write"), before=made)
        self.assert_touches("types.debug", ("types.debug", "read"), before=made + "\ntypes.debug = False")
        self.assert_touches("types.FunctionType", before=made)

    def test_operators(self) -> None:
        of_field, look = ("Shop.items", "read"), ("Shop.items", "iteration")
        for line in ("shop.items * 2", "2 * shop.items", "shop.items < [1]", "shop.items >= keep", "shop.items + keep", "shop.items != keep"):
            expected = [("keep", "iteration")] if "keep" in line else []
            with self.subTest(line=line):
                self.assert_touches(line.replace("keep", "others"), of_field, look, *[("others", "iteration")] * len(expected), before="others = [1]")
        self.assert_touches("operator.iadd(shop.items, [1])", of_field, ("Shop.items", "addition"), before="import operator")
        self.assert_touches("operator.lt(shop.items, [1])", of_field, look, before="import operator")
        self.assert_touches("partial(shop.items.append, 1)()", of_field, ("Shop.items", "addition"), before="from functools import partial")

    def test_methods_that_are_kept(self) -> None:
        others = "others = [1]\nkeep.append(others)\n"
        self.assert_touches("table['put'](1)", ("table", "lookup"), ("table['put']", "read"), ("others", "addition"), before=others + "table = {'put': others.append}\nkeep.append(table)")
        self.assert_touches("shop.put(1)", ("Shop.put", "read"), ("others", "addition"), before=others + "shop.put = others.append")
        self.assert_touches("list(iter(others.pop, 1))", ("others", "removal"), before=others)
        self.assert_touches("shop.call(1)", ("Shop.call", "read"), before="shop.call = print")

    def test_equal_keys_are_one(self) -> None:
        before = """
            import collections, dataclasses, datetime, decimal, fractions, pathlib, uuid
            Point = collections.namedtuple("Point", "x y")
            @dataclasses.dataclass(frozen=True)
            class Place:
                x: int
                parts: tuple = ()
            class Own:
                def __init__(self, x):
                    self.x = x
                def __eq__(self, other):
                    raise LookupError
                def __hash__(self):
                    return id(self)
        """
        keys = (
            "datetime.date(2020, 1, 1)", "datetime.datetime(2020, 1, 1, tzinfo=datetime.timezone.utc)", "datetime.timedelta(1)", "decimal.Decimal(1)",
            "fractions.Fraction(1, 2)", "uuid.UUID(int=3)", "pathlib.Path('a')", "Point(1, 2)", "Place(1)", "Place(1, (2, 'a'))", "1j",
            "frozenset([1, 2])", "(1, ('a', None))", "(Point(1, 2), datetime.date(2020, 1, 1))",
        )
        for key in keys:
            with self.subTest(key=key):
                self.assertEqual(len(self.elements(f"shop.stock[{key}] = 1\nshop.stock[{key}] += 1", before)), 1)
        for one, other in (("Place(1)", "Place(2)"), ("Place(1)", "Point(1, ())"), ("(1,)", "frozenset([1])"), ("Own(1)", "Own(1)")):
            with self.subTest(one=one, other=other):
                self.assertEqual(len(self.elements(f"keep.append([{one}, {other}])\nshop.stock[keep[-1][0]] = shop.stock[keep[-1][1]] = 1", before)), 2)

    def elements(self, body: str, before: str) -> set[int]:
        """The numbers of the elements that the lines touch."""
        text = f"class Shop:\n    stock = {{}}\nshop, keep = Shop(), []\n{textwrap.dedent(before)}\ndef work():\n{textwrap.indent(body, '    ')}\n"
        with noting():
            _, variables = run_of(code_of(text))
            STRETCHES.pop(threading.get_ident(), None)
            variables["work"]()
            touches()  # Things are made late.
            things_of_stock = [owner.things for owner in things.OWNERS.values() if owner.name.endswith("stock")]
            return {thing.number for held in things_of_stock for thing in held.values() if isinstance(thing, things.Element)}

    def test_bytes_and_what_is_written_into_them(self) -> None:
        of_bytes = "data = bytearray(b'abc')\nimport io, struct\n"
        for line, kind in (
            ("data.decode()", "iteration"), ("data.find(b'a')", "iteration"), ("data.split()", "iteration"), ("data.extend(b'x')", "addition"),
            ("io.BytesIO(b'xyz').readinto(data)", "rewrite"), ("struct.pack_into('B', data, 0, 1)", "rewrite"), ("struct.unpack('3B', data)", "iteration"),
        ):
            with self.subTest(line=line):
                self.assert_touches(line, ("data", kind), before=of_bytes)
        self.assert_touches("text.split()\ntext.find('a')", before="text = 'a b'")

    def test_attributes_that_are_keys(self) -> None:
        table = "class Table(dict):\n    __getattr__ = dict.GET\n    __setattr__ = dict.__setitem__\n    kind = 1\ntable = Table(left=2)\nkeep.append(table)\n"
        for get in ("__getitem__", "get"):
            before, element = table.replace("GET", get), "Table['left']"
            both = (element, "read"), (element, "write"), ("Table", "lookup"), ("Table", "replacement")
            self.assert_touches("table.left", (element, "read"), ("Table", "lookup"), before=before)
            self.assert_touches("table.left = 1", (element, "write"), ("Table", "replacement"), before=before)
            self.assert_touches("table.left += 1", *both, before=before)
            self.assert_touches("table.left += shop.count", *both, ("Shop.count", "read"), before=before)
            self.assert_touches("table.kind", ("Table.kind", "read"), before=before)

    def test_variables_that_are_bound_behind_a_start(self) -> None:
        for helper, call in (
            ("def launch():\n    threading.Thread(target=print).start()\n", "launch()"), ("def launch():\n    go()\ndef go():\n    pool.submit(print)\n", "launch()"),
            ("class Launch:\n    def __init__(self):\n        self.go()\n    def go(self):\n        pool.submit(print)\n", "Launch()"),
            ("", "threading.Thread(target=print).start()"),
        ):
            for is_behind in (True, False):
                lines = [call, "limit = 1"] if is_behind else ["limit = 1", call]
                text = f"import threading\n{helper}def work():\n    return limit\n" + "\n".join(lines) + "\n"
                scopes = Scopes(ast.parse(text))
                with self.subTest(text=text):
                    self.assertEqual(scopes.may_be_shared(scopes.module, "limit"), is_behind)

    def test_names_that_other_modules_store_are_found(self) -> None:
        text = """
            import config, os.path as p
            from . import (alpha,
                beta)
            from x import y as z  # not w
            config.debug = True
            config.a, config.b = 1, 2
            config.n += config.m
            config.d //= 1
            config.t: int = 3
            setattr(beta, "size", 3)
            del alpha.gone
            self.left = 3
            local.q = w.f(k=3)
            if config.same == 3 or p.sep <= z.zed: pass
        """
        source = textwrap.dedent(text).encode()
        self.assertEqual(sorted(stored.stored_by(source)), ["a", "b", "d", "debug", "gone", "n", "size", "t"])

    def test_fields_that_may_have_methods_are_found(self) -> None:
        text = b"self.put = 1\nshop.a, shop.b = 1, 2\nshop.c: int = 3\nShop(name=one.label)\nShop(take=items.pop)\nsize = items.pop()\nif self.same == 3: self.call(1)\n"
        self.assertEqual(sorted(stored.kept_by(text)), ["a", "b", "c", "put", "take"])

    def test_what_the_library_keeps_is_changed_by_a_call(self) -> None:
        called = b"chdir(x)\nos.umask  (0)\nlocale.setlocale\t(one)\n(catch_warnings())\n"
        others = b"my_seed(1)\nsetstate = 3\nalarm\nsettrace[0](f)\ntzset_all()\nsignal"
        things = [f"{CHANGED_STATE}{thing}" for name in ("chdir", "umask", "setlocale", "catch_warnings") for thing in changed_by(name)]
        self.assertEqual(sorted(stored.kept_by(called + others)), sorted(things))
        self.assertEqual(stored.kept_by(others), set())
        self.assertEqual(sorted(stored.kept_by(b"alarm (1)")), sorted(f"{CHANGED_STATE}{thing}" for thing in changed_by("alarm")))

    def test_what_only_a_variable_has_is_not_touched(self) -> None:
        self.assert_touches("mine = [1]\nmine.append(2)\nmine[0] = 3\nlen(mine)")
        self.assert_touches("mine = {}\nmine['a'] = 1\nfor key in mine: pass")

    def test_a_write_stands_behind_what_takes_its_time(self) -> None:
        """`total += wait()` reads before the wait, and writes behind it."""
        kinds: list[list[tuple[str, str]]] = []

        def wait() -> int:
            kinds.append(touches())
            STRETCHES.pop(threading.get_ident(), None)
            return 1

        for line in ("box.n += wait()", "boxes[0].n += wait()", "box.table['k'] += wait()", "box.items.append(wait())"):
            text = f"""
                class Box:
                    def __init__(self):
                        self.n, self.items, self.table = 0, [], {{"k": 1}}
                box = Box()
                boxes, keep = [box], [box.items, box.table]
                def work():
                    {line}
            """
            with self.subTest(line=line), noting():
                _, variables = run_of(code_of(text), wait=wait)
                STRETCHES.pop(threading.get_ident(), None)
                kinds.clear()
                variables["work"]()
                changing = {"write", "addition", "replacement"}
                self.assertFalse(changing.intersection(kind for _, kind in kinds[0]), kinds[0])
                self.assertTrue(changing.intersection(kind for _, kind in touches()), touches())


class Runs(ProgramCase):
    """Whole runs of programs."""

    SHOP = """\
import threading

stock = {"left": 2}

def sell():
    stock["left"] -= 1

threads = [threading.Thread(target=sell) for _ in range(2)]
for thread in threads:
    thread.start()
for thread in threads:
    thread.join()
"""

    def test_a_race_is_told_by_a_name_and_the_line_that_made_it(self) -> None:
        ran = run_traced(self.program(self.SHOP))
        self.assertEqual(ran.returncode, RACE, ran.stderr)
        self.assertIn("itc_trace: race on stock['left'] (a dict made at program.py:3)\n", ran.stderr)
        self.assertRegex(ran.stderr, r"write at .*program.py:6 in sell:  stock\[.left.\] -= 1\n    read  at")
        self.assertRegex(ran.stderr, r"itc_trace: 1 race in this run: \d+ places of \d things, \d+ events")

    def test_a_variable_is_told_by_the_line_that_made_it(self) -> None:
        text = self.SHOP.replace('stock = {"left": 2}', "stock = 2").replace('stock["left"]', "stock").replace("def sell():", "def sell():\n    global stock")
        ran = run_traced(self.program(text))
        self.assertIn("itc_trace: race on stock (a variable made at program.py:3)\n", ran.stderr)

    def test_a_field_that_another_module_gives_a_method_is_called_as_that(self) -> None:
        with tempfile.TemporaryDirectory() as folder:
            Path(folder, "store.py").write_text("class Shop:\n    def __init__(self, items):\n        self.put = items.append\n")
            text = self.SHOP.replace('stock = {"left": 2}', "import store\nstock = []\nshop = store.Shop(stock)").replace('stock["left"] -= 1', "shop.put(1)\n    len(stock)")
            Path(folder, "program.py").write_text(text)
            ran = run_traced(os.path.join(folder, "program.py"))
        self.assertEqual(ran.returncode, RACE, ran.stderr)
        self.assertIn("race on stock", ran.stderr)

    def test_a_variable_of_another_module_is_the_one_that_the_module_reads(self) -> None:
        with tempfile.TemporaryDirectory() as folder:
            Path(folder, "config.py").write_text("debug = False\nlevel = 1\nname = 'x'\ndef get():\n    return debug, level, name\n")
            Path(folder, "admin.py").write_text("import config\ndef enable():\n    config.debug = True\n")
            imports, change = "import config\nimport admin", "admin.enable()\n    config.level = 2\n    config.get()"
            text = self.SHOP.replace('stock = {"left": 2}', imports).replace('stock["left"] -= 1', change)
            Path(folder, "program.py").write_text(text)
            ran = run_traced(os.path.join(folder, "program.py"))
        self.assertEqual(ran.returncode, RACE, ran.stderr)
        self.assertIn("race on config.debug", ran.stderr)
        self.assertIn("race on config.level", ran.stderr)
        self.assertRegex(ran.stderr, r"read\s+at .*config.py:5 in get")
        self.assertIn(" 2 things", ran.stderr, "a variable that nobody stores into is noted")

    def test_with_a_lock_there_is_none(self) -> None:
        text = self.SHOP.replace("def sell():\n    stock", "lock = threading.Lock()\ndef sell():\n  with lock:\n    stock")
        ran = run_traced(self.program(text))
        self.assertEqual(ran.returncode, 0, ran.stderr)

    def test_nothing_is_watched_if_that_is_asked_for(self) -> None:
        ran = run_traced("--watch-nothing", self.program(self.SHOP))
        self.assertEqual(ran.returncode, 0, ran.stderr)

    def test_modules_in_the_folder_are_watched_and_others_if_named(self) -> None:
        with tempfile.TemporaryDirectory() as folder, tempfile.TemporaryDirectory() as installed:
            Path(folder, "helper.py").write_text(self.SHOP)
            Path(installed, "other.py").write_text(self.SHOP)
            for name, words, status in (("helper", (), RACE), ("other", (), 0), ("other", ("--watch", "other"), RACE)):
                Path(folder, "program.py").write_text(f"import sys\nsys.path.append({installed!r})\nimport {name}\n")
                with self.subTest(module=name, words=words):
                    ran = run_traced(*words, os.path.join(folder, "program.py"))
                    self.assertEqual(ran.returncode, status, ran.stderr)

    def test_a_module_of_the_current_folder_is_watched(self) -> None:
        with tempfile.TemporaryDirectory() as folder:
            Path(folder, "shop_of_module.py").write_text(self.SHOP)
            words = [sys.executable, "-m", "itc_trace", "run", "-m", "shop_of_module"]
            environment = {**os.environ, "PYTHONPATH": str(PACKAGE)}
            ran = subprocess.run(words, cwd=folder, env=environment, capture_output=True, text=True, timeout=300, check=False)
            self.assertEqual(ran.returncode, RACE, ran.stderr)

    def test_a_module_that_is_there_already_is_watched_in_place(self) -> None:
        text = """
            import json, threading
            decoder = json.JSONDecoder()
            def change():
                decoder.__init__()
            threads = [threading.Thread(target=one) for one in (change, lambda: decoder.decode("[1]"))]
            for thread in threads:
                thread.start()
            for thread in threads:
                thread.join()
        """
        program = self.program(textwrap.dedent(text))
        self.assertEqual(run_traced(program).returncode, 0)
        ran = run_traced("--watch", "json", program)
        self.assertEqual(ran.returncode, RACE, ran.stderr)
        self.assertIn("race on JSONDecoder.scan_once", ran.stderr)

    def test_what_is_traced_as_a_whole_is_not_watched(self) -> None:
        ran = run_traced("--watch", "queue", self.program("import queue\n"))
        self.assertEqual(ran.returncode, 0)
        self.assertEqual(ran.stderr.count("itc_trace: queue is not watched: what it promises is traced as a whole\n"), 1, ran.stderr)

    def test_a_program_that_traces_itself_is_watched(self) -> None:
        text = """
            import functools, sys, threading, itc_trace
            stock = {"left": 3}
            def plain(function):
                @functools.wraps(function)
                def called():
                    return function()
                return called
            @plain
            def sell():
                stock["left"] -= 1
            with itc_trace.tracing(**eval(sys.argv[1])) as traced:
                threads = [threading.Thread(target=sell) for _ in range(2)]
                for thread in threads:
                    thread.start()
                for thread in threads:
                    thread.join()
            print([race.thing for race in traced.races()])
        """
        program = self.program(textwrap.dedent(text))
        self.assertEqual(run_python(program, "{}").stdout, "[\"stock['left']\"]\n")
        self.assertEqual(run_python(program, "{'watched': None}").stdout, "[]\n")

    def test_constructors_tell_what_others_can_see(self) -> None:
        text = """
            import threading
            class Base:
                def __init__(self, **named):
                    self.first = named
                    self.first_again = self.first
            class Shop(Base):
                opened = 0
                def __init__(self, **named):
                    Base.__init__(self, **named)
                    self.second = 1
                    Shop.opened += 1
            class Seller(threading.Thread):
                def __init__(self):
                    super().__init__()
                    self.goods = 1
                    self.start()
                    self.goods = 2
                def run(self):
                    self.goods
            shops = []
            def make():
                shops.append(Shop(left=1))
            def look():
                while not shops:
                    pass
                shops[0].first, shops[0].second, shops[0].first_again
            threads = [threading.Thread(target=one) for one in (make, make, look)]
            for thread in threads:
                thread.start()
            for thread in threads:
                thread.join()
            Seller().join()
        """
        ran = run_traced(self.program(textwrap.dedent(text)))
        things = set(re.findall(r"^itc_trace: race on (\S+)", ran.stderr, re.MULTILINE))
        self.assertEqual(things, {"Shop.opened", "Seller.goods", "shops"}, ran.stderr)

    def test_a_loop_of_updates_takes_few_events(self) -> None:
        text = """\
import sys, threading

sys.setswitchinterval(1)
lock, stock = threading.Lock(), {"left": 5000}

def sell():
    for _ in range(2500):
        with lock:
            stock["left"] -= 1

threads = [threading.Thread(target=sell) for _ in range(2)]
for thread in threads:
    thread.start()
for thread in threads:
    thread.join()
"""
        ran = run_traced(self.program(text))
        self.assertEqual(ran.returncode, 0, ran.stderr)
        events = int(ran.stderr.rpartition(" event")[0].rpartition(" ")[2])
        self.assertLessEqual(events, 100, ran.stderr)

    def test_what_is_meant_is_silenced_and_counted(self) -> None:
        meant = self.SHOP.replace("-= 1", "-= 1  # itc: benign")
        ran = run_traced(self.program(meant))
        self.assertEqual(ran.returncode, 0, ran.stderr)
        self.assertIn("itc_trace: no race in this run; 1 silenced: ", ran.stderr)
        in_a_text = self.SHOP.replace("-= 1", "-= len('# itc: benign') - 12")
        self.assertEqual(run_traced(self.program(in_a_text)).returncode, RACE)

    def test_patterns_silence(self) -> None:
        program = self.program(self.SHOP)
        for line, status in (
            ("stock['left']", 0), ("stock['left'] program.py:6", 0), ("stock* program.py:* *:6 # meant", 0), ("*", 0),
            ("stock", RACE), ("stock['left'] program.py:7", RACE), ("stock['left'] program.py:6 program.py:7", RACE), ("# *", RACE), ("stock[left]", RACE),
        ):
            with self.subTest(line=line), tempfile.NamedTemporaryFile("w") as patterns:
                patterns.write(line + "\n")
                patterns.flush()
                self.assertEqual(run_traced("--benign", patterns.name, program).returncode, status)

    def test_a_file_of_patterns_that_is_none_is_told(self) -> None:
        ran = run_traced("--benign", "/nowhere/patterns", self.program(self.SHOP))
        self.assertEqual((ran.returncode, ran.stderr), (2, "itc_trace: /nowhere/patterns cannot be read: No such file or directory\n"))
        with tempfile.NamedTemporaryFile("w") as patterns:
            patterns.write("\na b c d\n")
            patterns.flush()
            ran = run_traced("--benign", patterns.name, self.program(self.SHOP))
        self.assertEqual(ran.returncode, 2)
        self.assertIn(":2: a thing and two places at most", ran.stderr)


HAS_TESTS = importlib.util.find_spec("test") is not None and importlib.util.find_spec("test.test_sched") is not None

BESIDE_A_THREAD = """\
import sys, threading, unittest
threading.Thread(target=threading.Event().wait, daemon=True).start()
unittest.main(module=None, argv=sys.argv)
"""


@unittest.skipUnless(HAS_TESTS, "this Python came without its tests")
class Library(ProgramCase):
    """Tests of the standard library pass with hooks that note in what they test, and in themselves."""

    def assert_passing(self, *names: str) -> None:
        watched = [word for name in ("test", *names) for word in ("--watch", name)]
        tests = [f"test.test_{name.strip('_')}" for name in names]
        ran = run_traced("--quiet", *watched, self.program(BESIDE_A_THREAD), *tests)
        self.assertRegex(ran.stderr, r"(?m)^Ran \d+ tests in [^\n]*\n\nOK")

    def test_a_module_of_threads(self) -> None:
        self.assert_passing("sched")

    def test_modules_that_look_at_code_and_references(self) -> None:
        self.assert_passing("contextlib", "copy", "textwrap", "dataclasses")


if __name__ == "__main__":
    unittest.main()
