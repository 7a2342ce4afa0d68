"""Pairs of touches that race: what two threads do to one thing, one line each, in every form that the language and its library have.

A group has what it is about, what one thread does, and many ways in which another thread does something that races with it.
"""

from __future__ import annotations

import json
import linecache
import os
import re
import sys
import textwrap
import threading
import time
from collections.abc import Iterator
from types import ModuleType
from typing import NamedTuple

from itc_trace import Races, tracing
from itc_trace.watch import hooks, things
from itc_trace.watch.decisions import WATCHED
from itc_trace.watch.finder import FILES
from itc_trace.watch.rewrite import rewritten


class Group(NamedTuple):
    """Many touches, each of which races with the same other one, or none of which does."""

    name: str
    setup: str
    other: str
    touches: tuple[str, ...]
    is_race: bool = True


def _listed(text: str) -> tuple[str, ...]:
    """The touches of a group. One of several lines has its further lines behind it, indented or after a stroke."""
    found: list[str] = []
    for line in textwrap.dedent(text).strip("\n").split("\n"):
        if line.startswith((" ", "|")):
            found[-1] += "\n" + line.removeprefix("|")
        elif line:
            found.append(line)
    return tuple(found)


LIST = "items = [1, 2, 3]\ndef same(): return items"
DICT = "table = {'a': 1, 'b': 2}"
SET = "marks = {1, 2}"
OBJECT = """
class Point:
    __match_args__ = ("x", "y")
    def __init__(self):
        self.x, self.y = 1, 2
point = Point()
"""
DATACLASS = """
from dataclasses import dataclass
@dataclass
class Point:
    x: int = 1
    y: int = 2
point = Point()
"""

WHOLES = """
import copy, dataclasses, functools, itertools, json, operator, pickle, pprint, typing
from collections import ChainMap, OrderedDict, UserDict, UserList, defaultdict, deque, namedtuple
from types import MappingProxyType, SimpleNamespace
inner = [1, 2]
class Rows(list): pass
class Table(dict): pass
class Named(typing.NamedTuple):
    rows: list
    size: int = 1
Pair = namedtuple("Pair", "rows size")
@dataclasses.dataclass
class Data:
    rows: list
@dataclasses.dataclass
class Around:
    data: Data
@dataclasses.dataclass(frozen=True, slots=True)
class Frozen:
    rows: list
class Plain:
    def __init__(self): self.rows = inner
class Slots:
    __slots__ = ("rows",)
    def __init__(self): self.rows = inner
grouped, ordered, user_dict, user_list = defaultdict(list, k=inner), OrderedDict(k=inner), UserDict(k=inner), UserList([inner])
chained, rows, table, line = ChainMap({}, {"k": inner}), Rows([inner]), Table(k=inner), deque([inner])
named, pair, data, frozen, space = Named(inner), Pair(inner, 1), Data(inner), Frozen(inner), SimpleNamespace(rows=inner)
around, view, plain, slots = Around(data), MappingProxyType({"k": inner}), Plain(), Slots()
"""
_SHOWN_ONES = "grouped ordered user_dict user_list chained rows table line named pair data frozen space around view".split()


def _of_each(touches: str, names: list[str]) -> tuple[str, ...]:
    """Each of these touches, of each of these things."""
    return tuple(touch.replace("ONE", name) for touch in _listed(touches) for name in names)


GROUPS = (
    Group("what is inside of what has a text", WHOLES, "inner.append(3)", _of_each("""
        str(ONE)
        repr([ONE])
        f"{ONE}"
        "{}".format(ONE)
        "%s" % (ONE,)
        print(ONE, end="")
    """, _SHOWN_ONES)),
    Group("what is inside of what is copied and compared", WHOLES, "inner.append(3)", (
        *_of_each("copy.deepcopy(ONE)", [name for name in _SHOWN_ONES if name != "view"] + ["plain", "slots"]),
        *_of_each("json.dumps(ONE)", "grouped ordered rows table named pair".split()),
        *_of_each("pickle.dumps(ONE)", "grouped ordered line data around frozen plain slots space".split()),
        *_of_each("dataclasses.asdict(ONE)", "data frozen around".split()), *_listed("""
        pprint.pformat(data)
        grouped == {"k": [1]}
        ordered == OrderedDict(k=[1])
        rows == [[1]]
        line == deque([[1]])
        named == Named([1])
        named < Named([1])
        data == Data([1])
        around != Around(Data([1]))
        space == SimpleNamespace(rows=[1])
        user_dict == UserDict(k=[1])
        json.dumps([data], default=str)
        json.dumps(plain, default=vars)
        json.dumps(plain, default=lambda one: one.__dict__)
        json.dumps([around], default=dataclasses.asdict)
        any(grouped.values())
        all([inner])
        list(zip(*grouped.values()))
        list(itertools.chain(*grouped.values()))
        print(*grouped.values(), end="")
        "{k}".format(**grouped)
        "{k}".format_map(grouped)
        ",".join(map(str, [inner]))
        list(map(repr, grouped.values()))
        functools.reduce(operator.add, [inner, []])
        for one, *others in [inner]: pass
        for number, (one, *others) in enumerate([inner]): pass
        for key, (one, *others) in grouped.items(): pass
        [one for one, *others in [inner]]
        {one: others for one, *others in grouped.values()}
    """))),
    Group("a list is read", LIST, "items.reverse()", _listed("""
        items[0]
        items[-1]
        items[0:2]
        items[:]
        len(items)
        if items: pass
        while not items: pass
        assert items
        bool(items)
        not items
        items and 1
        items or 1
        1 if items else 2
        [1 for _ in "a" if items]
        2 in items
        2 not in items
        for one in items: pass
        for one in items or []: pass
        for one in (items if True else []): pass
        for one in (kept := items): pass
        for one in reversed(items): pass
        for one in enumerate(items): pass
        for one in zip(items, "ab"): pass
        for one in iter(items): pass
        [one for one in items]
        [one for _ in "a" for one in items]
        {one for one in items}
        {one: 1 for one in items}
        list(one for one in items)
        list(map(str, items))
        list(filter(None, items))
        [*items]
        (*items,)
        {*items}
        print(*items, end="")
        max(*items)
        list(items)
        list(items or ())
        tuple(items)
        set(items)
        frozenset(items)
        dict.fromkeys(items)
        sorted(items)
        sum(items)
        min(items)
        max(items)
        any(items)
        all(items)
        next(iter(items))
        steps = iter(items)
        |lock_free()
        |next(steps)
        bytes(items)
        bytearray(items)
        str(items)
        repr(items)
        ascii(items)
        format(items)
        f"{items}"
        f"{items!r:>3}"
        f"{1:{items[0]}}"
        "%s" % items
        "%s" % (items,)
        "{}".format(items)
        "{0[0]}".format(items)
        "{a[0]}".format(a=items)
        ",".join(str(one) for one in items)
        items + [1]
        [1] + items
        items * 2
        2 * items
        items == [1]
        items != [1]
        items < [1]
        items >= [1]
        [1] <= items
        1 < 2 == (items == [1])
        first, *rest = items
        first, second, third = items
        items.index(1)
        items.count(1)
        items.copy()
        items.__len__()
        items.__getitem__(0)
        items.__contains__(1)
        items.__iter__()
        items.__eq__([1])
        items.__add__([1])
        items.__mul__(2)
        list.index(items, 1)
        list.copy(items)
        list.__len__(items)
        import copy
        |copy.copy(items)
        import copy
        |copy.deepcopy(items)
        import json
        |json.dumps(items)
        import pickle
        |pickle.dumps(items)
        import marshal
        |marshal.dumps(items)
        import pprint
        |pprint.pformat(items)
        import statistics
        |statistics.mean(items)
        import statistics
        |statistics.pstdev(items)
        import math
        |math.fsum(items)
        import math
        |math.dist(items, items)
        import heapq
        |heapq.nlargest(1, items)
        import heapq
        |list(heapq.merge([1], items))
        import bisect
        |bisect.bisect(items, 1)
        import random
        |random.choice(items)
        import secrets
        |secrets.choice(items)
        import random
        |random.sample(items, 1)
        import random
        |random.Random(1).choice(items)
        import functools
        |functools.reduce(int.__add__, items)
        import itertools
        |list(itertools.chain([1], items))
        import itertools
        |list(itertools.chain.from_iterable([items]))
        import itertools
        |list(itertools.islice(items, 2))
        import itertools
        |list(itertools.batched(items, 2)) if hasattr(itertools, "batched") else list(itertools.pairwise(items))
        import itertools
        |list(itertools.zip_longest([1], items))
        import itertools
        |itertools.tee(items)
        import operator
        |operator.concat(items, [1])
        import operator
        |operator.add(items, [1])
        import operator
        |operator.mul(items, 2)
        import operator
        |operator.eq(items, [1])
        import operator
        |operator.lt([1], items)
        import operator
        |operator.countOf(items, 1)
        import operator
        |operator.indexOf(items, 1)
        import operator
        |operator.contains(items, 1)
        import operator
        |operator.getitem(items, 0)
        import operator
        |operator.truth(items)
        import operator
        |operator.not_(items)
        import operator
        |operator.length_hint(items)
        import operator
        |operator.itemgetter(0)(items)
        from operator import itemgetter
        |first = itemgetter(0)
        |first(items)
        from operator import itemgetter
        |sorted([items, items], key=itemgetter(0))
        from operator import methodcaller
        |methodcaller("count", 1)(items)
        from collections import Counter
        |Counter(items)
        from collections import deque
        |deque(items)
        from collections import deque
        |deque().extend(items)
        from array import array
        |array("i", items)
        from array import array
        |array("i").extend(items)
        from array import array
        |array("i").fromlist(items)
        import struct
        |struct.pack("3i", *items)
        [].extend(items)
        [0].__iadd__(items)
        [].extend(same())
        other = []
        |other.extend(same())
        other = {}
        |other["k"] = []
        |other["k"] += same()
        set().union(items)
        set().update(items)
        other = []
        |other += items
        other = [1]
        |other[0:1] = items
        other = {}
        |other["k"] = []
        |other["k"] += items
        import contextlib
        |with contextlib.nullcontext(items) as same: len(same)
        match items:
            case [1, *rest]: pass
        match items:
            case [_, _]: pass
        match items:
            case [first, _, _]: pass
        match items:
            case []: pass
            case [*_, 3]: pass
        match {"k": items}:
            case {"k": [1, 2]}: pass
        match (1, items):
            case (1, list([1, *_])): pass
        def steps():
            yield from items
        |list(steps())
        (lambda: len(items))()
        (lambda given=len(items): given)()
        def kept(given=items[0]): pass
        class Kept:
            size = len(items)
        class Kept(*[object][:items[0]]): pass
        @(lambda function: items[0] and function)
        |def kept(): pass
        @(lambda kind: items[0] and kind)
        |class Kept: pass
        kept: list = items[:]
        (lambda *given: given)(*items)
        from functools import partial
        |partial(len, items)()
        from functools import partial
        |partial(items.index, 1)()
        look = items.index
        |look(1)
        list(map(items.count, [1]))
        sorted([1, 2], key=items.index)
        max([1, 2], key=items.index)
        getattr(items, "index")(1)
        [items.index][0](1)
        {"k": items.count}["k"](1)
        from types import SimpleNamespace
        |SimpleNamespace(look=items.index).look(1)
        class Holder:
            def __init__(self): self.look = items.index
        |Holder().look(1)
        import functools
        |functools.reduce(lambda one, other: one, map(items.count, [1, 2]))
        from collections import UserList
        |UserList(items)
        any(one for one in items if one)
        try: raise ValueError(items[0])
        |except ValueError: pass
        del [items[:]][0]
        raised = None
        |try:
        |    raise ValueError
        |except (items[0] and ValueError): pass
        with open("/dev/null", "w") as file: file.writelines(str(one) for one in items)
        import asyncio
        |async def work():
        |    return [one async for one in steps()], len(items)
        |async def steps():
        |    for one in items: yield one
        |asyncio.run(work())
    """)),
    Group("a list is changed", LIST, "list(items)", _listed("""
        items.append(1)
        items.extend([1])
        items.insert(0, 1)
        items.pop()
        items.pop(0)
        items.remove(1)
        items.clear()
        items.sort()
        items.reverse()
        items[0] = 5
        items[-1] = 5
        items[0:1] = [5]
        items[:] = []
        items[0] += 1
        items[0:1] += [1]
        del items[0]
        del items[:]
        for items[0] in (1, 2): pass
        (items[0], other) = (1, 2)
        [items[0], *other] = (1, 2)
        with open("/dev/null") as items[0]: pass
        items[0], items[1] = items[1], items[0]
        [items.append(one) for one in (1, 2)]
        (lambda: items.append(1))()
        list.append(items, 1)
        list.sort(items)
        list.__setitem__(items, 0, 1)
        items.__setitem__(0, 1)
        items.__delitem__(0)
        items.__iadd__([1])
        items.__imul__(2)
        global items
        |items += [1]
        global items
        |items += [1] + [2]
        global items
        |items *= 2
        global items
        |items += "ab"
        same = items
        |same += [1]
        same = items
        |same *= 2
        [items][0].append(1)
        (items or []).append(1)
        import heapq
        |heapq.heappush(items, 1)
        import heapq
        |heapq.heapify(items)
        import heapq
        |heapq.heapreplace(items, 1)
        import bisect
        |bisect.insort(items, 1)
        import random
        |random.shuffle(items)
        import random
        |random.Random(1).shuffle(items)
        import operator
        |operator.setitem(items, 0, 1)
        import operator
        |operator.delitem(items, 0)
        import operator
        |operator.iadd(items, [1])
        import operator
        |operator.iconcat(items, [1])
        import operator
        |operator.imul(items, 2)
        from operator import methodcaller
        |methodcaller("append", 1)(items)
        from functools import partial
        |partial(items.append, 1)()
        from functools import partial
        |grow = partial(list.append, items)
        |grow(1)
        list(map(items.append, [1]))
        [items.append][0](1)
        grow = items.append
        |grow(1)
        {"k": items.append}["k"](1)
        getattr(items, "append")(1)
        class Holder: pass
        |holder = Holder()
        |holder.grow = items.append
        |holder.grow(1)
        class Holder:
            def __init__(self, grow): self.grow = grow
            def go(self): self.grow(1)
        |Holder(items.append).go()
        @items.append
        |def kept(): pass
        import threading
        |threading.Thread(target=items.append, args=(1,)).start()
        import threading
        |from functools import partial
        |threading.Thread(target=partial(items.append, 1)).start()
        import threading
        |threading.Timer(0, items.append, (1,)).start()
        from concurrent.futures import ThreadPoolExecutor
        |with ThreadPoolExecutor(1) as pool: pool.submit(items.append, 1)
        from concurrent.futures import ThreadPoolExecutor
        |from functools import partial
        |with ThreadPoolExecutor(1) as pool: pool.submit(partial(items.append, 1))
        from concurrent.futures import ThreadPoolExecutor
        |with ThreadPoolExecutor(1) as pool: list(pool.map(items.append, [1]))
        import functools
        |functools.reduce(lambda one, other: items.append(other), [1, 2])
        import re
        |re.sub("a", lambda found: items.append(1) or "", "a")
        import itertools
        |list(itertools.starmap(items.insert, [(0, 1)]))
        list(iter(items.pop, 1))
    """)),
    Group("a dict is read", DICT, "table.update(a=5)", _listed("""
        table["a"]
        table.get("a")
        "a" in table
        "a" not in table
        len(table)
        if table: pass
        for key in table: pass
        for key in table.keys(): pass
        for value in table.values(): pass
        for key, value in table.items(): pass
        [key for key, value in table.items()]
        list(table)
        dict(table)
        list(table.items())
        sorted(table)
        sum(table.values())
        max(table, key=table.get)
        sorted(table, key=table.__getitem__)
        {**table}
        (lambda **given: given)(**table)
        dict(**table)
        [*table]
        table | {}
        {} | table
        table == {}
        table.items() == {}.items()
        table.keys() & {"a"}
        table.keys() - {"a"}
        {"a"} | table.keys()
        table.keys() <= {"a"}
        table.keys().isdisjoint(["a"])
        "a" in table.keys()
        1 in table.values()
        ("a", 1) in table.items()
        len(table.values())
        table.copy()
        table.__getitem__("a")
        table.__contains__("a")
        table.__len__()
        table.__or__({})
        dict.get(table, "a")
        dict.items(table)
        str(table)
        f"{table}"
        f"{table['a']}"
        "{0[a]}".format(table)
        "{t[a]}".format(t=table)
        "{a}".format(**table)
        "{a}".format_map(table)
        "%(a)s" % table
        from string import Template
        |Template("$a").substitute(table)
        import json
        |json.dumps(table)
        import json
        |json.dumps([table])
        import copy
        |copy.copy(table)
        import operator
        |operator.getitem(table, "a")
        import operator
        |operator.itemgetter("a")(table)
        import operator
        |operator.itemgetter("a", "b")(table)
        import operator
        |operator.or_(table, {})
        from operator import itemgetter
        |sorted([table], key=itemgetter("a"))
        from operator import itemgetter
        |list(map(itemgetter("a"), [table]))
        from operator import methodcaller
        |methodcaller("get", "a")(table)
        from collections import ChainMap
        |ChainMap({}, table)["a"]
        from collections import OrderedDict
        |OrderedDict(table)
        from collections import Counter
        |Counter(table)
        from collections import UserDict
        |UserDict(table)
        from collections import defaultdict
        |defaultdict(int, table)
        from types import MappingProxyType
        |MappingProxyType(table)["a"]
        from types import MappingProxyType
        |list(MappingProxyType(table).items())
        from types import MappingProxyType
        |"a" in MappingProxyType(table)
        {}.update(table)
        other = {}
        |other |= table
        other = {}
        |other.update({**table})
        look = table.get
        |look("a")
        from functools import partial
        |partial(table.get, "a")()
        list(map(table.get, ["a"]))
        list(filter(table.get, ["a"]))
        import re
        |re.sub("a", lambda found: str(table.get(found[0])), "a")
        import os
        |[table[key] for key in ("a",)]
        iter(table)
        next(iter(table))
        next(iter(table.items()))
        list(reversed(table))
        for key in reversed(table.keys()): pass
        match table:
            case {"a": 7}: pass
        match table:
            case {"a": value}: pass
        match table:
            case {"b": 1}: pass
            case {"a": 1}: pass
        match table:
            case {**rest}: pass
        match table:
            case {"z": 1} | {"a": 1}: pass
        match [table]:
            case [{"a": 7}]: pass
        match table:
            case dict(found) if found["a"]: pass
        if (one := table["a"]): pass
        import random
        |random.choice(list(table))
        "a".translate(table)
        from urllib.parse import urlencode
        |urlencode(table)
    """)),
    Group("a view is kept", DICT + "\npairs, keys, values = table.items(), table.keys(), table.values()", "table['c'] = 3", _listed("""
        for key, value in pairs: pass
        for key in keys: pass
        for value in values: pass
        list(pairs)
        len(keys)
        "c" in keys
        1 in values
        [one for one in values]
        sum(values)
        keys & {"a"}
        sorted(keys)
        print(*values, end="")
        dict(pairs)
        str(keys)
        keys == {"a"}
        first, *rest = pairs
        next(iter(pairs))
        if keys: pass
        import itertools
        |list(itertools.chain(keys, values))
        "".join(keys)
        max(values)
        (keys or ()) and list(keys)
    """)),
    Group("a dict is changed", DICT, "list(table.items())", _listed("""
        table["a"] = 5
        table["c"] = 5
        table["a"] += 5
        del table["a"]
        table.update(a=5)
        table.update({"a": 5})
        table.update([("a", 5)])
        table.setdefault("c", 1)
        table.pop("a")
        table.pop("a", None)
        table.popitem()
        table.clear()
        table.__setitem__("a", 1)
        table.__delitem__("a")
        table.__ior__({"a": 3})
        dict.update(table, a=1)
        dict.__setitem__(table, "a", 1)
        global table
        |table |= {"a": 1}
        same = table
        |same |= {"a": 1}
        for table["a"] in (1, 2): pass
        table["a"], other = 1, 2
        with open("/dev/null") as table["a"]: pass
        import operator
        |operator.setitem(table, "a", 1)
        import operator
        |operator.delitem(table, "a")
        import operator
        |operator.ior(table, {"a": 1})
        [table.update][0](a=1)
        from functools import partial
        |partial(table.update, a=1)()
        list(map(table.pop, ["a"]))
        change = table.__setitem__
        |change("a", 1)
        {"k": table}["k"]["a"] = 2
        (table or {})["a"] = 2
        [table][0]["a"] = 2
        from collections import ChainMap
        |ChainMap(table)["a"] = 3
        from collections import UserDict
        |whole = UserDict()
        |whole.data = table
        |whole["a"] = 3
    """)),
    Group("a set is read", SET, "marks.intersection_update({1, 5})", _listed("""
        1 in marks
        len(marks)
        for one in marks: pass
        list(marks)
        marks | {3}
        {3} | marks
        marks & {3}
        marks - {3}
        {3} - marks
        marks ^ {3}
        marks == {3}
        marks < {3}
        marks <= {3}
        marks > {3}
        {3} >= marks
        marks.union({3})
        {3}.union(marks)
        marks.issubset({3})
        {3}.issuperset(marks)
        marks.isdisjoint({3})
        marks.copy()
        marks.__contains__(1)
        marks.__or__({3})
        set.union(marks, {3})
        set.union(*[{3}, marks])
        frozenset(marks)
        sorted(marks)
        [*marks]
        other = {3}
        |other |= marks
        other = {3}
        |other -= marks
        other = {3}
        |other &= marks
        import operator
        |operator.and_(marks, {3})
        import operator
        |operator.sub({3}, marks)
        same = marks
        |same - {1}
        same, other = marks, {1}
        |other - same
        same, other = marks, {1}
        |same == other
        same, other = marks, {1}
        |same < other
        look = marks.__contains__
        |look(1)
        list(filter(marks.__contains__, [1]))
        import random
        |random.sample(sorted(marks), 1)
    """)),
    Group("a set is changed", SET, "list(marks)", _listed("""
        marks.add(7)
        marks.discard(1)
        marks.remove(1)
        marks.pop()
        marks.clear()
        marks.update([5])
        marks.difference_update([1])
        marks.symmetric_difference_update([1])
        marks.__ior__({9})
        global marks
        |marks |= {3}
        global marks
        |marks -= {1}
        global marks
        |marks ^= {1}
        same = marks
        |same &= {1}
        import operator
        |operator.ior(marks, {3})
        import operator
        |operator.isub(marks, {3})
        grow = marks.add
        |grow(9)
        list(map(marks.add, [9]))
    """)),
    Group("a deque is used", "from collections import deque\nline = deque([1, 2, 3])", "line.rotate(1)", _listed("""
        line[0]
        line[-1]
        line[0] = 1
        len(line)
        list(line)
        for one in line: pass
        1 in line
        line.append(1)
        line.popleft()
        line.copy()
        line + line
        line * 2
        line == deque()
        line < deque()
        str(line)
        if line: pass
        global line
        |line += [1]
        import itertools
        |list(itertools.islice(line, 2))
        match line:
            case [1, *_]: pass
    """)),
    Group("rows are looked at", "rows = [[1, 2], [3, 4]]", "rows[0][1] = 5", _listed("""
        list(zip(*rows))
        list(map(max, *rows))
        for one in zip(*rows): pass
        list(map(sum, zip(*rows)))
    """)),
    Group("an element of a deque is changed", "from collections import deque\nline = deque([1, 2, 3])", "line[0] = 5", _listed("""
        line[0]
        line[-3]
        line[0] = 6
        line[-3] = 6
        line[0] += 1
        line[0], other = 6, 7
        list(line)
        line.rotate(1)
        del line[2]
        match line:
            case [1, *_]: pass
    """)),
    Group("another element of a deque is changed", "from collections import deque\nline = deque([1, 2, 3])", "line[0] = 5", _listed("""
        line[1]
        line[-1]
        line[1] = 6
        line[-1] += 1
        len(line)
    """), is_race=False),
    Group("bytes and arrays are read", "from array import array\nraw, cells = bytearray(b'abcdefgh'), array('i', [1, 2])",
          "raw[0] = 65\ncells[0] = 7", _listed("""
        raw[0]
        raw[0:2]
        bytes(raw)
        raw + b"x"
        raw * 2
        raw == b"abc"
        raw < b"abc"
        raw.find(b"a")
        raw.startswith(b"a")
        raw.decode()
        raw.hex()
        raw.split(b"c")
        raw.count(b"a")
        b"".join([raw])
        b"-".join((raw, b""))
        97 in raw
        b"a" in raw
        for one in raw: pass
        int.from_bytes(raw, "big")
        import struct
        |struct.unpack("8s", raw)
        import struct
        |struct.unpack_from("2s", raw)
        import struct
        |struct.Struct("8s").unpack(raw)
        import base64
        |base64.b64encode(raw)
        import zlib
        |zlib.crc32(raw)
        import hashlib
        |hashlib.sha256(raw)
        import hashlib
        |hashlib.sha256().update(raw)
        import binascii
        |binascii.hexlify(raw)
        with open("/dev/null", "wb") as file: file.write(raw)
        import io
        |io.BytesIO(raw)
        cells[0]
        cells.tolist()
        cells.tobytes()
        cells + cells
        cells == cells
        sum(cells)
        list(cells)
        repr(cells)
    """)),
    Group("bytes and arrays are changed", "from array import array\nraw, cells = bytearray(b'abcdefgh'), array('i', [1, 2])",
          "bytes(raw), list(cells)", _listed("""
        raw[0] = 1
        raw[0:2] = b"xy"
        raw.extend(b"x")
        raw.append(1)
        raw.clear()
        raw.reverse()
        raw.pop()
        global raw
        |raw += b"x"
        import struct
        |struct.pack_into("2s", raw, 0, b"zz")
        import struct
        |struct.Struct("2s").pack_into(raw, 0, b"zz")
        import io
        |io.BytesIO(b"zz").readinto(raw)
        cells[0] = 3
        cells.append(3)
        cells.byteswap()
        cells.frombytes(b"1234")
    """)),
    Group("a field is read", OBJECT, "point.x = 5", _listed("""
        point.x
        getattr(point, "x")
        getattr(point, "x", None)
        hasattr(point, "x")
        point.__getattribute__("x")
        object.__getattribute__(point, "x")
        import operator
        |operator.attrgetter("x")(point)
        import operator
        |operator.attrgetter("y", "x")(point)
        from operator import attrgetter
        |sorted([point], key=attrgetter("x"))
        from operator import attrgetter
        |list(map(attrgetter("x"), [point]))
        from operator import attrgetter
        |look = attrgetter("x")
        |look(point)
        from types import SimpleNamespace
        |import operator
        |operator.attrgetter("inner.x")(SimpleNamespace(inner=point))
        f"{point.x}"
        f"{1:{point.x}}"
        "{0.x}".format(point)
        "{.x}".format(point)
        "{p.x}".format(p=point)
        "{} {p.x:>{p.y}}".format(1, p=point)
        "{0:{p.x}}".format(1, p=point)
        "{0[0].x}".format([point])
        template = "{0.x}"
        |template.format(point)
        point.__dict__["x"]
        point.__dict__.get("x")
        "x" in point.__dict__
        vars(point)["x"]
        dict(vars(point))
        dict(point.__dict__)
        point.__dict__.copy()
        list(vars(point).values())
        {**vars(point)}
        [value for value in vars(point).values()]
        for key, value in vars(point).items(): pass
        str(vars(point))
        vars(point) == {}
        import copy
        |copy.copy(point)
        import copy
        |copy.deepcopy(point)
        import copy
        |copy.deepcopy([point])
        match point:
            case Point(x=0): pass
        match point:
            case Point(x=found): pass
        match point:
            case Point(0): pass
        match point:
            case Point(1, y=3): pass
        match point:
            case str(): pass
            case Point(y=7) | Point(x=3): pass
        match [point]:
            case [Point(x=0)]: pass
        match {"k": point}:
            case {"k": Point(x=0)}: pass
        match (1, point):
            case (1, Point(x=1) as found) if found: pass
        match point.x:
            case 1: pass
        match 1:
            case point.x: pass
        match 1:
            case 2: pass
            case _ if point.x: pass
        def kept(given=point.x): pass
        def kept(given: point.x): pass
        |kept(1)
        class Kept(metaclass=(point.x and type)): pass
        class Kept(point.x and object): pass
        @(point.x and (lambda function: function))
        |def kept(): pass
        @(point.x and (lambda kind: kind))
        |class Kept: pass
        (lambda: point.x)()
        [point.x for _ in "a"]
        [1 for _ in "a" if point.x]
        {point.x: point.y}
        {point.x}
        (point.x,)
        [1, 2, 3][point.x:]
        [1, 2, 3][point.x - 4]
        -point.x
        point.x + 1
        1 < point.x < 3
        (found := point.x)
        point.x if True else 1
        True and point.x
        print(point.x, end="")
        print("", end="" if point.x else "")
        max([1], key=lambda one: point.x)
        assert point.x
        assert True, point.x
        |assert point.x
        try: raise ValueError(point.x)
        |except ValueError: pass
        def steps(): yield point.x
        |list(steps())
        def steps(): yield from (point.x,)
        |list(steps())
        import asyncio
        |async def work(): return point.x
        |asyncio.run(work())
        import asyncio
        |async def work(): return await asyncio.sleep(0, point.x)
        |asyncio.run(work())
        with open(point.x and "/dev/null"): pass
        for one in range(point.x): pass
        while point.x > 9: pass
        del [point.x][0]
        def work(): return point.x
        |work()
        point.y += point.x
        point.y = point.x
        other: int = point.x
        other = [0]
        |other[point.x - point.x] = 1
        import weakref
        |weakref.ref(point)().x
        type("Kept", (), {})().__class__ and point.x
        (point.x).bit_length()
        super(Point, point).__getattribute__("x")
    """)),
    Group("a field is written", OBJECT, "point.x", _listed("""
        point.x = 5
        point.x += 5
        point.x: int = 5
        del point.x
        point.x, other = 1, 2
        [other, *point.x] = 1, 2
        for point.x in (1, 2): pass
        [1 for point.x in (1, 2)]
        with open("/dev/null") as point.x: pass
        other = point.x = 3
        setattr(point, "x", 5)
        delattr(point, "x")
        point.__setattr__("x", 5)
        point.__delattr__("x")
        object.__setattr__(point, "x", 5)
        super(Point, point).__setattr__("x", 5)
        point.__dict__["x"] = 5
        point.__dict__["x"] += 5
        point.__dict__.update(x=5)
        point.__dict__.update({"x": 5})
        point.__dict__ |= {"x": 5}
        point.__dict__.pop("x")
        point.__dict__.setdefault("x", 5)
        point.__dict__.clear()
        del point.__dict__["x"]
        vars(point)["x"] = 5
        vars(point).update(x=5)
        vars(point).update(dict(x=5))
        point.__dict__ = {"x": 5}
        import operator
        |operator.setitem(vars(point), "x", 5)
        fields = vars(point)
        |fields["x"] = 5
        point.__init__()
        list(map(setattr, [point], ["x"], [5]))
        from functools import partial
        |partial(setattr, point, "x")(5)
        from functools import partial
        |partial(setattr, point, "x", 5)()
    """)),
    Group("a default of a class is read", """
class Base:
    total = 0
    def bump(self): self.total += 1
    @classmethod
    def bump_all(cls): cls.total += 1
class Lower(Base):
    def look(self): return super().total
    @classmethod
    def look_all(cls): return super().total
low = Lower()
""", "Base.total = 5", _listed("""
        low.bump()
        low.total += 1
        Lower.bump_all()
        Lower.total += 1
        low.look()
        Lower.look_all()
        super(Lower, low).total
    """)),
    Group("a counter is looked at", "from collections import Counter\ncounts = Counter(a=1)", "counts.update('ab')", _listed("""
        +counts
        -counts
        counts - Counter()
        counts & Counter()
        list(counts.elements())
        counts.most_common(1)
    """)),
    Group("an object hands on what it has not", """
items = [1, 2]
class Proxy:
    def __init__(self, inner): self.inner = inner
    def __getattr__(self, name): return getattr(self.inner, name)
proxy = Proxy(items)
""", "items.append(3)", _listed("""
        proxy.index(1)
        proxy.copy()
        proxy.pop()
        proxy.insert(0, 1)
        proxy.sort()
        (proxy or None).clear()
        proxy.remove(1 + 0)
        [proxy][0].reverse()
    """)),
    Group("a function of the library has another name", """
import bisect, copy, functools, heapq, json, pickle, random, statistics, struct
items = [1, 2, 3]
class Job:
    def __init__(self, function, *words): self.function, self.words = function, words
    def run(self): return self.function(*self.words)
def call(function, *words, **named): return function(*words, **named)
""", "items.insert(0, 5)", _listed("""
        push = heapq.heappush
        |push(items, 3)
        mix = random.shuffle
        |mix(items)
        call(json.dumps, items)
        call(bisect.insort, items, 3)
        call(copy.copy, items)
        call(pickle.dumps, {"k": items})
        call(statistics.mean, items)
        call(functools.reduce, int.__add__, items)
        call(json.dumps, items, indent=2)
        Job(heapq.heappop, items).run()
        functools.partial(heapq.heappush, items)(3)
        functools.partial(json.dumps, indent=2)(items)
        {"dump": json.dumps}["dump"](items)
        list(map(heapq.heappop, [items]))
        list(map(json.dumps, [items]))
        for function in (sorted, copy.copy): function(items)
        import threading
        |threading.Thread(target=heapq.heappush, args=(items, 3)).start()
        from concurrent.futures import ThreadPoolExecutor
        |with ThreadPoolExecutor(1) as pool: pool.submit(json.dumps, items)
        from concurrent.futures import ThreadPoolExecutor
        |with ThreadPoolExecutor(1) as pool: list(pool.map(heapq.heapify, [items]))
    """)),
    Group("a class is read", OBJECT + "Point.total = 1", "Point.total = 5", _listed("""
        Point.total
        point.total
        type(point).total
        getattr(Point, "total")
        Point.__dict__["total"]
        vars(Point)["total"]
        point.__class__.total
        match 1:
            case Point.total: pass
        "{0.total}".format(point)
        "{0.total}".format(Point)
    """)),
    Group("an object with methods of its own", """
class Base:
    def __setattr__(self, name, value): super().__setattr__(name, value)
    def __getattribute__(self, name): return super().__getattribute__(name)
    def __delattr__(self, name): super().__delattr__(name)
class Whole(Base):
    def __setattr__(self, name, value): super().__setattr__(name, value)
point = Whole()
""", "point.x = 5", _listed("""
        point.x = 6
        setattr(point, "x", 6)
        point.x
        getattr(point, "x")
        del point.x
    """)),
    Group("a dataclass is looked at", DATACLASS, "point.x = 5", _listed("""
        str(point)
        repr(point)
        print(point, end="")
        f"{point}"
        "%s" % point
        "%s" % (point,)
        "{}".format(point)
        "{!r}".format(point)
        "{0}".format(point)
        "{p}".format(p=point)
        "{}".format([point])
        str([point])
        str((point,))
        str({"k": point})
        point == Point()
        [point] == [Point()]
        (point,) == (Point(),)
        point != Point()
        from dataclasses import asdict
        |asdict(point)
        from dataclasses import astuple
        |astuple(point)
        from dataclasses import replace
        |replace(point, y=3)
        import copy
        |copy.copy(point)
        import copy
        |copy.deepcopy((point,))
        match point:
            case Point(5, 2): pass
        import pprint
        |pprint.pformat(point)
    """)),
    Group("a namespace is looked at", "from types import SimpleNamespace\nspace = SimpleNamespace(x=1)", "space.x = 5", _listed("""
        space.x
        str(space)
        f"{space}"
        space == SimpleNamespace(x=1)
        "{0.x}".format(space)
        match space:
            case SimpleNamespace(x=1): pass
    """)),
    Group("a module's variable is bound", "bound = None", "bound", _listed("""
        global bound
        |bound = 1
        global bound
        |def bound(): pass
        global bound
        |async def bound(): pass
        global bound
        |class bound: pass
        global bound
        |@(lambda function: function)
        |def bound(): pass
        global bound
        |import json as bound
        global bound
        |from json import dumps as bound
        global bound
        |try: raise ValueError
        |except ValueError as bound: pass
        global bound
        |try: raise ExceptionGroup("two", [ValueError()])
        |except* ValueError as bound: pass
        global bound
        |for bound in (1, 2): pass
        global bound
        |with open("/dev/null") as bound: pass
        global bound
        |(bound := 1)
        global bound
        |[(bound := one) for one in (1, 2)]
        global bound
        |(bound, other) = 1, 2
        global bound
        |[other, *bound] = 1, 2
        global bound
        |del bound
        global bound
        |match 1:
        |    case bound: pass
        global bound
        |match [1, 2]:
        |    case [1, *bound]: pass
        global bound
        |match {"a": 1}:
        |    case {**bound}: pass
        global bound
        |match [1]:
        |    case [bound] if bound: pass
        global bound
        |match 1:
        |    case int() as bound: pass
        global bound
        |match [1]:
        |    case [bound] if not bound: pass
        globals()["bound"] = 1
        globals().update(bound=1)
        globals().update({"bound": 1})
        name = "bound"
        |globals()[name] = 1
        globals().setdefault("bound", 1)
        globals().pop("bound")
        import sys
        |sys.modules[__name__].bound = 1
        import sys
        |setattr(sys.modules[__name__], "bound", 1)
        import sys
        |sys.modules[__name__].__dict__["bound"] = 1
        import sys
        |vars(sys.modules[__name__])["bound"] = 1
        class Kept:
            global bound
            bound = 1
        class Kept:
            global bound
            def bound(): pass
        def inner():
            global bound
            bound = 1
        |inner()
    """)),
    Group("a module's variable is read", "bound = 1\ndef bind():\n    global bound\n    bound += 1", "bind()", _listed("""
        bound
        bound + 1
        print(bound, end="")
        globals()["bound"]
        globals().get("bound")
        dict(globals())
        import sys
        |sys.modules[__name__].bound
        import sys
        |getattr(sys.modules[__name__], "bound")
        class Kept: one = bound
        [bound for _ in "a"]
        [one for one in range(bound)]
        (lambda: bound)()
        (lambda one=bound: one)()
        def kept(one=bound): pass
        def kept(one: bound): pass
        def kept() -> bound: pass
        f"{bound}"
        f"{1:{bound}}"
        match bound:
            case 1: pass
        def steps(): yield bound
        |list(steps())
        class Kept(bound and object): pass
        @(bound and (lambda kind: kind))
        |class Kept: pass
    """)),
    Group("a module object has fields", "import types\nsettings = types.ModuleType('settings')\nsettings.debug = False", "settings.debug = True", _listed("""
        settings.debug
        getattr(settings, "debug")
        settings.__dict__["debug"]
        vars(settings)["debug"]
        "{0.debug}".format(settings)
        settings.debug = 3
        del settings.debug
    """)),
    Group("a variable of a function is bound", """
def make():
    bound = None
    def look(): return bound
    def bind(which):
        nonlocal bound
        if which == "plain": bound = 1
        elif which == "def":
            def bound(): pass
        elif which == "class":
            class bound: pass
        elif which == "import": import json as bound
        elif which == "except":
            try: raise ValueError
            except ValueError as bound: pass
        elif which == "for":
            for bound in (1, 2): pass
        elif which == "with":
            with open("/dev/null") as bound: pass
        elif which == "walrus": (bound := 1)
        elif which == "walrus inside": [(bound := one) for one in (1, 2)]
        elif which == "match":
            match 1:
                case bound: pass
        elif which == "star":
            match [1, 2]:
                case [1, *bound]: pass
        elif which == "add": bound = (bound or 0) + 1
        elif which == "del": del bound
    return look, bind
look, bind = make()
""", "look()", _listed("""
        bind("plain")
        bind("def")
        bind("class")
        bind("import")
        bind("except")
        bind("for")
        bind("with")
        bind("walrus")
        bind("walrus inside")
        bind("match")
        bind("star")
        bind("add")
        bind("del")
    """)),
    Group("a generator goes on", """
def count():
    number = 0
    while True:
        try: number += (yield number) or 0
        except ValueError: pass
steps = count()
next(steps)
""", "next(steps)", _listed("""
        next(steps)
        steps.send(1)
        steps.throw(ValueError())
        steps.close()
        steps.__next__()
        for one in steps: break
        list(zip(steps, "ab"))
        import itertools
        |list(itertools.islice(steps, 2))
        0 in steps
        first, *rest = zip(steps, "ab")
        go = steps.send
        |go(1)
        go = steps.__next__
        |go()
        from functools import partial
        |partial(next, steps)()
        list(map(steps.send, [1, 2]))
        list(iter(steps.__next__, 0))
        def outer():
            yield from steps
        |next(outer())
    """)),
    Group("an iterator goes on", """
import itertools
steps = iter([1, 2, 3, 4, 5, 6, 7, 8])
pairs = enumerate(steps)
one, other = itertools.tee(pairs)
""", "next(steps, 0)", _listed("""
        next(steps, 0)
        steps.__next__()
        for one in steps: break
        [one for one in steps]
        list(zip(steps, "ab"))
        list(itertools.islice(steps, 2))
        0 in steps
        first, *rest = steps
        sum(steps)
        dict.fromkeys(steps)
        dict(zip(steps, "ab"))
        [].extend(steps)
        go = steps.__next__
        |go()
        from functools import partial
        |partial(next, steps)()
        list(iter(steps.__next__, 8))
        next(pairs, 0)
        for one in pairs: break
        next(one, 0)
        next(other, 0)
        for one in other: break
        def outer():
            yield from pairs
        |next(outer(), 0)
    """)),
    Group("a file of text goes on", """
import tempfile
lines = tempfile.TemporaryFile("w+")
for number in range(8): print(number, file=lines)
lines.seek(0)
""", "next(lines, 0)", _listed("""
        next(lines, 0)
        for one in lines: break
        lines.readline()
        lines.readlines()
        lines.read()
        list(lines)
        lines.seek(0)
        import csv
        |rows = csv.reader(lines)
        |next(rows, 0)
    """)),
    Group("what is inside of others", "inner = [1, 2]\nwhole = {'k': [inner], 'n': 1}\npair = (inner, 1)", "inner.append(3)", _listed("""
        str(whole)
        str(pair)
        print(pair, end="")
        f"{pair}"
        f"{whole['k']}"
        "{}".format(whole)
        "{}".format(pair)
        "{0[k]}".format(whole)
        "%s" % (pair,)
        whole == {"k": [[1]]}
        pair == ([1], 2)
        import json
        |json.dumps(pair)
        import copy
        |copy.deepcopy(pair)
        import copy
        |copy.deepcopy(whole)
        import pickle
        |pickle.dumps(pair)
        [*whole["k"][0]]
        for one, other in [pair]: len(one)
        (lambda: inner)() + [1]
        [*(lambda: inner)()]
        len((lambda: inner)())
        list((lambda: inner)())
        for one in (lambda: inner)(): pass
        first, second, *rest = (lambda: inner)()
        if (lambda: inner)(): pass
        (inner if True else None) + [1]
        [] + (inner or [])
        sum(whole["k"], [])
        import itertools
        |list(itertools.chain(*whole["k"]))
        import itertools
        |list(itertools.chain.from_iterable(whole["k"]))
        (lambda *given: given)(*whole["k"][0])
    """)),
)


APART = (
    Group("another class has the attribute", "class Base:\n    total = 0\nclass Lower(Base):\n    total, other = 1, 2\nlow = Lower()", "Base.total = 5", _listed("""
        low.total += 1
        Lower.total += 1
        low.other += 1
        super(Lower, low).__init__()
    """), is_race=False),
    Group("an object hands on what does not race", """
items = [1, 2]
class Proxy:
    def __init__(self, inner): self.inner = inner
    def __getattr__(self, name): return getattr(self.inner, name)
    def pop(self): return 1
proxy = Proxy(items)
""", "items.append(3)", _listed("""
        proxy.append(4)
        proxy.pop()
        items.append(5)
    """), is_race=False),
    Group("what is inside is not looked at", """
import copy, dataclasses, io, json, typing
class Plain:
    def __init__(self): self.rows, self.name = inner, "plain"
class Rows(list):
    def __repr__(self): return "rows"
class Named(typing.NamedTuple):
    rows: list
    def __repr__(self): return "named"
@dataclasses.dataclass
class Data:
    size: int
    rows: list = dataclasses.field(repr=False, compare=False)
inner, buffer = [1, 2], io.StringIO()
plain, rows, named, data, cells = Plain(), Rows([inner]), Named(inner), Data(1, inner), [[1], [2]]
""", "inner.append(3)\nbuffer.write('a')\ncells[0][0] = 3", _listed("""
        str([plain])
        json.dumps([plain], default=str)
        json.dumps({"k": plain}, default=lambda one: one.name)
        json.dumps(data, default=lambda one: one.size)
        str([buffer, plain])
        str({"k": buffer})
        f"{rows}"
        str([rows, named])
        f"{named}"
        str(data)
        [data] == [Data(1, [])]
        copy.copy(plain)
        [*rows]
        any(cells)
        all(cells)
        any(rows) if rows is None else None
        for one in rows: pass
        for number, one in enumerate([inner]): pass
        for key, value in {"k": inner}.items(): pass
        for one, other in [(inner, 1)]: pass
        [one for one, other in zip([inner], "a")]
        functools = [inner].copy()
        ",".join(map(str, [1, "a", plain]))
    """), is_race=False),
    Group("a file that is kept in memory is written", """
import tempfile
spooled = tempfile.SpooledTemporaryFile()
""", "spooled.write(b'a')", _listed("""
        spooled.read()
        spooled.readline()
        spooled.seek(0)
        spooled.truncate()
        spooled.tell()
        for line in spooled: pass
        list(spooled)
    """)),
    Group("another field is touched", OBJECT, "point.x = 5", _listed("""
        point.y
        point
        isinstance(point, Point)
        point is None
        Point
        hasattr(point, "y")
        "{0.y}".format(point)
        "{p.y}".format(p=point, q=point.y)
        vars(point)["y"]
        point.__dict__["y"] = 3
        point.__dict__.get("y")
        "y" in vars(point)
        point.__dict__.update(y=3)
        vars(point).update({"y": 3})
        len(vars(point))
        import operator
        |operator.attrgetter("y")(point)
        from operator import attrgetter
        |sorted([point], key=attrgetter("y"))
        setattr(point, "z", 1)
        match point:
            case str(x=1): pass
            case Point(y=3): pass
        match point:
            case Point(y=2): pass
            case Point(x=2): pass
        match [point]:
            case [_]: pass
        match {"k": point}:
            case {"k": found}: pass
        class Other(Point): pass
        |Other().x = 3
        match point:
            case Point(): pass
        [point].append(point)
        def work(given: Point = point): pass
        |work()
        from functools import partial
        |partial(getattr, point, "y")()
        point.__class__
    """), is_race=False),
    Group("another element is touched", DICT, "table['c'] = 3", _listed("""
        table["a"]
        table["a"] = 7
        table["a"] += 7
        table.get("a")
        "a" in table
        import operator
        |operator.itemgetter("a")(table)
        "{0[a]}".format(table)
        match table:
            case {"a": 1}: pass
        match table:
            case {"z": 1}: pass
            case {}: pass
        match table:
            case [*_]: pass
            case int() | str(): pass
        from functools import partial
        |partial(table.get, "a")()
        list(map(table.get, ["a"]))
        table is not None
        id(table)
        same = table
        type(table)
    """), is_race=False),
    Group("another list is touched", LIST + "\nothers = [4, 5]", "items.append(3)", _listed("""
        items[0]
        items[0] = 1
        items.append(4)
        others.clear()
        others + others
        others * 2
        others < others
        list(others)
        for one in others: pass
        match others:
            case [4, *rest]: pass
        match (1, others):
            case (1, [4, 5]): pass
        list(map(others.append, [1]))
        from functools import partial
        |partial(others.append, 1)()
        import heapq
        |heapq.heapify(others)
        keep = [items, others]
        keep = items.append
        keep = iter(others)
        |next(keep)
        items is others
        len([items])
        [items] * 2
        [items] + []
        (items, 1)[1]
    """), is_race=False),
    Group("another variable is bound", "bound, other = 1, 1\ndef bind():\n    global bound\n    bound += 1", "bind()", _listed("""
        other
        bound = 1
        def bound(): pass
        import json as bound
        try: raise ValueError
        |except ValueError as bound: pass
        match 1:
            case bound: pass
        globals()["other"]
        globals()["other"] = 3
        class Kept: bound = 1
        [bound for bound in "ab"]
        (lambda bound: bound)(1)
    """), is_race=False),
    Group("an iterator is left where it is", "import itertools\nsteps, others = iter([1, 2, 3]), zip([1, 2, 3], 'abc')\nnumbers = itertools.count()", "next(steps, 0)", _listed("""
        next(others, 0)
        for one in others: break
        next(numbers)
        str(steps)
        f"{steps}"
        steps == others
        if steps: pass
        steps is None
        same = steps
        mine = iter([1, 2, 3])
        |next(mine, 0)
        |for one in mine: next(mine, 0)
    """), False),
    Group("another generator goes on", "def count():\n    yield 1\n    yield 2\nsteps, others = count(), count()", "next(steps)", _listed("""
        next(others)
        others.close()
        others.send(None)
        list(others)
        count().close()
        steps is others
        [steps]
    """), is_race=False),
)
"""Touches beside another one that they do not race with."""


class Pair(NamedTuple):
    """Two touches that race: `first` and `second` are functions of a module of their own."""

    group: str
    touch: str
    setup: str
    other: str
    is_race: bool

    def text(self, lock: str) -> str:
        """The module's source. Under a lock there is no race."""
        return f"def lock_free(): pass\n{self.setup}\n{_step('first', self.other, lock)}{_step('second', self.touch, lock)}"


def _step(name: str, body: str, lock: str) -> str:
    lines = body.split("\n")
    if lock:
        lines = [f"with {lock}:", *("    " + line for line in lines)]
    return f"def {name}():\n{textwrap.indent(chr(10).join(lines), '    ')}\n"


def pairs() -> Iterator[Pair]:
    for group in (*GROUPS, *APART):
        for touch in group.touches:
            yield Pair(group.name, touch, group.setup, group.other, group.is_race)


OTHER_TASK = re.compile("Thread|Timer|asyncio")
"""What has another task touch, which does not hold the lock."""


class Told(NamedTuple):
    """What was found out about all pairs."""

    missed: list[str]
    """Those of which no race was told."""
    false: list[str]
    """Those of which one was told, though both touches come under one lock, or touch other things."""
    faults: list[str]
    """Those that the program itself could not do."""
    count: int


def _load(pair: Pair, name: str, lock: str) -> ModuleType:
    """A watched module with the steps of a pair, which is there before there is a second task."""
    module = sys.modules[name] = ModuleType(name)
    module.__file__ = f"{name}.py"
    vars(module)["lock"] = threading.Lock()
    WATCHED.add(name)
    FILES.add(module.__file__)
    text = pair.text(lock)
    linecache.cache[module.__file__] = len(text), None, text.splitlines(True), module.__file__
    exec(rewritten(text, module.__file__, name, lambda name: False), vars(module))
    return module


def _run_all(modules: list[ModuleType], step: str, faults: dict[str, str], done: list[str]) -> None:
    for module in modules:
        try:
            getattr(module, step)()
        except Exception as fault:
            faults[module.__name__] = f"{type(fault).__name__}: {fault}"
    done.append(step)


def races_of(
    chosen: list[Pair], lock: str, faults: dict[str, str], steps: tuple[str, ...] = ("first", "second"),
) -> tuple[set[str], Races]:
    """The modules of which a race is told, if one thread does the first of these steps of each, and then another one the next."""
    hooks.put(False)
    modules = [_load(pair, f"pair_{number}", lock) for number, pair in enumerate(chosen)]
    done: list[str] = []
    with tracing(watched=None) as traced:
        hooks.put(True)
        threads = []
        for step in steps:
            threads.append(threading.Thread(target=_run_all, args=(modules, step, faults, done)))
            threads[-1].start()
            while step not in done:  # Nothing that is traced tells so.
                time.sleep(0.001)
        for thread in threads:
            thread.join()
        hooks.put(False)
        things.let_go()
    races = traced.races()
    return {os.path.basename(side.place).partition(".")[0] for race in [*races.races, *races.possible] for side in race.sides}, races


def told_of(chosen: list[Pair]) -> Told:
    """Runs pairs, all in this process."""
    faults: dict[str, str] = {}
    plain, races = races_of(chosen, "", faults)
    locked, _ = races_of(chosen, "lock", faults)
    names = [(f"pair_{number}", f"{pair.group}: {pair.touch}") for number, pair in enumerate(chosen)]
    racing = {f"pair_{number}" for number, pair in enumerate(chosen) if pair.is_race}
    others = {f"pair_{number}" for number, pair in enumerate(chosen) if OTHER_TASK.search(pair.touch)}
    return Told(
        [told for name, told in names if name in racing - plain], [told for name, told in names if name in (locked - others) | (plain - racing)],
        [f"{told}: {faults[name]}" for name, told in names if name in faults], len(names),
    )


if __name__ == "__main__":
    print("", json.dumps(told_of(list(pairs()))._asdict()), sep="\n")
