"""What is wrapped behaves as it did, and each read and write of it is an event."""

from __future__ import annotations

import _thread
import array
import asyncio
import collections
import collections.abc
import copy
import dataclasses
import datetime
import decimal
import functools
import heapq
import io
import json
import math
import multiprocessing
import operator
import os
import pickle
import queue
import threading
import types
import unittest
from concurrent.futures import Future
from typing import Any

from itc_trace import shared

from .support import Step, TracedCase, in_turn


class Thing:
    """Has a field, a method and a property."""

    def __init__(self) -> None:
        self.field = 1

    def raise_by(self, number: int) -> int:
        self.field += number
        return self.field

    @property
    def doubled(self) -> int:
        return 2 * self.field

    def __len__(self) -> int:
        return self.field


class Shared(TracedCase):
    def kinds(self, work: Any) -> str:
        """The touches of what the work does, as r and w."""
        self.races(work)
        return "".join(KINDS[row.kind] for row in self.rows if row.thing == "t")

    def test_each_use_of_a_container_is_one_event(self) -> None:
        uses: list[tuple[Any, str, Any]] = [
            ({"a": 1}, "r", lambda one: one["a"]), ({"a": 1}, "w", lambda one: one.update(b=2)),
            ({"a": 1}, "rw", lambda one: one.__setitem__("a", one["a"] + 1)), ({"a": 1}, "r", lambda one: "a" in one),
            ({"a": 1}, "r", lambda one: next(iter(one))), ({"a": 1}, "r", lambda one: one.get("b")), ({}, "w", lambda one: one.clear()),
            ([1], "w", lambda one: one.append(2)), ([1], "r", lambda one: len(one)), ([2, 1], "w", lambda one: one.sort()),
            ([1], "r", lambda one: one + [2]), ([1], "w", lambda one: one.pop()), ({1}, "w", lambda one: one.add(2)),
            ({1}, "r", lambda one: one | {2}), (collections.deque([1]), "w", lambda one: one.appendleft(2)),
            (collections.OrderedDict(a=1), "w", lambda one: one.move_to_end("a")),
            (collections.Counter("aa"), "r", lambda one: one.most_common(1)),
        ]
        for value, wanted, use in uses:
            with self.subTest(value=value, wanted=wanted):
                self.assertEqual(self.kinds(lambda: use(shared(value, "t"))), wanted)

    def test_what_goes_past_the_methods_of_a_container_counts_too(self) -> None:
        uses: list[tuple[Any, str, Any]] = [
            ([2, 1], "w", heapq.heapify), ([1], "w", lambda one: heapq.heappush(one, 0)), ([1], "w", heapq.heappop),
            (held([1]), "w", heapq.heappop), ([1], "r", lambda one: [0] + one), (bytearray(b"a"), "r", lambda one: b"b" + one),
            ({1}, "r", set), ({1}, "r", lambda one: {2}.union(one)), ({1}, "r", lambda one: {2} | one),
            (collections.deque([1]), "r", bool), (held(collections.deque([1])), "r", bool), (held([1]), "r", bool),
            (array.array("i", [1]), "w", lambda one: one.append(2)), (array.array("i", [1]), "r", lambda one: one.tolist()),
            (array.array("i", [1]), "w", lambda one: one.byteswap()), (bytearray(b"a b"), "r", lambda one: one.split()),
            (held(bytearray(b"a b")), "r", lambda one: one.upper()), (io.StringIO("a"), "r", lambda one: one.getvalue()),
            (io.StringIO("a"), "r", lambda one: one.readable()),
            (io.StringIO("a"), "w", lambda one: one.read()), (io.BytesIO(b"a"), "w", lambda one: one.write(b"b")),
        ]
        for value, wanted, use in uses:
            with self.subTest(value=value, wanted=wanted):
                self.assertEqual(self.kinds(lambda: use(shared(value, "t"))), wanted)

    def test_a_data_class_stays_one(self) -> None:
        def work() -> None:
            one: Any = shared(Order(rows=[1]), "t")
            self.assertEqual(dataclasses.asdict(one), {"number": 1, "rows": [1]})
            self.assertEqual(dataclasses.astuple(one), (1, [1]))
            self.assertEqual(dataclasses.replace(one, number=3), Order(3, [1]))
            self.assertEqual(copy.deepcopy(one), Order(1, [1]))
            self.assertEqual(vars(one), {"number": 1, "rows": [1]})
            one.mark()
            self.assertEqual((one.number, vars(one)["number"]), (9, 9))
            match one:
                case Order(number=number):
                    self.assertEqual(number, 9)
            names: Any = shared(types.SimpleNamespace(a=1), "t")
            vars(names)["b"] = 2
            self.assertEqual((names.b, vars(names)), (2, {"a": 1, "b": 2}))

        self.races(work)
        self.assertEqual(self.kinds(lambda: vars(shared(Order(), "t"))), "r")
        self.assertEqual(self.kinds(lambda: copy.copy(shared(Order(), "t"))), "r")

    def test_attributes_methods_and_properties_of_an_object_count(self) -> None:
        uses: list[tuple[str, Any]] = [
            ("r", lambda one: one.field), ("w", lambda one: setattr(one, "field", 5)), ("rwr", lambda one: one.raise_by(2)),
            ("r", lambda one: one.doubled), ("r", lambda one: len(one)),
        ]
        for wanted, use in uses:
            with self.subTest(wanted=wanted):
                self.assertEqual(self.kinds(lambda: use(shared(Thing(), "t"))), wanted)

    def test_an_event_has_the_line_of_the_program(self) -> None:
        def work() -> None:
            one = shared({"a": 1}, "t")
            one["a"] += 1

        self.races(work)
        touches = {(row.file, row.line) for row in self.rows if row.kind != "making"}
        self.assertEqual(touches, {(__file__, work.__code__.co_firstlineno + 2)})

    def test_what_is_wrapped_behaves_as_it_did(self) -> None:
        def work() -> None:
            one: Any = shared({"a": [1, 2]}, "t")
            self.assertIsInstance(one, dict)
            self.assertEqual(json.dumps(one), '{"a": [1, 2]}')
            self.assertEqual(one, {"a": [1, 2]})
            self.assertEqual({**one}, {"a": [1, 2]})
            kept: dict[str, int] = {}
            other: Any = shared(kept, "t")
            other["b"] = 1
            self.assertEqual(kept, {"b": 1})
            thing = Thing()
            stand_in: Any = shared(thing, "t")
            self.assertIsInstance(stand_in, Thing)
            self.assertEqual((stand_in.raise_by(2), thing.field, len(stand_in)), (3, 3, 3))
            self.assertEqual([*shared([1, 2], "t")], [1, 2])
            self.assertEqual(sorted(shared([2, 1], "t")), [1, 2])
            self.assertEqual(str(shared([1], "t")), "[1]")

        self.races(work)

    def test_what_cannot_change_is_given_back_with_a_warning(self) -> None:
        def work() -> None:
            for value in (None, 1, "text", (1, 2), 1.5, len):
                with self.subTest(value=value), self.assertWarnsRegex(UserWarning, r"touch\('t', write=True\)") as warned:
                    self.assertIs(shared(value, "t"), value)
                self.assertEqual(warned.filename, __file__)

        self.races(work)


@dataclasses.dataclass
class Order:
    """A data class with a list."""

    number: int = 1
    rows: list[int] = dataclasses.field(default_factory=list)

    def mark(self) -> None:
        object.__setattr__(self, "number", 9)


class Slotted:
    """Keeps a container in a slot."""

    __slots__ = ("items", "unset")

    def __init__(self) -> None:
        self.items: list[int] = []


class Shelf:
    """Keeps containers and its own lock."""

    def __init__(self) -> None:
        self.lock = threading.Lock()
        self.items: list[int] = []
        self.rows: dict[str, list[int]] = {"a": []}

    def put(self, item: int) -> None:
        with self.lock:
            self.items.append(item)

    def is_free(self) -> bool:
        return not self.lock.locked()


KINDS = {"read": "r", "write": "w", "making": ""}


class Parts(TracedCase):
    """What lies in what is shared is part of it."""

    def kinds(self, work: Any) -> str:
        self.races(work)
        return "".join(KINDS[row.kind] for row in self.rows if row.thing == "t")

    def racing(self, things: str, make: Any, *steps: Any) -> None:
        def scenario() -> None:
            one = shared(make(), "t")
            in_turn(*(functools.partial(step, one) for step in steps))

        self.assert_racing_things(things, scenario)

    def test_what_is_done_to_a_container_in_an_attribute_counts(self) -> None:
        def insert(one: Any) -> None:
            one.rows["b"] = []
            one.rows["b"].append(1)

        def replace(one: Any) -> None:
            one.items = []
            one.items.append(1)

        for wanted, use in (
            ("rw", lambda one: one.items.append(1)), ("rr", lambda one: len(one.items)), ("rrw", lambda one: one.rows["a"].append(1)),
            ("rwrrw", insert), ("wrw", replace),
        ):
            with self.subTest(wanted=wanted):
                self.assertEqual(self.kinds(lambda: use(shared(Shelf(), "t"))), wanted)

    def test_two_who_append_to_a_list_in_an_attribute_race(self) -> None:
        for make in (Shelf, Slotted):
            with self.subTest(make=make):
                self.racing("t", make, lambda one: one.items.append(1), lambda one: one.items.append(2))

    def test_to_reach_for_a_lock_is_no_touch(self) -> None:
        self.assertEqual(self.kinds(lambda: shared(Shelf(), "t").is_free()), "")
        self.racing("", Shelf, lambda one: one.put(1), lambda one: one.put(2))
        for make in (threading.Lock, threading.RLock, threading.Condition, threading.Event, threading.local, queue.Queue,
                     queue.SimpleQueue, asyncio.Lock, asyncio.Queue, multiprocessing.Lock, Future, _thread.allocate_lock):
            with self.subTest(make=make):

                def look() -> None:
                    one = Thing()
                    one.field = make()  # type: ignore[assignment]
                    shared(one, "t").field  # noqa: B018

                self.assertEqual(self.kinds(look), "")

    def test_what_a_container_has_inside_counts(self) -> None:
        uses: list[tuple[str, Any]] = [
            ("rw", lambda: shared({"a": [1]}, "t")["a"].append(2)), ("rw", lambda: shared([[1]], "t")[0].append(2)),
            ("rrw", lambda: shared({"a": {"b": [1]}}, "t")["a"]["b"].clear()), ("rw", lambda: shared({"a": {1}}, "t")["a"].add(2)),
            ("ww", lambda: shared({}, "t").setdefault("a", []).append(1)),
            ("rw", lambda: shared(collections.deque([[]]), "t")[0].append(1)),
            ("rww", lambda: shared(collections.defaultdict(list), "t")["a"].append(1)),
            ("rww", lambda: shared(collections.defaultdict(lambda: {}), "t")["a"].update(b=1)),
        ]
        for wanted, use in uses:
            with self.subTest(wanted=wanted):
                self.assertEqual(self.kinds(use), wanted)

    def test_two_who_append_to_what_a_key_has_race(self) -> None:
        def append(one: Any) -> None:
            one["a"].append(1)

        self.racing("t", lambda: collections.defaultdict(list), append, append)

    def test_what_somebody_else_holds_stays_what_it_is(self) -> None:
        def work() -> None:
            kept: list[int] = []
            shelf = Shelf()
            shelf.items = kept
            self.assertIs(shared(shelf, "t").items, kept)
            rows = shared({}, "t")
            rows["a"] = kept
            self.assertIs(rows["a"], kept)
            rows.setdefault("b", kept)
            self.assertIs(rows["b"], kept)
            some: Any = shared([], "t")
            some.append(kept)
            self.assertIs(some[0], kept)

        self.races(work)

    def test_an_insertion_while_another_thread_iterates_is_a_race(self) -> None:
        def keys(one: Any) -> Any:
            return iter(one)

        def items(one: Any) -> Any:
            return iter(one.items())

        for make in (dict, lambda: held({}), lambda: collections.OrderedDict()):
            for begin in (keys, items, lambda one: reversed(one)):
                with self.subTest(make=make, begin=begin):

                    def scenario() -> None:
                        one: Any = shared(make(), "t")
                        one.update(a=1, b=2)
                        begun, inserted, lock = Step(), Step(), threading.Lock()

                        def look() -> None:
                            with lock:
                                steps = begin(one)
                                next(steps)
                            begun.done()
                            inserted.wait()
                            with self.assertRaises(RuntimeError):
                                next(steps)

                        def insert() -> None:
                            begun.wait()
                            with lock:
                                one["c"] = 3
                            inserted.done()

                        threads = [threading.Thread(target=step) for step in (look, insert)]
                        for thread in threads:
                            thread.start()
                        for thread in threads:
                            thread.join()

                    self.assert_racing_things("t", scenario)

    def test_parts_behave_as_they_did(self) -> None:
        def work() -> None:
            rows: Any = shared({"a": [1, 2], "b": {"c": 3}}, "t")
            self.assertEqual(json.dumps(rows), '{"a": [1, 2], "b": {"c": 3}}')
            self.assertEqual(repr(rows), "{'a': [1, 2], 'b': {'c': 3}}")
            self.assertEqual(pickle.loads(pickle.dumps(rows)), {"a": [1, 2], "b": {"c": 3}})
            self.assertIs(type(copy.deepcopy(rows)), dict)
            self.assertEqual(list(rows.items()), [("a", [1, 2]), ("b", {"c": 3})])
            self.assertEqual((rows.keys() & {"a", "x"}, rows.keys() | {"x"}), ({"a"}, {"a", "b", "x"}))
            self.assertEqual((rows.keys() == {"a", "b"}, len(rows.values()), [1, 2] in rows.values()), (True, 2, True))
            self.assertEqual(list(reversed(rows)), ["b", "a"])
            self.assertEqual(dict(rows.items()), dict(rows))
            self.assertEqual(sorted(rows), ["a", "b"])
            self.assertEqual([*rows["a"], *reversed(rows["a"])], [1, 2, 2, 1])
            self.assertIsInstance(rows.keys(), collections.abc.KeysView)
            counts: Any = shared(collections.Counter("aab"), "t")
            self.assertEqual((counts["a"], counts["x"], counts.most_common(1)), (2, 0, [("a", 2)]))
            last: Any = shared(collections.deque([1, 2, 3], 2), "t")
            last.append(4)
            self.assertEqual((list(last), last.maxlen, copy.copy(last).maxlen), ([3, 4], 2, 2))
            groups: Any = shared(collections.defaultdict(list), "t")
            groups["a"].append(1)
            self.assertEqual((groups, groups.default_factory), ({"a": [1]}, list))
            self.assertEqual(pickle.loads(pickle.dumps(groups)), {"a": [1]})
            plain: Any = shared(collections.defaultdict(), "t")
            with self.assertRaises(KeyError):
                plain["a"]

        self.races(work)


def held(value: Any) -> Any:
    """The same value, which somebody else holds."""
    HELD.append(value)
    return value


HELD: list[Any] = []


class Steps:
    """Has special methods of every kind."""

    def __init__(self) -> None:
        self.number = 0

    def __iter__(self) -> Any:
        return self

    def __next__(self) -> int:
        self.number += 1
        if self.number > 3:
            raise StopIteration
        return self.number

    def __aiter__(self) -> Any:
        return self

    async def __anext__(self) -> int:
        self.number += 1
        if self.number > 3:
            raise StopAsyncIteration
        return self.number

    async def __aenter__(self) -> Any:
        return self

    async def __aexit__(self, *_: object) -> None:
        self.number = -1

    def __enter__(self) -> Any:
        return self

    def __exit__(self, *_: object) -> None:
        self.number = -2

    def __round__(self, digits: int = 0) -> int:
        return digits

    def __trunc__(self) -> int:
        return 7

    def __floor__(self) -> int:
        return 8

    def __ceil__(self) -> int:
        return 9

    def __complex__(self) -> complex:
        return 1j

    def __length_hint__(self) -> int:
        return 5

    def __fspath__(self) -> str:
        return "/"

    def __lshift__(self, other: int) -> int:
        return other

    def __rrshift__(self, other: int) -> int:
        return other

    def __ilshift__(self, other: int) -> Any:
        self.number += other
        return self

    def __await__(self) -> Any:
        yield from ()
        return 6


class StandIns(TracedCase):
    def test_a_stand_in_has_every_special_method_of_its_object(self) -> None:
        def work() -> None:
            one: Any = shared(Steps(), "t")
            self.assertEqual(list(one), [1, 2, 3])
            self.assertEqual((round(one), round(one, 2), math.trunc(one), math.floor(one), math.ceil(one), complex(one)), (0, 2, 7, 8, 9, 1j))
            self.assertEqual((operator.length_hint(one), os.fspath(one), one << 4, 5 >> one), (5, "/", 4, 5))
            one <<= 3
            self.assertEqual((type(one).__name__, one.number), ("Steps", 7))
            with one as entered:
                self.assertIs(entered, one)
            self.assertEqual(one.number, -2)

            async def main() -> None:
                one.number = 0
                self.assertEqual([step async for step in one], [1, 2, 3])
                async with one as entered:
                    self.assertIs(entered, one)
                self.assertEqual((one.number, await one), (-1, 6))

            asyncio.run(main())
            self.assertEqual({one: 1}[one], 1)

        self.races(work)

    def test_a_stand_in_of_a_type_of_the_library_has_them_too(self) -> None:
        def work() -> None:
            steps: Any = shared(iter([1, 2, 3]), "t")
            self.assertEqual((next(steps), list(steps)), (1, [2, 3]))
            self.assertEqual(round(shared(decimal.Decimal("1.26"), "t"), 1), decimal.Decimal("1.3"))
            with shared(io.StringIO("a"), "t") as file:
                self.assertEqual(file.read(), "a")
            when: Any = shared(datetime.date(2020, 1, 2), "t")
            self.assertEqual((when.year, when - datetime.date(2020, 1, 1), {when: 1}[when]), (2020, datetime.timedelta(1), 1))

        self.races(work)

    def test_to_take_the_next_is_to_write(self) -> None:
        def scenario() -> None:
            steps: Any = shared(iter([1, 2, 3]), "t")
            in_turn(lambda: next(steps), lambda: next(steps))

        self.assert_racing_things("t", scenario)


if __name__ == "__main__":
    unittest.main()
