"""Tests of what is kept of rewritten modules: a run that takes it knows what the run has known that made it, and nothing broken is taken."""

from __future__ import annotations

import ast
import contextlib
import errno
import os
import subprocess
import sys
import tempfile
import unittest
from collections.abc import Iterator
from pathlib import Path
from types import CodeType
from typing import Any
from unittest import mock

from itc_trace.watch import kept, learned, making, passed_over, places, placing, stored
from itc_trace.watch.helper import COMPILES

from .support import PACKAGE

PROGRAMS = sorted(Path(PACKAGE, "tests", "programs").rglob("*.py"))
MATCHING = """
def kind_of(shape):
    match shape:
        case {"kind": "ring", **rest}: return rest
        case [first, *_]: return first
        case Point(x=0, y=-1.5) | None: return "origin"
        case _ if shape.size > 0x5BE0_CD19_137E_2179: return 0x5BE0_CD19_137E_217A
"""
COUNTER = """
import threading

class Counter:
    def __init__(self):
        self.hits = 0
        self.rows = {}

    def hit(self):
        self.hits += 1
        self.rows["last"] = self.hits

def work(counter):
    for _ in range(3):
        counter.hit()

def run():
    counter = Counter()
    threads = [threading.Thread(target=work, args=(counter,)) for _ in range(2)]
    for thread in threads:
        thread.start()
    for thread in threads:
        thread.join()
    print(counter.hits, sorted(counter.rows))
"""
SHELL = """
import marshal, pickle, weakref
import settings

def show(kind):
    settings.debug = kind
    eval("1")
    return [*map(len, [settings.rows])], weakref.proxy(show)

class Shell:
    items = settings.rows.append
    def __getattr__(self, name):
        return getattr(settings, name)

show("all")
print(sorted(vars(Shell)))
"""


def nothing_watched(name: str) -> bool:
    return False


def settings_watched(name: str) -> bool:
    return name == "settings"


@contextlib.contextmanager
def fresh_process() -> Iterator[None]:
    """What a process knows before it imports a watched module."""
    with contextlib.ExitStack() as stack:
        stack.enter_context(mock.patch.object(passed_over, "found", {}))
        for name in ("SITES", "ACCESSES"):
            stack.enter_context(mock.patch.object(places, name, getattr(places, name).__class__()))
        for name in ("CASES", "NAMES_OF_HANDED"):
            stack.enter_context(mock.patch.object(placing, name, {}))
        for name in ("STORED_FIELDS", "STORED_ELSEWHERE"):
            fresh: set[str] = set()
            for module in (learned, placing, making):
                stack.enter_context(mock.patch.object(module, name, fresh))
        yield


def known() -> dict[str, Any]:
    """What this process knows of the modules that it has rewritten."""
    sites = places.SITES
    accesses = [places.ACCESSES[number] for number in range(len(sites))]
    return {
        "sites": [sites[number] for number in range(len(sites))],
        "accesses": [[getattr(one, name) for name in one.__slots__] for one in accesses],
        "cases": placing.CASES, "handed": placing.NAMES_OF_HANDED, "passed over": list(passed_over.found),
        "fields": learned.STORED_FIELDS, "elsewhere": learned.STORED_ELSEWHERE,
    }


def numbers_in(code: CodeType) -> set[int]:
    found = {one for one in code.co_consts if type(one) is int}
    return found.union(*(numbers_in(one) for one in code.co_consts if isinstance(one, CodeType)))


class Case(unittest.TestCase):
    def setUp(self) -> None:
        folder = tempfile.TemporaryDirectory()
        self.addCleanup(folder.cleanup)
        self.folder = Path(folder.name)
        self.user = self.folder / "user"
        for patch in (
            mock.patch.object(sys, "dont_write_bytecode", False), mock.patch.object(sys, "pycache_prefix", None),
            mock.patch.dict(os.environ, XDG_CACHE_HOME=str(self.user)), mock.patch.dict(kept._folders, clear=True),
        ):
            patch.start()
            self.addCleanup(patch.stop)
        (self.folder / "__pycache__").mkdir(mode=0o755)
        self.file = str(self.folder / "part.py")

    def entries(self) -> list[Path]:
        return sorted(self.folder.glob("__pycache__/part.*itc_trace-module*"))

    def entries_of_user(self) -> list[Path]:
        return sorted(self.user.rglob("*-module?.pyc"))

    def new(self, text: str, is_watched: Any = nothing_watched, name: str = "part") -> CodeType:
        with fresh_process():
            return making.new_code(text.encode(), self.file, name, is_watched)

    def kept(self, text: str, is_watched: Any = nothing_watched, name: str = "part") -> CodeType | None:
        with fresh_process():
            return making.kept_code(text.encode(), self.file, name, is_watched)


class Kept(Case):
    def test_a_run_that_takes_it_knows_what_the_one_before_has_known(self) -> None:
        for text in (*(path.read_text() for path in PROGRAMS), MATCHING, SHELL):
            with self.subTest(text=text[:80]):
                with fresh_process():
                    made, first = making.new_code(text.encode(), self.file, "part", settings_watched), known()
                with fresh_process():
                    self.assertEqual(making.kept_code(text.encode(), self.file, "part", settings_watched), made)
                    self.assertEqual(known(), first)

    def test_each_place_is_told_where_others_were_numbered_before(self) -> None:
        text = "def work(one):\n    one.size = one.count\n    match one:\n        case Box(left=1): pass\n"
        self.new(text)
        with fresh_process():
            places.new_sites("other.py", "other", [1] * 100, ["f"] * 100, [("made", "", "", "", None)] * 100)
            made = making.kept_code(text.encode(), self.file, "part", nothing_watched)
            assert made is not None
            count = len(places.SITES)
            numbers = {number for number in numbers_in(made) if number > 9}
            self.assertLessEqual(numbers, set(range(100, count)))
            self.assertEqual({places.SITES[number].line for number in numbers}, {2, 3})
            self.assertLessEqual(set(placing.CASES), numbers)
            self.assertIn("by_name=(('left', 10", str(placing.CASES))

    def test_numbers_of_the_source_stay(self) -> None:
        """They are the ones that places have until they are known, those behind them, and those that the compiler works out."""
        numbers = [learned.FIRST_MARK, learned.FIRST_MARK + 1, learned.FIRST_MARK + 5, 1 << 70, 1 << 80]
        told = [*map(str, numbers[:-1]), "1 << 80"]
        text = "def work(one):\n" + "".join(f"    one.keep({number})\n" for number in told) + "    return one.left\n"
        for made in (self.new(text), self.kept(text)):
            assert made is not None
            variables: dict[str, Any] = {"_itc_on": False}
            exec(made, variables)
            one = mock.Mock()
            variables["work"](one)
            self.assertEqual([call.args[0] for call in one.keep.call_args_list], numbers)

    def test_nothing_is_rewritten_twice(self) -> None:
        self.new(COUNTER)
        with mock.patch.object(making, "written", side_effect=AssertionError):
            self.assertIsNotNone(self.kept(COUNTER))

    def test_another_source_is_made_anew_in_its_place(self) -> None:
        for number in range(6):
            text = f"{COUNTER}\nversion = {number}\n"
            self.assertIsNone(self.kept(text))
            self.new(text)
            self.assertIsNotNone(self.kept(text))
            self.assertEqual(len(self.entries()), 1)

    def test_another_package_or_python_is_made_anew(self) -> None:
        self.new(COUNTER)
        for setting in ([b"another"], []):
            with mock.patch.object(kept, "_settings", setting), mock.patch.object(kept, "_python", return_value=("cpython-399",)):
                self.assertIsNone(self.kept(COUNTER))
        self.assertIsNotNone(self.kept(COUNTER))

    def test_what_would_be_written_otherwise_is_made_anew(self) -> None:
        text = "import settings\n\ndef work(one):\n    one.take(settings.rows[0])\n    return settings.debug, len(rows)\n"
        self.new(text)
        self.assertIsNotNone(self.kept(text))
        self.assertIsNone(self.kept(text, settings_watched))
        for names, name in (("STORED_FIELDS", "take"), ("STORED_ELSEWHERE", "debug")):
            with fresh_process():
                getattr(learned, names).add(name)
                self.assertIsNone(making.kept_code(text.encode(), self.file, "part", nothing_watched), name)
        self.new(text, settings_watched)
        self.assertEqual(len(self.entries()), 2)
        self.assertIsNotNone(self.kept(text))
        self.assertIsNotNone(self.kept(text, settings_watched))

    def test_a_name_that_the_language_gets_is_another_answer(self) -> None:
        text = "def work():\n    return translated(1)\n"
        self.new(text)
        with mock.patch("builtins.translated", len, create=True):
            self.assertIsNone(self.kept(text))
        self.assertIsNotNone(self.kept(text))

    def test_no_more_than_so_many_are_kept_of_one_file(self) -> None:
        names = [f"part{number}" for number in range(kept.MOST_SLOTS + 3)]
        for name in names:
            self.new(COUNTER, name=name)
        self.assertEqual(len(self.entries()), kept.MOST_SLOTS)
        self.assertIsNotNone(self.kept(COUNTER, name=names[-1]))

    def test_a_broken_entry_is_made_anew(self) -> None:
        self.new(COUNTER)
        [entry] = self.entries()
        whole = entry.read_bytes()
        bodies = [b"", whole[:10], whole[:kept.HEADER], whole[:-1], whole + b"\0", whole[:-9] + b"\xff" + whole[-8:], b"\xe3" * len(whole)]
        for broken in bodies:
            with self.subTest(broken=len(broken)):
                entry.write_bytes(broken)
                self.assertIsNone(self.kept(COUNTER))
                self.new(COUNTER)
                self.assertIsNotNone(self.kept(COUNTER))
                self.assertEqual(self.entries(), [entry])

    def test_an_entry_that_others_may_write_to_is_not_taken(self) -> None:
        self.new(COUNTER)
        [entry] = self.entries()
        for mode in (0o666, 0o620):
            entry.chmod(mode)
            self.assertIsNone(self.kept(COUNTER))
        entry.chmod(0o600)
        self.assertIsNotNone(self.kept(COUNTER))

    @unittest.skipUnless(os.getuid() == 0, "only root may give a file to somebody else")
    def test_an_entry_and_a_folder_of_somebody_else_are_not_taken(self) -> None:
        self.new(COUNTER)
        [entry] = self.entries()
        os.chown(entry, 65534, 65534)
        self.assertIsNone(self.kept(COUNTER))
        os.chown(entry, 0, 0)
        os.chown(entry.parent, 65534, 65534)
        self.assertIsNone(self.kept(COUNTER))
        self.new(COUNTER)
        self.assertEqual(len(self.entries_of_user()), 1)

    def test_a_folder_that_others_may_write_to_is_not_used(self) -> None:
        for mode in (0o777, 0o775, 0o757, 0o1777):
            (self.folder / "__pycache__").chmod(mode)
            with self.subTest(mode=oct(mode)):
                for entry in self.entries_of_user():
                    entry.unlink()
                self.assertIsNone(self.kept(COUNTER))
                self.new(COUNTER)
                self.assertEqual(self.entries(), [])
                self.assertEqual(len(self.entries_of_user()), 1)
                self.assertIsNotNone(self.kept(COUNTER))

    def test_nothing_is_kept_where_all_folders_are_others(self) -> None:
        (self.folder / "__pycache__").chmod(0o777)
        self.user.mkdir()
        (self.user / "itc_trace").mkdir()
        (self.user / "itc_trace").chmod(0o777)
        self.new(COUNTER)
        self.assertIsNone(self.kept(COUNTER))
        self.assertEqual([*self.folder.rglob("*module?.pyc")], [])

    def test_what_cannot_be_written_whole_is_not_there(self) -> None:
        for fault in (OSError(errno.ENOSPC, "full"), KeyboardInterrupt()):
            with mock.patch.object(kept, "write", side_effect=[7, fault]), contextlib.suppress(KeyboardInterrupt):
                self.new(COUNTER)
            self.assertEqual([*(self.folder / "__pycache__").iterdir()], [])

    def test_nothing_is_written_where_the_language_writes_nothing(self) -> None:
        with mock.patch.object(sys, "dont_write_bytecode", True):
            self.new(COUNTER)
        self.assertEqual(self.entries(), [])
        self.new(COUNTER)
        with mock.patch.object(sys, "dont_write_bytecode", True):
            self.assertIsNotNone(self.kept(COUNTER))

    def test_the_folder_of_the_language_is_used(self) -> None:
        with mock.patch.object(sys, "pycache_prefix", str(self.folder / "prefix")):
            beside = self.folder / "prefix" / str(self.folder)[1:]
            beside.mkdir(parents=True, mode=0o755)
            self.new(COUNTER)
            self.assertEqual(len([*beside.iterdir()]), 1)
            self.assertIsNotNone(self.kept(COUNTER))
        self.assertEqual(self.entries(), [])

    def test_a_main_file_is_kept_for_the_user_if_it_is_long(self) -> None:
        for name in kept.MAINS:
            self.new(COUNTER, name=name)
            self.assertEqual(self.entries_of_user(), [])
        long = COUNTER + "# a line\n" * 600
        self.new(long, name="__main__")
        self.assertEqual((self.entries(), len(self.entries_of_user())), ([], 1))
        self.assertIsNotNone(self.kept(long, name="__main__"))

    def test_the_folder_of_the_user_does_not_grow_for_ever(self) -> None:
        (self.folder / "__pycache__").rmdir()
        with mock.patch.object(kept, "MOST_OF_USER", 3):
            for number in range(6):
                self.file = str(self.folder / f"part{number}.py")
                self.new(COUNTER)
            self.assertEqual(len(self.entries_of_user()), 3)
            self.assertIsNotNone(self.kept(COUNTER))


class Names(Case):
    def names(self) -> set[str]:
        with mock.patch.object(stored, "STORED_FIELDS", set()) as fields, mock.patch.object(stored, "STORED_ELSEWHERE", set()):
            with mock.patch.object(stored, "_seen", set()), mock.patch.object(stored, "_read", {}):
                stored.look_through(str(self.folder))
            return fields

    def test_what_sources_store_is_kept_until_one_is_another(self) -> None:
        for number in range(stored.FEWEST_KEPT):
            (self.folder / f"part{number}.py").write_text(f"self.field{number} = 1\n")
        first = self.names()
        self.assertEqual(len(first), stored.FEWEST_KEPT)
        with mock.patch.object(stored, "_text_of", side_effect=AssertionError):
            self.assertEqual(self.names(), first)
        (self.folder / "part0.py").write_text("self.another_field = 1\n")
        self.assertEqual(self.names(), first - {"field0"} | {"another_field"})
        (self.folder / "part1.py").unlink()
        self.assertEqual(self.names(), first - {"field0", "field1"} | {"another_field"})

    def test_a_folder_within_one_that_was_looked_through_is_not_read_again(self) -> None:
        (self.folder / "inner").mkdir()
        (self.folder / "inner" / "part.py").write_text("self.inner_field = 1\n")
        with mock.patch.object(stored, "_seen", set()), mock.patch.object(stored, "_read", {}):
            with mock.patch.object(stored, "STORED_FIELDS", set()) as fields:
                stored.look_through(str(self.folder))
                self.assertIn("inner_field", fields)
                with mock.patch.object(stored, "_sources_in", side_effect=AssertionError):
                    stored.look_through(str(self.folder / "inner"))


class Passes(unittest.TestCase):
    def test_each_node_of_a_hook_has_a_place_at_once(self) -> None:
        """Else the whole tree is walked for those that have none, and what somebody else's tree lacks is filled in."""
        with mock.patch.object(ast, "fix_missing_locations", side_effect=AssertionError):
            for path in PROGRAMS:
                with self.subTest(program=path.name):
                    making.written(path.read_bytes(), str(path), "part", learned.Learned())


class Runs(Case):
    def run_main(self, text: str, **variables: str) -> tuple[int, str, str]:
        main = self.folder / "main.py"
        main.write_text(text)
        words = [sys.executable, "-m", "itc_trace", "run", str(main)]
        environment = {**os.environ, "PYTHONPATH": str(PACKAGE), **variables}
        for name in ("PYTHONDONTWRITEBYTECODE", "PYTHONPYCACHEPREFIX"):
            environment.pop(name, None)
        done = subprocess.run(words, capture_output=True, text=True, env=environment, timeout=300, check=False)
        return done.returncode, done.stdout, done.stderr.replace(f"{COMPILES}\n", "")  # Whoever runs first is told so.

    def test_a_second_run_tells_what_the_first_one_told(self) -> None:
        (self.folder / "settings.py").write_text("debug = ''\nrows = []\n")
        (self.folder / "shell.py").write_text(SHELL)
        (self.folder / "part.py").write_text(COUNTER)
        text = "import shell, part\npart.run()\n"
        first = self.run_main(text)
        self.assertEqual(first[0], 66, first)
        self.assertEqual(first[1].splitlines()[-1], "6 ['last']")
        self.assertEqual(len(self.entries()), 1)
        before = self.entries()[0].stat().st_mtime_ns
        for variables in ({}, {"ITC_TRACE_PURE": "1"}):
            self.assertEqual(self.run_main(text, **variables), first)
        self.assertEqual(self.entries()[0].stat().st_mtime_ns, before)


if __name__ == "__main__":
    unittest.main()
