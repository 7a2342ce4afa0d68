"""A list fits on the screen of a terminal: what is cut is said to be cut, and places and identities are whole."""

from __future__ import annotations

import fcntl
import os
import pty
import re
import struct
import subprocess
import sys
import tempfile
import termios
import unittest
from dataclasses import replace
from io import StringIO, TextIOWrapper
from pathlib import Path
from typing import IO

from itc_trace.cli.reporting import Wanted, next_step
from itc_trace.model.finding import DEADLOCK, POSSIBLE_RACE, RACE, Finding, FoundSide
from itc_trace.model.verdict import PassedOver, Verdict, listed
from itc_trace.report.grouping import entries
from itc_trace.report.report import Report
from itc_trace.report.screen import Screen, columns_of, screen_of
from itc_trace.report.style import TerminalStyle
from itc_trace.report.text import Shown, text

from .support import PACKAGE

FOLDER = "/usr/lib/python3/dist-packages/django/core"
SIZES = ((80, 24), (80, 50), (120, 30), (200, 50), (40, 24), (20, 10), (1, 1))
ESCAPES = re.compile(r"\033\[[0-9;]*m|\033\]8;;[^\033]*\033\\")
CUT = "cut to fit here: --all, --max N or explain ID has the rest"


def side(kind: str, line: int, task: str, source: str, file: str = f"{FOLDER}/handlers.py") -> FoundSide:
    return FoundSide(kind, file, line, "get_response", task, line, is_write=kind == "write", begin=line, text=(source,))


def found(number: int, kind: str = RACE, thing: str = "LazySettings") -> Finding:
    sides = (
        side("read", 100 + number, "ask_1", "set_urlconf(settings.ROOT_URLCONF, settings.USE_X_FORWARDED_HOST)"),
        side("write", 500 + number, "ask_2", "self.__dict__[name] = val"),
    )
    why = f"ordered in this run only by _lock ({FOLDER}/connection.py:1312), which neither holds"
    return Finding(
        kind, f"{thing}{number}.ROOT_URLCONF", sides, why, made=f"a LazySettings made at __init__.py:{number}", times=7,
        is_possible=kind == POSSIBLE_RACE,
    )


def report_of(findings: list[Finding], hints: int = 1) -> Report:
    """As the list of django is."""
    passed_over = [PassedOver(f"__str{number}__", f"functional.py:{number}") for number in range(27)]
    summary = f"{len(findings)} races in this run; 20 possible{listed(passed_over)}: 311 places of 132 things, 1860 events"
    told = [f"the socket at {FOLDER}/wsgi.py:{number} gives no order: tell so by itc_trace.outgoing()" for number in range(hints)]
    return Report(Verdict.RACES, summary, findings, passed_over=passed_over, hints=told, folder="/work")


def like_django() -> list[Finding]:
    return [
        *(found(number) for number in range(11)), *(found(number, POSSIBLE_RACE, "Template") for number in range(20, 28)),
        found(8),
    ]


class Widths(unittest.TestCase):
    def test_how_many_rows_a_line_takes(self) -> None:
        for line, columns, rows in (
            ("", 10, 1), ("a" * 10, 10, 1), ("a" * 11, 10, 2), ("a" * 30, 10, 3), ("漢" * 5, 10, 1), ("漢" * 6, 10, 2),
            ("a" + "漢" * 5, 10, 2), ("a" + "漢" * 10, 10, 3), ("e\u0301" * 10, 10, 1), ("\t" * 9, 10, 1), ("a\tbc", 10, 1), ("a\tbcd", 10, 2),
            ("\033[1;31mrace\033[0m on x", 9, 1), ("\033]8;;file:///a/b.py\033\\b.py:7\033]8;;\033\\", 6, 1),
        ):
            with self.subTest(line=line):
                self.assertEqual(Screen(columns, 24).rows_of(line), rows)

    def test_what_is_cut_has_room_and_no_more_is_cut_than_has_to_be(self) -> None:
        screen = Screen()
        for cut, text_, columns, is_as in (
            (screen.cut_letters("abcdefgh", 8, 0), "abcdefgh", 8, "abcdefgh"), (screen.cut_letters("abcdefgh", 7, 0), "abcdefgh", 7, "abcdef…"),
            (screen.cut_letters("abcdefgh", 3, 5), "abcdefgh", 3, "abcde …"), (screen.cut_letters("a.py:10:  left -= 1", 10, 7), "", 10, "a.py:10 …"),
            (screen.cut_letters("漢字漢字", 7, 0), "漢字漢字", 7, "漢字漢…"),
            (screen.cut_letters("漢字漢字", 6, 0), "漢字漢字", 6, "漢字…"), (screen.cut_letters("abcdefgh", 3, 6), "abcdefgh", 3, "abcdefgh"),
            (screen.cut_words("one two three; id 7", 16, "; id 7"), "one two three; id 7", 16, "one two …; id 7"),
            (screen.cut_words("one two three; id 7", 19, "; id 7"), "one two three; id 7", 19, "one two three; id 7"),
            (screen.cut_words("one two three; id 7", 2, "; id 7"), "one two three; id 7", 2, "one …; id 7"),
            (screen.cut_middle("abcdefgh", 5), "abcdefgh", 5, "ab…gh"), (screen.cut_middle("abcdefgh", 8), "abcdefgh", 8, "abcdefgh"),
            (screen.cut_middle("漢字漢字", 6), "漢字漢字", 6, "漢…字"), (Screen(mark="..").cut_middle("abcdefgh", 6), "abcdefgh", 6, "ab..gh"),
        ):
            with self.subTest(text_=text_, columns=columns):
                self.assertEqual(cut, is_as)


class Screens(unittest.TestCase):
    def test_who_has_a_screen_and_how_large_it_is(self) -> None:
        for size, variables, is_as in (
            ((120, 30), {}, Screen(120, 30)), ((0, 0), {}, Screen(80, 24)), ((120, 30), {"COLUMNS": "50"}, Screen(50, 30)),
            ((120, 30), {"LINES": "9", "COLUMNS": ""}, Screen(120, 9)), ((120, 30), {"COLUMNS": "-1", "LINES": "x²"}, Screen(120, 30)),
        ):
            with self.subTest(size=size, variables=variables), open_terminal(*size) as stream:
                self.assertEqual(screen_of(stream, variables), is_as)
        closed = StringIO()
        closed.close()
        for what, stream in (("a pipe", StringIO()), ("a closed stream", closed), ("none", None)):
            with self.subTest(what):
                self.assertIsNone(screen_of(stream, {"COLUMNS": "50"}))

    def test_a_terminal_without_the_letter_gets_one_that_it_has(self) -> None:
        with open_terminal(80, 24, "latin-1") as stream:
            self.assertEqual(screen_of(stream, {}), Screen(80, 24, ".."))


class Lists(unittest.TestCase):
    """What does not depend on the size of the screen, for lists like those of real packages."""

    def lists(self) -> dict[str, list[Finding]]:
        deadlock = Finding(DEADLOCK, "ä_lock and b_lock", tuple(
            side(kind, number, task, "with b_lock:", f"{FOLDER}/ä ö/transfer.py") for number, (task, kind) in
            enumerate((("save_1", "holds a"), ("save_1", "wants b"), ("take_1", "holds b"), ("take_1", "wants a")), 1000)
        ), "each waits for the other")
        java = Finding(RACE, "Store.left", tuple(
            FoundSide(kind, "shop/b/Store.java", line, "shop.b.Store.put", "main", line, is_write=True, begin=line, text=("left--;" * 20,))
            for kind, line in (("write", 5), ("read", 7))
        ), "nothing orders them")
        return {
            "django": like_django(), "one": [found(1)], "three": [found(1), found(2), found(3)], "five": [found(number) for number in range(5)],
            "long names": [found(number, thing=f"漢字.{'x' * 50}['{'ö' * 60}']") for number in range(9)], "deadlock": [deadlock, *like_django()],
            "java": [java, *like_django()], "many": [found(number) for number in range(300)], "none": [],
        }

    def test_a_list_fits_on_the_screen(self) -> None:
        for name, findings in self.lists().items():
            for columns, rows in ((80, 24), (80, 50), (120, 30), (200, 50)):
                with self.subTest(name, columns=columns):
                    screen = Screen(columns, rows).without(["$", "next"])
                    told = text(report_of(findings), screen=screen)
                    self.assertLessEqual(sum(map(screen.rows_of, told.splitlines())), screen.rows, told)
                    self.assertLessEqual(len(told.splitlines()), 24)

    def test_all_causes_are_listed_or_counted(self) -> None:
        for name, findings in self.lists().items():
            causes = entries(findings)
            for columns, rows in SIZES:
                with self.subTest(name, columns=columns):
                    told = text(report_of(findings), screen=Screen(columns, rows))
                    shown = {one.shown.identity for one in causes if f"; id {one.shown.identity}\n" in told}
                    left = re.search(r"^    and (\d+) more(;|$)", told, re.MULTILINE)
                    self.assertEqual(len(shown) + (int(left[1]) if left else 0), len({one.shown.identity for one in causes}), told)
                    self.assertEqual(bool(causes), bool(shown))
                    self.assertIn(f"itc_trace: {len(findings)} races in this run; 20 possible; not looked into: __str0__ at functional.py:0", told)

    def test_places_and_identities_are_whole(self) -> None:
        for name, findings in self.lists().items():
            places = {side.place for one in findings for side in one.sides} | {side.short_place for one in findings for side in one.sides}
            places |= {f"{FOLDER}/connection.py:1312", f"{FOLDER}/wsgi.py:0", *(f"functional.py:{number}" for number in range(27))}
            places |= {f"__init__.py:{number}" for number in range(300)}
            for columns, rows in SIZES:
                with self.subTest(name, columns=columns):
                    told = text(report_of(findings), screen=Screen(columns, rows))
                    self.assertLessEqual(set(re.findall(r"[\w./]*/[^:…]*:\d+|\w+\.\w+:\d+", told)), places)
                    self.assertNotRegex(told, r"\.(p|py|j|ja|jav|java)(:\d*)?…")
                    self.assertNotRegex(told, rf"{FOLDER}[^:\n]*…")

    def test_what_is_cut_is_said_to_be_cut_and_nothing_is_where_there_is_room(self) -> None:
        for name, findings in self.lists().items():
            plain = text(report_of(findings))
            known = {*plain.splitlines(), *(f"    {one.shown.short(len(one.findings) - 1)}" for one in entries(findings))}
            self.assertNotIn("…", plain)
            for columns, rows in SIZES:
                with self.subTest(name, columns=columns):
                    screen = Screen(columns, rows)
                    told = text(report_of(findings), screen=screen)
                    self.assertEqual(told == plain, sum(map(screen.rows_of, plain.splitlines())) <= rows)
                    others = [line for line in told.splitlines() if line not in known and CUT not in line]
                    is_cut = "…" in told or any(line.startswith("    ") for line in others) or "\n    and " in told and "more;" in told
                    self.assertEqual(told.count(CUT), is_cut, told)

    def test_each_of_many_columns_holds(self) -> None:
        """A line is as wide as the screen at most, unless its place or its identity is wider."""
        findings = self.lists()["deadlock"]
        for columns in range(78, 160):
            screen = Screen(columns, 24)
            told = text(report_of(findings), screen=screen).splitlines()
            self.assertLessEqual(sum(map(screen.rows_of, told)), 24, columns)
            begun = next(number for number, line in enumerate(told) if line.endswith("in a line each: --all"))
            self.assertEqual([line for line in told[begun:-2] if columns_of(line) > columns], [])

    def test_who_asks_for_more_gets_lines_that_are_not_cut(self) -> None:
        report = report_of(like_django())
        for shown in (Shown(is_all=True), Shown(most=3), Shown(most=0)):
            self.assertEqual(text(report, shown, screen=Screen(40, 10)), text(report, shown))

    def test_colours_and_links_take_no_room(self) -> None:
        for findings in self.lists().values():
            for columns, rows in SIZES:
                plain = text(report_of(findings), screen=Screen(columns, rows))
                coloured = text(report_of(findings), Shown(), TerminalStyle(True), Screen(columns, rows))
                self.assertEqual(ESCAPES.sub("", coloured), plain)
        coloured = text(report_of(like_django()), Shown(), TerminalStyle(True), Screen())
        place = f"\033]8;;file://{FOLDER}/handlers.py\033\\handlers.py:510\033]8;;\033\\"
        self.assertIn(f"\n    \033[1;31mrace\033[0m on LazySettings10.ROOT_URLCONF: {place}, …; id ", coloured)


RACING = """import threading
stock_of_the_warehouse_in_the_old_town_{number} = 0
def sell_from_the_warehouse_in_the_old_town_{number}():
    global stock_of_the_warehouse_in_the_old_town_{number}
    stock_of_the_warehouse_in_the_old_town_{number} += 1
for _ in range(2):
    threading.Thread(target=sell_from_the_warehouse_in_the_old_town_{number}).start()
"""


class Commands(unittest.TestCase):
    """At real terminals of several sizes."""

    def test_a_run_and_its_list_fit_and_the_status_counts_what_was_found(self) -> None:
        with tempfile.TemporaryDirectory() as folder:
            Path(folder, "shop.py").write_text("".join(RACING.replace("{number}", str(number)) for number in range(9)))
            for words, columns, rows in (
                ("run --export g shop.py", 80, 24), ("races g", 80, 24), ("races g", 120, 30), ("races g", 200, 50), ("races g", 40, 24),
            ):
                with self.subTest(words, columns=columns):
                    status, said = at_terminal(folder, columns, rows, words.split())
                    self.assertEqual(status, 66)
                    self.assertIn("9 races in this run", said)
                    self.assertLess(sum(map(Screen(columns, rows).rows_of, said.splitlines())), rows)
                    self.assertEqual(said.count(CUT), columns < 120, said)
            status, said = at_terminal(folder, 80, 24, ["races", "--all", "g"])
            self.assertEqual((status, said.count(CUT), "…" in said), (66, 0, False))

    def test_what_is_next_names_the_first_entry_that_is_shown(self) -> None:
        first, shortest = found(1), found(1, thing="Lazy")
        report = report_of([first, replace(first, thing=shortest.thing, sides=tuple(replace(one, event=1) for one in first.sides))])
        self.assertIs(entries(report.findings)[0].shown, report.findings[1])
        for shown, finding in ((Shown(), report.findings[1]), (Shown(is_all=True), first)):
            self.assertIn(f"explain {finding.identity} g", next_step(report, Wanted(shown=shown), "g", True))

    def test_no_screen_gets_what_it_got_before(self) -> None:
        """The widths of the environment are for terminals."""
        with tempfile.TemporaryDirectory() as folder:
            Path(folder, "shop.py").write_text("".join(RACING.replace("{number}", str(number)) for number in range(9)))
            at_terminal(folder, 80, 24, ["run", "--export", "g", "shop.py"])
            told = [
                subprocess.run(COMMAND + ["races", "g"], cwd=folder, env={**environment(), **size}, capture_output=True, text=True, check=False).stdout
                for size in ({}, {"COLUMNS": "40", "LINES": "10"})
            ]
            self.assertEqual(told[0], told[1])
            self.assertNotIn("…", told[0])

    def test_whoever_reads_no_further_is_no_fault(self) -> None:
        """A program that fails to write to a pipe may end otherwise than by its own status."""
        with tempfile.TemporaryDirectory() as folder:
            Path(folder, "shop.py").write_text("".join(RACING.replace("{number}", str(number)) for number in range(9)))
            for words in ("run --export g shop.py", "races g", "races --json - g", "races --github --sarif s g"):
                shell = f"{sys.executable} -m itc_trace {words} 2>&1 | head -1; echo ${{PIPESTATUS[0]}}"
                ran = subprocess.run(["bash", "-c", shell], cwd=folder, env=environment(), capture_output=True, text=True, check=False)
                self.assertEqual((ran.stdout.splitlines()[-1], ran.stderr), ("66", ""), words)


COMMAND = [sys.executable, "-m", "itc_trace"]


def environment() -> dict[str, str]:
    """Without what tells of the terminal that the tests run at."""
    left = {name: value for name, value in os.environ.items() if name not in ("COLUMNS", "LINES", "NO_COLOR")}
    return {**left, "PYTHONPATH": str(PACKAGE), "TERM": "xterm", "NO_COLOR": "1"}


def at_terminal(folder: str, columns: int, rows: int, words: list[str]) -> tuple[int, str]:
    """The status, and what was said on standard output and error."""
    screen, terminal = sized(columns, rows)
    ran = subprocess.Popen(COMMAND + words, stdin=terminal, stdout=terminal, stderr=terminal, cwd=folder, env=environment())
    os.close(terminal)
    said = b""
    while piece := _read(screen):
        said += piece
    os.close(screen)
    return ran.wait(600), said.decode().replace("\r\n", "\n")


def sized(columns: int, rows: int) -> tuple[int, int]:
    screen, terminal = pty.openpty()
    fcntl.ioctl(terminal, termios.TIOCSWINSZ, struct.pack("HHHH", rows, columns, 0, 0))
    return screen, terminal


class open_terminal:
    """The end of a terminal that programs write to, as a stream of text."""

    def __init__(self, columns: int, rows: int, encoding: str = "utf-8") -> None:
        self._size, self._encoding = (columns, rows), encoding

    def __enter__(self) -> IO[str]:
        self._screen, terminal = sized(*self._size)
        self._stream = TextIOWrapper(os.fdopen(terminal, "wb"), self._encoding)
        return self._stream

    def __exit__(self, *_: object) -> None:
        self._stream.close()
        os.close(self._screen)


def _read(screen: int) -> bytes:
    try:
        return os.read(screen, 65536)
    except OSError:  # The other end is closed, and all was read.
        return b""


if __name__ == "__main__":
    unittest.main()
