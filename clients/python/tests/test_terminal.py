"""A terminal gets colours and links, and nobody else does: neither a pipe, nor who does not want them."""

from __future__ import annotations

import os
import pty
import re
import subprocess
import sys
import tempfile
import time
import unittest
from dataclasses import replace
from io import StringIO
from pathlib import Path
from unittest import mock

from itc_trace.cli.reporting import Wanted, next_step
from itc_trace.cli.ticking import ticking
from itc_trace.model.finding import Finding, FoundSide
from itc_trace.model.verdict import Verdict
from itc_trace.report.report import Report
from itc_trace.report.style import Style, TerminalStyle, style_of
from itc_trace.report.text import text

from .support import PACKAGE, run_traced
from .test_report import SELLING, stored

ESCAPES = re.compile(r"\033\[[0-9;]*m|\033\]8;;[^\033]*\033\\")


class Terminal(StringIO):
    def isatty(self) -> bool:
        if self.closed:
            raise ValueError("it is closed")
        return True


class Styles(unittest.TestCase):
    def test_who_gets_colours_and_links(self) -> None:
        closed = Terminal()
        closed.close()
        for what, stream, environment, style, has_links in (
            ("a terminal", Terminal(), {"TERM": "xterm-256color"}, TerminalStyle, True),
            ("the console of Linux", Terminal(), {"TERM": "linux"}, TerminalStyle, False),
            ("a terminal without a name", Terminal(), {}, Style, False),
            ("a dumb terminal", Terminal(), {"TERM": "dumb"}, Style, False),
            ("who does not want colours", Terminal(), {"TERM": "xterm", "NO_COLOR": "1"}, Style, False),
            ("an empty NO_COLOR", Terminal(), {"TERM": "xterm", "NO_COLOR": ""}, TerminalStyle, True),
            ("a pipe", StringIO(), {"TERM": "xterm"}, Style, False),
            ("no stream", None, {"TERM": "xterm"}, Style, False),
            ("a closed stream", closed, {"TERM": "xterm"}, Style, False),
        ):
            with self.subTest(what):
                found = style_of(stream, environment)
                self.assertIs(type(found), style)
                self.assertEqual("\033]8;;" in text(stored(), style=found), has_links)

    def test_a_terminal_shows_the_same_words(self) -> None:
        coloured = text(stored(), style=TerminalStyle(True))
        self.assertNotEqual(coloured, text(stored()))
        self.assertEqual(ESCAPES.sub("", coloured), text(stored()))

    def test_entries_of_one_line_have_colours_and_links_too(self) -> None:
        side = FoundSide("write", "a b/shop.py", 7, "f", "one", 1, is_write=True)
        sides = [(replace(side, line=number), replace(side, line=100 + number, task="two")) for number in range(20, 29)]
        findings = [Finding("race", f"t{number}", pair, "nothing orders them") for number, pair in enumerate(sides)]
        report = Report(Verdict.RACES, "9 races in this run", findings, folder="/shop")
        coloured = text(report, style=TerminalStyle(True))
        self.assertEqual(ESCAPES.sub("", coloured), text(report))
        place = "\033]8;;file:///shop/a%20b/shop.py\033\\shop.py:28\033]8;;\033\\"
        self.assertIn(f"\n    \033[1;31mrace\033[0m on t8: write at {place}, write at ", coloured)

    def test_links_lead_to_whole_paths(self) -> None:
        coloured = text(stored(), style=TerminalStyle(True))
        self.assertIn("\033]8;;file:///work/of/shop/shop.py\033\\shop.py:10\033]8;;\033\\", coloured)
        self.assertIn("\033]8;;file:///opt/a%20b/orders.py\033\\/opt/a b/orders.py:4\033]8;;", coloured)
        self.assertIn("write at ?\n", coloured)

    def test_what_to_do_next_depends_on_what_was_found_and_kept(self) -> None:
        found, clean = stored(), Report(Verdict.NO_RACE, "no race in this run")
        identity = found.findings[0].identity
        self.assertIn(f"`itc-trace explain {identity} g`", next_step(found, Wanted(called="itc-trace"), "g", True))
        self.assertIn(f"explain {identity} r.json`", next_step(found, Wanted({"json": "r.json"}), None, True))
        self.assertIn(f"--export FILE, and type `python3 -m itc_trace explain {identity} FILE`", next_step(found, Wanted({"json": "-"}), None, True))
        self.assertIn("--runs 10", next_step(clean, Wanted(), None, True))
        self.assertEqual(next_step(clean, Wanted(), None, False), "")
        self.assertEqual(next_step(Report(Verdict.INCOMPLETE, ""), Wanted(), None, True), "")


class Commands(unittest.TestCase):
    def test_a_run_at_a_terminal_is_coloured_and_says_what_is_next(self) -> None:
        with tempfile.TemporaryDirectory() as folder:
            Path(folder, "shop.py").write_text(SELLING)
            for variables, is_coloured in (({"TERM": "xterm"}, True), ({"TERM": "xterm", "NO_COLOR": "1"}, False)):
                screen, terminal = pty.openpty()
                environment = {**os.environ, "PYTHONPATH": str(PACKAGE), **variables}
                command = [sys.executable, "-m", "itc_trace", "run", "--export", "g", "shop.py"]
                ran = subprocess.run(command, stderr=terminal, cwd=folder, env=environment, timeout=600, check=False)
                os.close(terminal)
                said = b""
                while piece := _read(screen):
                    said += piece
                os.close(screen)
                self.assertEqual(ran.returncode, 66)
                self.assertEqual(b"\033[1;31mrace\033[0m on stock" in said, is_coloured, said)
                self.assertRegex(said.decode(), r"itc_trace: next: `python3 -m itc_trace explain \w{12} g` tells of this race")


class Progress(unittest.TestCase):
    """Whoever waits at a terminal is told how far it is, and nobody else is."""

    def said(self, *words: str, program: str) -> str:
        with tempfile.TemporaryDirectory() as folder:
            (Path(folder) / "shop.py").write_text(program)
            screen, terminal = pty.openpty()
            environment = {**os.environ, "PYTHONPATH": str(PACKAGE), "TERM": "xterm", "NO_COLOR": "1"}
            command = [sys.executable, "-m", "itc_trace", "run", *words, "shop.py"]
            subprocess.run(command, stderr=terminal, cwd=folder, env=environment, timeout=600, check=False)
            os.close(terminal)
            said = b""
            while piece := _read(screen):
                said += piece
            os.close(screen)
        return said.decode()

    def test_a_long_run_says_that_it_goes_on(self) -> None:
        long = "import time\ntime.sleep(7)\n"
        self.assertRegex(self.said(program=long), r"itc_trace: \d\.\d MB of journal, \d+ s so far\r\n")
        self.assertNotIn("so far", self.said("--quiet", program=long))
        self.assertNotIn("so far", run_traced("--no-shake", "--runs", "1", self.written(long)).stderr)

    def test_several_runs_say_how_long_the_others_may_take(self) -> None:
        said = self.said("--runs", "2", "--no-shake", program="pass\n").splitlines()
        lines = [line for line in said if not line.endswith("so far")]
        self.assertRegex(lines[0], r"run 1 of 2: no race in this run; about \d+ s for the others\Z")
        self.assertRegex(lines[1], r"run 2 of 2: no race in this run\Z")
        self.assertNotIn("about", run_traced("--no-shake", "--runs", "2", self.written("pass\n")).stderr)

    def test_the_time_between_two_lines_doubles(self) -> None:
        with mock.patch("itc_trace.cli.ticking.say") as say, ticking(Terminal(), lambda: "it, ", 0.05):
            time.sleep(1.2)
        told = [call.args[0] for call in say.call_args_list]
        self.assertTrue(1 <= len(told) <= 5, told)
        self.assertRegex(told[0], r"\Aitc_trace: it, \d s so far\Z")

    def written(self, program: str) -> str:
        file = Path(self.enterContext(tempfile.TemporaryDirectory())) / "shop.py"
        file.write_text(program)
        return str(file)


def _read(screen: int) -> bytes:
    try:
        return os.read(screen, 65536)
    except OSError:  # The other end is closed, and all was read.
        return b""


if __name__ == "__main__":
    unittest.main()
