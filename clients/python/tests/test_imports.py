"""What is imported when: a command and the process of a program each have what they use, and the names of the package are there."""

from __future__ import annotations

import unittest

from .support import run_python

TRACE = ("itc_trace.sync", "itc_trace.watch", "itc_trace.api", "itc_trace.marked")
"""What traces a program."""
LOOK = ("itc_trace.analyse", "itc_trace.report")
"""What looks for races, and tells of them."""
LARGE = ("asyncio", "ssl", "hashlib", "_hashlib")
"""What takes megabytes, and is left to the program."""


def imported(module: str, names: tuple[str, ...]) -> str:
    """Which of these modules are there once this one was imported."""
    code = f"import sys, {module}; print(*sorted(set({names}) & set(sys.modules)))"
    return run_python("-c", code).stdout.strip()


class Imports(unittest.TestCase):
    def test_a_command_imports_nothing_that_traces(self) -> None:
        self.assertEqual(imported("itc_trace.cli.commands", TRACE), "")
        self.assertEqual(imported("itc_trace.cli.commands", LOOK), " ".join(LOOK))

    def test_the_process_of_a_program_imports_nothing_that_looks_for_races(self) -> None:
        self.assertEqual(imported("itc_trace.cli.launch", LOOK), "")
        self.assertEqual(imported("itc_trace.cli.launch", TRACE), " ".join(sorted(TRACE)))
        self.assertEqual(imported("itc_trace.cli.launch", LARGE), "")

    def test_each_public_name_is_there_and_listed(self) -> None:
        code = (
            "import itc_trace\n"
            "listed = dir(itc_trace)\n"
            "from itc_trace import *\n"
            "print([name for name in itc_trace.__all__ if name not in listed or globals()[name] is not getattr(itc_trace, name)])"
        )
        self.assertEqual(run_python("-c", code).stdout, "[]\n")

    def test_an_unknown_name_is_refused_as_by_any_module(self) -> None:
        told = run_python("-c", "import itc_trace; itc_trace.unheard_of").stderr.splitlines()[-1]
        self.assertEqual(told, "AttributeError: module 'itc_trace' has no attribute 'unheard_of'")

    def test_what_looks_for_races_is_there_before_a_program_begins(self) -> None:
        """Else `races` would import it when the program is over, and may have changed how modules are found."""
        code = "import itc_trace, sys; itc_trace.tracing; print('itc_trace.analyse.seeing' in sys.modules)"
        self.assertEqual(run_python("-c", code).stdout, "True\n")
