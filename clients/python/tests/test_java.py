"""The command `java`: which words are its own, what the program is called, and what it says without an agent."""

from __future__ import annotations

import os
import subprocess
import sys
import tempfile
import unittest
from pathlib import Path
from unittest import mock

from itc_trace.cli.commands import _divided
from itc_trace.analyse.kept_sources import sources_of
from itc_trace.analyse.races import Race, add_race, sides_of
from itc_trace.cli.java import Java
from itc_trace.cli.options import parser
from itc_trace.record.faults import Fault
from itc_trace.record.journal import Row, read_whole

PACKAGE = Path(__file__).resolve().parent.parent


def told(*words: str, **more: str) -> tuple[int, str]:
    """The status of the command, and what it says."""
    environment = {**os.environ, "PYTHONPATH": str(PACKAGE), **more}
    ran = subprocess.run(
        [sys.executable, "-m", "itc_trace", "java", *words], env=environment, capture_output=True, text=True, check=False,
    )
    return ran.returncode, ran.stderr


class Words(unittest.TestCase):
    def assert_divided(self, words: list[str], own: list[str], of_java: list[str]) -> None:
        made = parser("itc-trace").commands
        self.assertEqual(_divided(["java", *words], made["run"], made["java"]), (["java", *own], of_java))

    def test_words_of_java_follow_the_options(self) -> None:
        self.assert_divided(["-cp", ".", "Shop"], [], ["-cp", ".", "Shop"])
        self.assert_divided(["--quiet", "--export", "e", "-jar", "shop.jar"], ["--quiet", "--export", "e"], ["-jar", "shop.jar"])
        self.assert_divided(["--export=e", "Shop", "--quiet"], ["--export=e"], ["Shop", "--quiet"])

    def test_two_dashes_end_the_options(self) -> None:
        self.assert_divided(["--quiet", "--", "--add-opens", "a/b=c", "Shop"], ["--quiet"], ["--add-opens", "a/b=c", "Shop"])

    def test_an_option_without_its_value_takes_nothing_of_java(self) -> None:
        self.assert_divided(["--export"], ["--export"], [])

    def test_the_program_is_the_jar_or_the_class(self) -> None:
        for words, name in (
            (["-jar", "build/shop.jar", "x"], "shop"), (["-Xmx1g", "-cp", "a:b", "org.shop.Main", "y"], "Main"),
            (["-p", "mods", "-m", "shop/org.shop.Main"], "Main"), (["-version"], "java"), (["--add-opens", "a/b=c", "Shop"], "Shop"),
        ):
            with self.subTest(words=words):
                self.assertEqual(Java(words).program, name)


class Agents(unittest.TestCase):
    def test_packages_are_handed_to_the_agent(self) -> None:
        with tempfile.NamedTemporaryFile(suffix=".jar") as agent, mock.patch("shutil.which", return_value="/bin/java"):
            words = Java(["Shop"], agent.name, ["org.shop"], ["org.shop.far", "b"]).command()
            self.assertEqual(
                words, ["/bin/java", f"-javaagent:{agent.name}=watch=org.shop,exclude=org.shop.far,exclude=b", "Shop"],
            )
            self.assertEqual(Java(["Shop"], agent.name).command()[1], f"-javaagent:{agent.name}")
            self.assertRaises(Fault, Java(["Shop"], agent.name, ["a,b"]).command)

    def test_without_java_it_says_what_to_install(self) -> None:
        with mock.patch("shutil.which", return_value=None):
            self.assertRaisesRegex(Fault, "there is no java on the PATH", Java(["Shop"]).command)

    def test_no_agent_is_told_before_anything_runs(self) -> None:
        status, said = told("-cp", ".", "Shop", ITC_TRACE_AGENT="/no/such.jar")
        self.assertEqual(status, 2, said)
        self.assertRegex(said, r"there is no (agent /no/such\.jar|java on the PATH)")

    def test_no_program_is_told(self) -> None:
        self.assertEqual(told("--quiet")[0], 2)


class OfJunit(unittest.TestCase):
    """A journal says which tasks are of which test."""

    LINES = (
        '{"test":"Shop.sells()","task":"p_alice"}', '{"test":"Shop.sells()","task":"p_bob"}',
        '{"test":"Shop.buys()","task":"p_carol"}',
    )

    def race(self, one: str, other: str, event: int) -> Race:
        touches = [
            Row(event + place, task, str(event), "write", "Shop.java", 6, "-", "Shop.left", "Shop.left")
            for place, task in enumerate((one, other))
        ]
        return Race("Shop.left", sides_of(*touches), (touches[0], touches[1]), 1)

    def test_a_race_names_the_tests_of_all_pairs_that_are_listed_as_one(self) -> None:
        sources = sources_of((), (), read_whole([f"{line}\n" for line in self.LINES]).tests)
        listed: dict[object, Race] = {}
        for one, other, event in (("p_dave", "p_carol", 1), ("p_alice", "p_bob", 5)):
            add_race(self.race(one, other, event), listed)
        (race,) = listed.values()
        self.assertEqual(race.finding(sources).tests, ("Shop.sells()", "Shop.buys()"))
        self.assertEqual(race.times, 2)
        self.assertEqual(self.race("p_dave", "p_eve", 1).finding(sources).tests, ())
        self.assertIn("in 2 tests, first in Shop.sells()", race.finding(sources).lines())


if __name__ == "__main__":
    unittest.main()
