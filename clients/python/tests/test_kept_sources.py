"""A list that is made elsewhere shows the lines of the program that ran, and no others."""

from __future__ import annotations

import contextlib
import json
import os
import shutil
import subprocess
import sys
import tempfile
import unittest
from pathlib import Path

from itc_trace.analyse.kept_sources import MOST_KEPT, add_sources, source_rows, sources_of
from itc_trace.cli.process_sources import ProcessSources
from itc_trace.record.journal import ProcessTold, SourceText, read_line, read_whole

from .support import PACKAGE
from .test_report import SELLING

ROW = '{"event":3,"task":"a","thing":"x","kind":"write","file":"%s","line":%d,"label":"write x"}\n'
END = '{"end":true,"lines":1}\n'


class Rows(unittest.TestCase):
    def setUp(self) -> None:
        self.folder = Path(self.enterContext(tempfile.TemporaryDirectory()))

    def write(self, name: str, text: str) -> str:
        (self.folder / name).parent.mkdir(parents=True, exist_ok=True)
        (self.folder / name).write_text(text)
        return str(self.folder / name)

    def test_the_lines_around_each_place_are_kept(self) -> None:
        file = self.write("a.py", "".join(f"line {number}\n" for number in range(1, 31)))
        (row,) = source_rows([ROW % (file, 10), ROW % (file, 29)])
        self.assertEqual(sorted(row.lines), [*range(7, 14), *range(26, 31)])
        self.assertEqual(row.lines[10], "line 10")
        self.assertEqual(read_line(row.row()), row)

    def test_the_line_of_the_place_is_whole_and_others_are_cut(self) -> None:
        file = self.write("a.py", f"{'x' * 500}\n{'y' * 500}\n")
        (row,) = source_rows([ROW % (file, 1)])
        self.assertEqual([len(row.lines[number]) for number in (1, 2)], [500, 160])

    def test_no_more_is_kept_than_there_is_room_for(self) -> None:
        small, large = self.write("a.py", "a\n"), self.write("b.py", "b" * (MOST_KEPT + 1) + "\n")
        self.assertEqual([one.file for one in source_rows([ROW % (small, 1), ROW % (large, 1)])], [small])
        self.assertEqual(list(source_rows([ROW % (self.write("c.py", "c\n" * (1 << 20)), 1), ROW % (str(self.folder), 1), ROW % ("no", 1)])), [])

    def test_where_a_file_was_found_is_kept_from_the_current_folder(self) -> None:
        within, outside = self.write("here/src/b.py", "x = 1\n"), self.write("there/c.py", "x = 1\n")
        large = self.write("here/src/d.py", "#" * (1 << 21))
        found = {"b.py": within, "c.py": outside, "d.py": large, "src/b.py": within, within: within, "none.py": None}
        self.enterContext(contextlib.chdir(self.folder / "here"))
        rows = list(source_rows([ROW % (file, 1) for file in found], found.get))
        self.assertEqual({row.file: row.path for row in rows}, {"b.py": "src/b.py", "c.py": outside, "d.py": "src/d.py", "src/b.py": "", within: ""})
        self.assertEqual([read_line(row.row()) for row in rows], rows)

    def test_a_journal_with_sources_says_the_same(self) -> None:
        file = self.write("a.py", "x = 1\n")
        journal = self.write("journal", ROW % (file, 1) + END)
        before = read_whole(Path(journal).read_text().splitlines(True))
        add_sources(journal)
        after = read_whole(Path(journal).read_text().splitlines(True))
        self.assertEqual((after.rows, after.unseen, after.missing), (before.rows, [], []))
        self.assertEqual(after.sources, (SourceText(file, {1: "x = 1"}),))

    def test_a_journal_that_breaks_off_still_does(self) -> None:
        file = self.write("a.py", "x = 1\n")
        for text in (ROW % (file, 1), ROW % (file, 1) + '{"end"', END.replace("1", "2")):
            journal = self.write("journal", text)
            add_sources(journal)
            self.assertTrue(read_whole(Path(journal).read_text().splitlines(True)).unseen, text)
        cut = self.write("journal", ROW % (file, 1) + '{"event"')
        add_sources(cut)
        self.assertEqual(Path(cut).read_text(), ROW % (file, 1) + '{"event"')

    def test_files_of_one_name_that_say_otherwise_are_left_out(self) -> None:
        told = sources_of([SourceText("a.py", {1: "x"}), SourceText("a.py", {1: "x", 2: "y"}), SourceText("b.py", {1: "x"}), SourceText("b.py", {1: "y"})])
        self.assertEqual(told.kept, {"a.py": {1: "x", 2: "y"}})

    def test_files_of_one_name_have_no_path(self) -> None:
        told = sources_of([SourceText("a.py", {1: "x"}, "one/a.py"), SourceText("a.py", {9: "y"}, "two/a.py"), SourceText("b.py", {1: "x"}, "one/b.py"),
                           SourceText("b.py", {9: "y"}, "one/b.py"), SourceText("c.py", {1: "x"}, "one/c.py"), SourceText("c.py", {1: "y"}, "one/c.py")])
        self.assertEqual([told.path(file) for file in ("a.py", "b.py", "c.py", "d.py")], ["", "one/b.py", "", ""])
        self.assertEqual(told.kept["a.py"], {1: "x", 9: "y"})

    def test_lines_that_were_not_kept_come_from_where_the_file_was_found(self) -> None:
        self.enterContext(contextlib.chdir(self.folder))
        self.write("py/a.py", "of the process\n"), self.write("a.py", "of another\n")
        self.assertEqual(sources_of([SourceText("a.py", {}, "py/a.py")]).line("a.py", 1), "of the process")

    def test_processes_have_their_whole_names_in_whichever_order_they_start(self) -> None:
        told = [ProcessTold("wareh2", "warehouse_go"), ProcessTold("wareh", "warehouse_py")]
        self.assertEqual([read_line(one.row()) for one in told], told)
        sources = sources_of([], told)
        for task, due in (("wareh2", "warehouse_go"), ("wareh2_pay_1", "warehouse_go_pay_1"), ("wareh_pay_1", "warehouse_py_pay_1"),
                          ("wareh3_pay", "wareh3_pay"), ("root", "root"), ("", "")):
            self.assertEqual(sources.task(task), due)

    def test_a_line_that_is_none_is_told(self) -> None:
        for line in ('{"process":"a"}\n', '{"source":"a.py"}\n', '{"source":"a.py","lines":[1]}\n', '{"source":"a.py","lines":{"x":"y"}}\n'):
            self.assertIsNone(read_line(line), line)


class Files(unittest.TestCase):
    """Where a process of a system has its sources."""

    def setUp(self) -> None:
        self.folder = Path(self.enterContext(tempfile.TemporaryDirectory())).resolve()

    def write(self, name: str) -> str:
        (self.folder / name).parent.mkdir(parents=True, exist_ok=True)
        (self.folder / name).write_text("")
        return str(self.folder / name)

    def test_each_language_names_its_files_otherwise(self) -> None:
        of_python, of_rust, of_java = self.write("py/shop.py"), self.write("rs/src/main.rs"), self.write("java/shop/b/Store.java")
        self.write("rs/target/debug/app")
        self.write("java/one/Twice.java"), self.write("java/two/Twice.java"), self.write("java/target/Made.java")
        for folder, command, file, due in (
            ("py", "python3", "shop.py", of_python), ("py", "python3", of_python, of_python), ("py", "python3", "/no/such.py", None),
            ("elsewhere", str(self.folder / "rs/target/debug/app"), "src/main.rs", of_rust), ("rs", "target/debug/app", "src/main.rs", of_rust),
            ("java", "java", "Store.java", of_java), ("java", "java", "Twice.java", None), ("java", "java", "Made.java", None),
            ("java", "java", "None.java", None), ("java", "java", "two/Twice.java", self.write("java/two/Twice.java")),
            ("java", "java", "shop/b/Store.java", of_java), ("java", "java", "other/Store.java", None),
        ):
            with self.subTest(file=file, folder=folder):
                self.assertEqual(ProcessSources(str(self.folder / folder), [command]).find(file), due)

    def test_the_file_that_describes_the_system_may_lie_elsewhere(self) -> None:
        of_java, other = self.write("app/src/main/java/shop/b/Store.java"), self.write("app/src/main/java/shop/a/Store.java")
        of_kotlin, of_rust = self.write("app/src/main/kotlin/Till.kt"), self.write("rs/crates/shop/src/main.rs")
        self.write("app/out/shop/b/Store.class"), self.write("rs/target/debug/app"), (self.folder / "elsewhere").mkdir()
        java = ["java", "-cp", f"/no/such.jar:{self.folder}/app/out", "shop.Main", "x" * 5000, ""]
        for command, file, due in (
            (java, "shop/b/Store.java", of_java), (java, "shop/a/Store.java", other), (java, "Store.java", None),
            (java, "shop/till/Till.kt", of_kotlin), ([str(self.folder / "rs/target/debug/app")], "crates/shop/src/main.rs", of_rust),
            (["cargo", "run", "--manifest-path", of_rust], "src/main.rs", of_rust), (["cargo", "run"], "src/main.rs", None),
        ):
            with self.subTest(file=file, command=command[:2]):
                self.assertEqual(ProcessSources(str(self.folder / "elsewhere"), command).find(file), due)


class Lists(unittest.TestCase):
    def assert_found_below(self, folder: str, ran: "subprocess.CompletedProcess[str]") -> None:
        """The list names the file as its process does, and what machines read leads to it from the repository."""
        self.assertIn("write at shop.py:4 in sell", ran.stderr)
        written = {name: Path(folder, name).read_text() for name in ("s.sarif", "j")}
        self.assertIn("::error file=py/shop.py,line=4,", ran.stdout)
        (result,) = json.loads(written["s.sarif"])["runs"][0]["results"]
        for place in (*result["locations"], *result["relatedLocations"]):
            self.assertEqual(place["physicalLocation"]["artifactLocation"], {"uri": "py/shop.py", "uriBaseId": "SRCROOT"})
        for side in json.loads(written["j"])["findings"][0]["sides"]:
            self.assertEqual((side["file"], side["path"]), ("shop.py", "py/shop.py"))

    def test_a_list_that_is_made_elsewhere_has_the_sources_and_the_identity(self) -> None:
        with tempfile.TemporaryDirectory() as folder, tempfile.TemporaryDirectory() as away:
            (Path(folder) / "py").mkdir()
            Path(folder, "py", "shop.py").write_text(SELLING)
            Path(folder, "shop.toml").write_text('export = "s"\n[process.storekeeper]\ncommand = ["python3", "shop.py"]\ndirectory = "py"\n')
            environment = {**os.environ, "PYTHONPATH": str(PACKAGE)}

            def run(cwd: str, *words: str) -> "subprocess.CompletedProcess[str]":
                return subprocess.run([sys.executable, "-m", "itc_trace", *words], capture_output=True, text=True, env=environment, cwd=cwd, timeout=600, check=False)

            first = run(f"{folder}/py", "run", "--export", "../g", "shop.py").stderr
            system = run("/", "system", f"{folder}/shop.toml").stderr
            self.assert_found_below(folder, run(folder, "system", "--json", "j", "--sarif", "s.sarif", "--github", "shop.toml"))
            self.assertIn('    write at shop.py:4 in sell:  stock["left"] -= 1\n', system)
            self.assertIn("    threads storekeeper_sell_1 and storekeeper_sell_2: nothing orders them", system)
            for name in ("g", "s"):
                for end in ("", ".journal"):
                    shutil.move(f"{folder}/{name}{end}", away)
                listed = run(away, "races", name)
                self.assertEqual((listed.returncode, listed.stderr), (66, ""))
                self.assertEqual(listed.stdout, first if name == "g" else system)
                found_at = "shop.py" if name == "g" else "py/shop.py"
                self.assertIn(f"::error file={found_at},line=4,", run(away, "races", "--github", name).stdout)
            Path(away, "shop.py").write_text("\n" * 9)
            self.assertIn('  stock["left"] -= 1\n', run(away, "races", "g").stdout)


if __name__ == "__main__":
    unittest.main()
