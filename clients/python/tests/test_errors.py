"""What keeps a command from its work is told in one line, which says what to do."""

from __future__ import annotations

import io
import json
import socket
import subprocess
import sys
import tempfile
import unittest
import unittest.mock
from pathlib import Path

from itc_trace import Collector, Session, Verdict, touch, tracing
from itc_trace.record import faults
from itc_trace.record.collector import find_program
from itc_trace.record.journal import NoJournal, read_whole
from itc_trace.model.verdict import BREAKS_OFF, END_ROW, Cause, Unseen, end_row

from .support import PACKAGE, ProgramCase, kept_port, run_python, run_traced

TOUCHING = "import itc_trace\nitc_trace.touch('x', write=True)\nprint('ran')\n"
CRASHING = "import itc_trace\nraise ValueError('its own')\n"
ROW = '{"event":1,"task":"root","thing":"x","kind":"write","file":"a.py","line":1,"label":"write x"}\n'
EXPORTED = '{"event":1,"kind":"local","name":"-","preds":[],"stamp":"(1;1)","task":"root"}\n'


class Errors(ProgramCase):
    def assert_told(self, ran: "subprocess.CompletedProcess[str]", *words: str, status: int = 2) -> None:
        self.assertEqual((ran.returncode, ran.stdout), (status, ""), ran.stderr)
        self.assertRegex(ran.stderr, r"\Aitc_trace: [^\n]*\n\Z")
        for word in words:
            self.assertIn(word, ran.stderr)

    def test_a_missing_program(self) -> None:
        self.assert_told(run_traced("no_such.py"), "there is no program no_such.py")

    def test_a_missing_module(self) -> None:
        self.assert_told(run_traced("-m", "no_such"), "there is no module no_such")
        self.assert_told(run_traced("-m", "json.no_such"), "there is no module json.no_such")

    def test_a_program_that_is_none(self) -> None:
        self.assert_told(run_traced(self.program("x = 1\ndef f(:\n")), "program.py cannot be run", "at line 2")
        self.assert_told(run_traced(self.program("x = '\0'\n")), "program.py cannot be run: source code string cannot contain null bytes: mend it first")

    def test_a_folder_or_an_archive_without_a_program_in_it(self) -> None:
        with tempfile.TemporaryDirectory() as folder:
            self.assert_told(run_traced(folder), f"there is no __main__ in {folder} to run")

    def test_no_program_at_all(self) -> None:
        self.assert_told(run_traced(), "run wants a program")

    def test_files_that_cannot_be_written(self) -> None:
        program = self.program(TOUCHING)
        self.assert_told(run_traced("--journal", "/dev/null", program), "/dev/null cannot be written: it is no regular file")
        for option in ("--export", "--journal", "--picture"):
            self.assert_told(run_traced(option, "/no_such_folder/file", program), "/no_such_folder/file cannot be written")

    def test_a_port_where_nobody_listens(self) -> None:
        port = str(self.enterContext(kept_port()))
        with tempfile.NamedTemporaryFile("w") as journal:
            journal.write(ROW)
            for words in (("run", "--port", port, self.program(TOUCHING)), ("races", "--port", port, "trace", journal.name),
                          ("snapshot", "--port", port, "trace"), ("relay", "--listen", "0", "--port", port)):
                self.assert_told(run_python("-m", "itc_trace", *words), f"nobody listens at port {port}", "itc-trace serve")

    def test_a_tenant_that_is_none(self) -> None:
        with Collector("shop") as collector:
            ran = run_traced("--port", str(collector.port), "--tenant", "store", self.program(TOUCHING))
        self.assert_told(ran, "420 no tenant", "--tenant")

    def test_a_tenant_that_another_program_reports_to(self) -> None:
        with Collector("trace") as collector, Session("trace", collector.port):
            ran = run_traced("--port", str(collector.port), self.program(TOUCHING))
        self.assert_told(ran, "421 desk taken", f"itc_trace relay --listen PORT --port {collector.port}")

    def test_names_that_another_run_has_taken(self) -> None:
        """As where two runs without `--process` begin at the same time behind a relay."""
        with Collector("trace") as collector, tempfile.TemporaryDirectory() as folder:
            journal = Path(folder, "journal")
            said = subprocess.run(
                [sys.executable, "-c", TAKING, str(collector.port), str(journal)], capture_output=True, text=True, check=False,
                env={"PYTHONPATH": str(PACKAGE), "ITC_TRACE": find_program()},
            )
        self.assertIn("402 task exists", said.stderr)
        self.assertIn("--tenant", said.stderr)
        self.assertIn("fresh server", said.stderr)
        self.assertEqual(said.returncode, Verdict.INCOMPLETE, said.stderr)

    def test_a_trace_that_earlier_runs_have_filled(self) -> None:
        with tempfile.TemporaryDirectory() as folder, Collector("trace") as collector:
            with Session("trace", collector.port) as session:
                for _ in range(16384):
                    session.request("local root")
            ran = run_traced("--port", str(collector.port), "--journal", str(Path(folder, "j")), self.program(TOUCHING))
        self.assert_told(ran, "413 events full", "--tenant", "fresh server")

    def test_a_journal_that_is_none(self) -> None:
        with Collector("trace") as collector, tempfile.TemporaryDirectory() as folder:
            for name, text in (("program", TOUCHING), ("export", EXPORTED), ("list", "[1]\n"), ("words", "a journal\n")):
                path = Path(folder, name)
                path.write_text(text)
                ran = run_python("-m", "itc_trace", "races", "--port", str(collector.port), "trace", str(path))
                self.assert_told(ran, f"{path} is no journal", "--journal")

    def test_a_journal_of_another_trace(self) -> None:
        with Collector("trace") as collector, tempfile.TemporaryDirectory() as folder:
            path = Path(folder, "journal")
            path.write_text(ROW + END_ROW)
            ran = run_python("-m", "itc_trace", "races", "--port", str(collector.port), "trace", str(path))
        self.assert_told(ran, "the journal is of another trace")

    def test_a_missing_journal(self) -> None:
        with Collector("trace") as collector:
            ran = run_python("-m", "itc_trace", "races", "--port", str(collector.port), "trace", "/no_such")
        self.assert_told(ran, "/no_such")

    def test_a_port_that_is_taken(self) -> None:
        with Collector("trace") as collector:
            port = str(collector.port)
            self.assert_told(run_python("-m", "itc_trace", "relay", "--listen", port, "--port", port), f"port {port}", "--listen")

    def test_no_program_of_the_collector(self) -> None:
        program = self.program(TOUCHING)
        self.assert_told(run_traced(program, ITC_TRACE="/no_such"), "/no_such", "ITC_TRACE")
        self.assert_told(run_traced(program, ITC_TRACE="/bin/true"), "/bin/true", "ITC_TRACE")

    def test_nothing_touched_is_told_only_of_a_program_that_ran_to_its_end(self) -> None:
        for text, is_told in (("pass", True), (CRASHING, False), ("import os; os.abort()", False), ("import sys; sys.exit(3)", True)):
            with self.subTest(text=text):
                ran = run_traced("--watch-nothing", self.program(text))
                self.assertEqual("nothing was touched" in ran.stderr, is_told, ran.stderr)

    def test_numbers_that_are_none(self) -> None:
        for words in (("--runs", "0"), ("--runs", "many"), ("--shake=-1",), ("--shake=x",)):
            ran = run_traced(*words, self.program(TOUCHING))
            self.assertEqual((ran.returncode, ran.stdout), (2, ""))
            self.assertIn("is no number from", ran.stderr)


TAKING = """
import sys, threading, itc_trace
from itc_trace.processes.relay import Relay
relay = Relay(0, int(sys.argv[1]))
threading.Thread(target=relay.serve, daemon=True).start()
with itc_trace.tracing(port=relay.port, journal=sys.argv[2]) as traced:
    with itc_trace.Session("trace", relay.port) as other:
        other.request("spawn root work")
    thread = threading.Thread(target=lambda: itc_trace.touch("x"), name="work")
    thread.start()
    thread.join()
sys.exit(traced.races().verdict())
"""
WITHOUT_ROOM = """
import resource, time, itc_trace
resource.setrlimit(resource.RLIMIT_FSIZE, (0, resource.getrlimit(resource.RLIMIT_FSIZE)[1]))
itc_trace.touch("x", write=True)
print("ran")
"""


class Journals(unittest.TestCase):
    """A journal that does not say that all was reported is no all-clear."""

    def causes(self, *lines: str) -> list[Cause]:
        return [one.cause for one in read_whole(lines).unseen]

    def test_a_journal_with_its_end_is_whole(self) -> None:
        self.assertEqual(self.causes(ROW, END_ROW), [])
        self.assertEqual(self.causes(END_ROW), [])

    def test_a_journal_without_its_end_breaks_off(self) -> None:
        for lines in ([], [ROW], [ROW, ROW[:20]], [ROW, END_ROW[:5]], [ROW[:20]]):
            self.assertEqual(read_whole(lines).unseen, [BREAKS_OFF], lines)

    def test_a_journal_that_is_cut_anywhere_is_no_all_clear(self) -> None:
        told = Unseen(Cause.CHILD, "a child").row() + Unseen(Cause.MODULE, "a module").row()
        for text in (ROW * 2 + END_ROW, ROW + told + ROW + END_ROW):
            for length in range(len(text)):
                lines = text[:length].splitlines(keepends=True)
                self.assertTrue(self.may_break_off(lines), lines)
            self.assertFalse(self.may_break_off(text.splitlines(keepends=True)))

    def may_break_off(self, lines: list[str]) -> bool:
        try:
            return BREAKS_OFF in read_whole(lines).unseen
        except NoJournal:
            return True

    def test_a_journal_that_lost_any_of_its_lines_is_no_all_clear(self) -> None:
        lines = [ROW, ROW.replace('"event":1', '"event":2'), Unseen(Cause.MODULE, "a module").row()]
        end = end_row(len(lines))
        self.assertEqual(self.causes(*lines, end), [Cause.MODULE])
        for number in range(len(lines)):
            left = lines[:number] + lines[number + 1:]
            self.assertIn(Cause.JOURNAL, self.causes(*left, end), left)
        self.assertEqual(self.causes(end), [Cause.JOURNAL])

    def test_lines_that_nobody_wrote_are_no_all_clear(self) -> None:
        self.assertEqual(self.causes(ROW, ROW, end_row(1)), [Cause.JOURNAL])

    def test_what_a_child_process_adds_is_no_line_too_many(self) -> None:
        self.assertEqual(self.causes(ROW, Unseen(Cause.CHILD, "a child").row(), end_row(1)), [Cause.CHILD])

    def test_what_was_not_seen_is_told_wherever_it_stands(self) -> None:
        full = Unseen(Cause.FULL, "the trace is full").row()
        self.assertEqual(self.causes(ROW, full, ROW, END_ROW), [Cause.FULL])
        self.assertEqual(self.causes(ROW, END_ROW, full), [Cause.FULL])

    def test_a_line_that_is_none_is_told(self) -> None:
        for line in ("?\n", "{}\n", '{"unseen":"nothing","text":""}\n', '{"event":2}\n', "[]\n", "7\n"):
            self.assertEqual(self.causes(ROW, line, END_ROW), [Cause.JOURNAL], line)
            self.assertRaises(NoJournal, read_whole, [line, END_ROW])

    def test_races_says_which_journal_breaks_off(self) -> None:
        with Collector("trace") as collector, tempfile.TemporaryDirectory() as folder:
            with Session("trace", collector.port) as session:
                session.local("root")
            whole, broken = Path(folder, "whole"), Path(folder, "broken")
            whole.write_text(ROW + end_row(1))
            broken.write_text(ROW)
            ran = run_python("-m", "itc_trace", "races", "--port", str(collector.port), "trace", str(broken), str(whole))
            self.assertEqual(ran.returncode, Verdict.INCOMPLETE, ran.stderr)
            self.assertTrue(ran.stdout.startswith(f"itc_trace: incomplete: {broken} breaks off"), ran.stdout)
            broken.write_text(end_row(1))
            ran = run_python("-m", "itc_trace", "races", "--port", str(collector.port), "trace", str(whole), str(broken))
            self.assertEqual(ran.returncode, Verdict.INCOMPLETE, ran.stderr)
            self.assertTrue(ran.stdout.startswith(f"itc_trace: incomplete: {broken} has 0 lines where 1 were written"), ran.stdout)
            ran = run_python("-m", "itc_trace", "races", "--port", str(collector.port), "trace", str(whole))
            self.assertEqual(ran.returncode, Verdict.NO_RACE, ran.stdout)

    def test_a_journal_that_cannot_be_written_is_no_all_clear(self) -> None:
        with tempfile.NamedTemporaryFile("w", suffix=".py") as program:
            program.write(WITHOUT_ROOM)
            program.flush()
            ran = run_traced(program.name)
        self.assertEqual((ran.returncode, ran.stdout), (Verdict.INCOMPLETE, "ran\n"), ran.stderr)
        self.assertIn("tracing stops: the journal cannot be written: File too large", ran.stderr)


class Waiting(unittest.TestCase):
    def test_a_collector_without_room_is_waited_for_with_a_word(self) -> None:
        said = io.StringIO()
        silent = unittest.mock.patch.multiple(faults, SILENT_SECONDS=0.05, LONGEST_ANSWER=1.0)
        with socket.create_server(("127.0.0.1", 0)) as door, silent, unittest.mock.patch.object(sys, "__stderr__", said):
            port = door.getsockname()[1]
            with self.assertRaisesRegex(faults.Fault, f"port {port} of 127.0.0.1 does not answer: all its sessions may be taken"):
                faults.look("trace", port)
        self.assertEqual(said.getvalue(), f"itc_trace: {faults.WAITS.format(port=port)}\n")

    def test_one_that_answers_at_once_is_not_told_of(self) -> None:
        said = io.StringIO()
        with Collector("trace") as collector, unittest.mock.patch.object(sys, "__stderr__", said):
            faults.look("trace", collector.port)
        self.assertEqual(said.getvalue(), "")


class OwnTracing(unittest.TestCase):
    def test_tracing_has_the_same_answers(self) -> None:
        with tracing() as traced:
            touch("x", write=True)
        self.assertIs(traced.races().verdict(), Verdict.NO_RACE)

    def test_a_collector_that_is_gone_is_no_all_clear(self) -> None:
        with Collector("trace") as collector, tempfile.TemporaryDirectory() as folder:
            journal = Path(folder, "journal")
            traced = tracing(port=collector.port, journal=journal).start()
            touch("x", write=True)
            collector.close()
            traced.stop()
            self.assertIs(traced.races().verdict(), Verdict.INCOMPLETE)
            self.assertEqual([json.loads(line)["unseen"] for line in journal.read_text().splitlines() if "unseen" in line], ["collector"])


if __name__ == "__main__":
    unittest.main()
