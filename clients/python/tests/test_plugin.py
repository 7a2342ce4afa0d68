"""The plugin of pytest."""

from __future__ import annotations

import json
import os
import re
import subprocess
import tempfile
import unittest
from pathlib import Path
from typing import NamedTuple

from .support import PACKAGE, needs, python_with

TESTS = '''
import os, threading
from threading import Lock
import pytest, itc_trace

lock = Lock()

def run(work):
    threads = [threading.Thread(target=work) for _ in range(2)]
    for thread in threads: thread.start()
    for thread in threads: thread.join()

def with_lock():
    with lock:
        itc_trace.touch("stock", write=True)

@pytest.mark.races
def test_racing():
    run(lambda: itc_trace.touch("stock", write=True))

@pytest.mark.races
def test_locked():
    run(with_lock)

@pytest.mark.races
def test_failing():
    run(lambda: itc_trace.touch("stock", write=True))
    assert False, "its own reason"

def test_unmarked():
    run(lambda: itc_trace.touch("stock", write=True))

@pytest.mark.races
def test_forking():
    child = os.fork()
    if child == 0:
        itc_trace.touch("stock", write=True)
        os._exit(0)
    os.waitpid(child, 0)

@pytest.mark.races
def test_lucky():
    end, beginning = os.pipe()
    def first():
        itc_trace.touch("stock", write=True)
        with lock:
            pass
        os.write(beginning, b"1")
    def second():
        os.read(end, 1)
        with lock:
            pass
        itc_trace.touch("stock", write=True)
    threads = [threading.Thread(target=work) for work in (first, second)]
    for thread in threads: thread.start()
    for thread in threads: thread.join()
'''


KINDS = '''
# Some words before the first statement.

import asyncio, threading, unittest
import pytest

def run(work):
    threads = [threading.Thread(target=work) for _ in range(2)]
    for thread in threads: thread.start()
    for thread in threads: thread.join()

class Shop:
    stock = 2
    def sell(self):
        self.stock -= 1

async def race():
    shop = Shop()
    async def sell():
        left = shop.stock
        await asyncio.sleep(0)
        shop.stock = left - 1
    await asyncio.gather(sell(), sell())

def racing_by_its_function():
    """
    >>> run(Shop().sell)
    """

def racing_by_its_lines():
    """
    >>> sold = 0
    >>> def sell():
    ...     global sold
    ...     sold += 1
    >>> run(sell)
    >>> sold
    2
    """

def quiet_doctest():
    """
    >>> Shop().stock
    2
    """

class Plain(unittest.TestCase):
    def test_racing_case(self): run(Shop().sell)
    def test_quiet_case(self): Shop().sell()

class WithSetUp(unittest.TestCase):
    def setUp(self): run(Shop().sell)
    def test_racing_setup(self): pass

class WithTearDown(unittest.TestCase):
    def tearDown(self): run(Shop().sell)
    def test_racing_tear_down(self): pass

class Asynchronous(unittest.IsolatedAsyncioTestCase):
    async def test_racing_asynchronous_case(self): await race()
    async def test_quiet_asynchronous_case(self): Shop().sell()

class AsynchronousWithSetUp(unittest.IsolatedAsyncioTestCase):
    async def asyncSetUp(self): await race()
    async def test_racing_asynchronous_setup(self): pass

@pytest.fixture
def early(): run(Shop().sell)

@pytest.fixture
def late():
    yield
    run(Shop().sell)

@pytest.fixture
def served():
    shop = Shop()
    thread = threading.Thread(target=shop.sell)
    thread.start()
    yield shop
    thread.join()

def test_racing_function(): run(Shop().sell)
def test_racing_fixture(early): pass
def test_racing_end_of_fixture(late): pass
def test_racing_with_a_fixture(served): served.stock
def test_quiet_function(): Shop().sell()

class TestMethods:
    def setup_method(self): run(Shop().sell)
    def test_racing_setup_method(self): pass

@pytest.mark.parametrize("number", (1, 2))
def test_racing_parameter(number): run(Shop().sell)
'''
MARKED = "\npytestmark = pytest.mark.races\n"
ASYNCIO = '''
@pytest.mark.asyncio
async def test_racing_coroutine(): await race()
@pytest.mark.asyncio
async def test_quiet_coroutine(): Shop().sell()
'''
EXPECTED = '''
@pytest.mark.xfail
def test_racing_expected(): run(Shop().sell)
@pytest.mark.xfail(strict=True)
def test_racing_strictly(): run(Shop().sell)
@pytest.mark.skip
def test_racing_skipped(): run(Shop().sell)
'''
HEADS = ("", "\n", "# A licence.\n\n", '"""Words."""\n', '\n\n"""Words.\n"""\nfrom __future__ import annotations\n')
BODY = '''import pytest
@pytest.mark.races
def test_quiet():
    assert 1 == 1
@pytest.mark.races
def test_own():
    assert 1 == 2
'''
FAILING = '''
# Some words.
import pytest

class Shop:
    def __init__(self):
        self.stock = [1, 2]

@pytest.fixture
def shop():
    yield Shop()

def test_compares(shop):
    assert shop.stock == [1, 3], "its own reason"
def test_contains(shop):
    assert 7 in shop.stock and shop
def test_raises(shop):
    shop.stock[9].x = 3
def test_raises_within(shop):
    with pytest.raises(KeyError) as caught:
        {}["left"]
    assert str(caught.value) == "left"
def test_prints(shop, capsys):
    print(shop.stock)
    assert capsys.readouterr().out == "[1, 2]"
def test_late():
    import helper
    helper.check([1, 2])
'''
REWRITTEN_LATE = "import pytest\npytest.register_assert_rewrite('helper')\n"
HELPER = "# Words.\nstock = [1, 3]\ndef check(one):\n    assert one == stock\n"
WITHIN = '''
def test_quiet_within(pytester):
    pytester.makepyfile("import pytest\\n@pytest.mark.races\\ndef test_in(): pass")
    assert pytester.runpytest_inprocess("-p", "itc_trace.pytest_plugin").ret == 1
'''
LEAVES_OUT = '''
import pytest
@pytest.hookimpl(tryfirst=True)
def pytest_runtest_protocol(item, nextitem):
    from _pytest import runner
    item.ihook.pytest_runtest_logstart(nodeid=item.nodeid, location=item.location)
    for when in ("call", "teardown"):
        call = runner.CallInfo.from_call(lambda: None, when)
        report = item.ihook.pytest_runtest_makereport(item=item, call=call)
        item.ihook.pytest_runtest_logreport(report=report)
    return True
'''


FIXTURES = """
import asyncio, concurrent.futures, queue, threading
import pytest
pytestmark = pytest.mark.races

class Shop:
    left = 0
    def sell(self):
        self.left += 1

@pytest.fixture(scope="session")
def shop():
    return Shop()

@pytest.fixture(scope="session")
def pool():
    with concurrent.futures.ThreadPoolExecutor(2) as pool:
        yield pool

@pytest.fixture(scope="session")
def items(shop):
    def work():
        while items.get() is not None:
            shop.sell()
            items.task_done()
    items = queue.Queue()
    thread = threading.Thread(target=work)
    thread.start()
    yield items
    items.put(None)
    thread.join()
    shop.sell()

@pytest.fixture(scope="session")
def loop(shop):
    ticks = []
    async def tick():
        while True:
            ticks.append(1)
            await asyncio.sleep(0.001)
    async def begin():
        return asyncio.ensure_future(tick())
    loop = asyncio.new_event_loop()
    task = loop.run_until_complete(begin())
    yield loop
    task.cancel()
    loop.run_until_complete(asyncio.gather(task, return_exceptions=True))
    loop.close()

@pytest.mark.parametrize("number", range(3))
def test_quiet_worker(items, shop, number):
    items.put(1)
    items.join()
    shop.sell()

@pytest.mark.parametrize("number", range(3))
def test_quiet_pool(pool, shop, items, number):
    pool.submit(shop.sell).result()
    shop.sell()

@pytest.mark.parametrize("number", range(3))
def test_quiet_loop(loop, shop, items, number):
    async def main():
        shop.sell()
        await asyncio.sleep(0.01)
    shop.sell()
    loop.run_until_complete(main())
    shop.sell()

def test_racing_pool(pool, shop):
    for job in [pool.submit(shop.sell), pool.submit(shop.sell)]:
        job.result()

def test_racing_worker(items, shop):
    items.put(1)
    shop.sell()
    items.join()
"""
"""What goes on from test to test: a thread, a pool, and a task of a loop."""

PYTHON = python_with("pytest")
NEEDS_PYTEST = needs("python3-pytest", "pytest")
WITHOUT_CACHE = "-p", "no:cacheprovider"
VERDICT = re.compile(r"^(?:\[gw\d+\] \[ *\d+%\] (?P<before>[A-Z]+) )?\S*::(?P<name>[\w.\[\]]+)(?: (?P<behind>[A-Z]+))?", re.MULTILINE)


class Suite(NamedTuple):
    """What became of the tests of a folder."""

    said: str
    verdicts: dict[str, str]
    """By the last part of the name of each test."""


def suite(*words: str, before: tuple[str, ...] = (), variables: dict[str, str] | None = None, **files: str) -> Suite:
    """Runs pytest on files of these names, with the plugin at hand."""
    assert PYTHON is not None
    with tempfile.TemporaryDirectory() as folder:
        for name, text in files.items():
            Path(folder, f"{name}.py").write_text(text)
        words = (PYTHON, *before, "-m", "pytest", "-p", "itc_trace.pytest_plugin", "-v", "--strict-markers", *words)
        paths = os.pathsep.join(path for path in (str(PACKAGE), os.environ.get("PYTHONPATH")) if path)
        environment = {**os.environ, "PYTHONPATH": paths, **(variables or {})}
        ran = subprocess.run(words, cwd=folder, env=environment, capture_output=True, text=True, timeout=1500, check=False)
    found = VERDICT.finditer(re.split(" FAILURES | ERRORS ", ran.stdout)[0])
    verdicts = {one["name"]: one["before"] or one["behind"] for one in found if one["before"] or one["behind"]}
    return Suite(ran.stdout + ran.stderr, verdicts)


@NEEDS_PYTEST
class Plugin(unittest.TestCase):
    def run_tests(self, *words: str) -> str:
        assert PYTHON is not None
        with tempfile.TemporaryDirectory() as folder:
            Path(folder, "test_shop.py").write_text(TESTS)
            words = (PYTHON, "-m", "pytest", "-p", "itc_trace.pytest_plugin", "-p", "no:cacheprovider", "-v", "--strict-markers", *words)
            paths = os.pathsep.join(path for path in (str(PACKAGE), os.environ.get("PYTHONPATH")) if path)
            environment = {**os.environ, "PYTHONPATH": paths}
            ran = subprocess.run(words, cwd=folder, env=environment, capture_output=True, text=True, timeout=1500, check=False)
        return ran.stdout + ran.stderr

    def assert_verdicts(self, said: str, **verdicts: str) -> None:
        for name, verdict in verdicts.items():
            self.assertIn(f"test_{name} {verdict}", said)

    def test_marked_tests_fail_where_their_run_has_a_race(self) -> None:
        said = self.run_tests()
        self.assert_verdicts(said, racing="FAILED", locked="PASSED", failing="FAILED", unmarked="PASSED", lucky="PASSED")
        self.assertIn("itc_trace: race on stock", said)
        self.assertIn("its own reason", said)

    def test_a_marked_test_that_was_not_seen_whole_fails(self) -> None:
        said = self.run_tests("-k", "forking")
        self.assert_verdicts(said, forking="FAILED")
        self.assertIn("incomplete: a child process was not traced, and touched stock at", said)

    def test_a_marked_test_fails_for_a_possible_race_if_it_is_to(self) -> None:
        self.assert_verdicts(self.run_tests("-k", "lucky or locked", "--races-fail-on", "possible"), lucky="FAILED", locked="PASSED")


HANGING = """
import pytest, threading, time
one, other = threading.Lock(), threading.Lock()
def forth():
    with one:
        time.sleep(0.3)
        with other:  # forth
            pass
def back():
    with other:
        time.sleep(0.3)
        with one:  # back
            pass
@pytest.mark.races
def test_hanging():
    threads = [threading.Thread(target=work) for work in (forth, back)]
    for thread in threads: thread.start()
    for thread in threads: thread.join()  # joins
@pytest.mark.races
def test_short():
    time.sleep(0.1)
def test_unmarked():
    time.sleep(2.2)
"""

CLOSED = """
import threading, time
def holding(held, wanted, meeting):
    with held:  # holds
        meeting.wait()
        with wanted:  # wants
            pass
def joining(others, meeting):
    meeting.wait()
    others[0].join()
def left(*works):
    threads = [threading.Thread(target=work, args=words, daemon=True) for work, *words in works]
    for thread in threads: thread.start()
    return threads
def joined(threads):
    for thread in threads: thread.join(0.5)
def test_locks_closed():
    one_lock = threading.Lock()
    other_lock = threading.Lock()
    meeting = threading.Barrier(3)
    threads = left((holding, one_lock, other_lock, meeting), (holding, other_lock, one_lock, meeting))
    meeting.wait()
    joined(threads)
def test_joins_closed():
    first, second, meeting = [], [], threading.Barrier(3)
    threads = left((joining, second, meeting), (joining, first, meeting))
    first.append(threads[0])
    second.append(threads[1])
    meeting.wait()
    joined(threads)
def test_waiting():
    one_lock, meeting = threading.Lock(), threading.Barrier(1)
    with one_lock:
        joined(left(*[(holding, one_lock, threading.Lock(), meeting)] * 2))
def test_still_waiting():
    one_lock = threading.Lock()
    one_lock.acquire()
    threads = left((holding, one_lock, threading.Lock(), threading.Barrier(1)))
    joined(threads)
    threading.Timer(0.5, one_lock.release).start()
def test_after():
    joined(left((time.sleep, 0)))
"""
"""Two tests leave daemon threads in a cycle. The others do not, though some leave threads that wait."""


@NEEDS_PYTEST
class Hanging(unittest.TestCase):
    def test_a_cycle_that_has_closed_as_the_test_ends_is_a_deadlock(self) -> None:
        with tempfile.TemporaryDirectory() as folder:
            files = [str(Path(folder, name)) for name in ("found.json", "found.sarif", "found.xml")]
            formats = [option + file for option, file in zip(("--races-json=", "--races-sarif=", "--junitxml="), files)]
            ran = suite(*WITHOUT_CACHE, "--races", *formats, test_closed=CLOSED)
            told = [Path(file).read_text() for file in files]
        self.assertEqual(ran.verdicts, {
            "test_locks_closed": "FAILED", "test_joins_closed": "FAILED", "test_waiting": "PASSED",
            "test_still_waiting": "PASSED", "test_after": "PASSED",
        }, ran.said)
        self.assertEqual(ran.said.count("itc_trace: deadlock on one_lock and other_lock"), 2, ran.said)
        for holds, wants in (("one_lock", "other_lock"), ("other_lock", "one_lock")):
            self.assertRegex(ran.said, rf"holding_[12] holds {holds} +at .*test_closed.py:4 in holding:  with held:  # holds\n")
            self.assertRegex(ran.said, rf"holding_[12] wants {wants} +at .*test_closed.py:6 in holding:  with wanted:  # wants\n")
        self.assertIn("itc_trace: no race in 5 tests; 2 deadlocks\n", ran.said)
        self.assertEqual([one["kind"] for one in json.loads(told[0])["findings"]], ["deadlock"] * 2)
        self.assertEqual([one["ruleId"] for one in json.loads(told[1])["runs"][0]["results"]], ["deadlock"] * 2)
        self.assertEqual(told[2].count('<failure message="itc_trace: deadlock on '), 2, told[2])

    def test_a_test_that_hangs_fails_by_what_its_tasks_wait_for(self) -> None:
        ran = suite(*WITHOUT_CACHE, "--races-timeout", "2", test_hanging=HANGING)
        self.assertEqual(ran.verdicts, {"test_hanging": "FAILED", "test_short": "PASSED", "test_unmarked": "PASSED"})
        self.assertIn("the test was ended after 2 s, with 3 tasks:\n", ran.said)
        self.assertRegex(ran.said, r"root waits for the end of thread forth_1 for \d.* s at .*:  .*# joins\n")
        self.assertRegex(ran.said, r"forth_1 waits for lock .* for \d.* s at .*:  with other:  # forth\n")
        self.assertRegex(ran.said, r"a cycle: (forth_1 waits for back_1, back|back_1 waits for forth_1, forth)_1 waits")
        self.assertIn("itc_trace: deadlock on ", ran.said)
        self.assertIn("itc_trace: threads of tests that were ended are left behind\n", ran.said)

    def test_what_is_no_time_is_refused(self) -> None:
        for word in ("0", "-1", "nan", "inf", "soon"):
            self.assertRegex(suite(*WITHOUT_CACHE, f"--races-timeout={word}", test_hanging=HANGING).said, "error: .*--races-timeout")


@NEEDS_PYTEST
class Kinds(unittest.TestCase):
    """What pytest runs is traced, whatever kind of test it is."""

    def assert_all_told(self, least: int, text: str, *words: str) -> Suite:
        ran = suite("--doctest-modules", *words, test_kinds=text)
        self.assertGreaterEqual(len(ran.verdicts), least, ran.said)
        wrong = {name: verdict for name, verdict in ran.verdicts.items() if verdict != ("FAILED" if "racing" in name else "PASSED")}
        self.assertFalse(wrong, ran.said)
        return ran

    def test_each_kind_of_test_and_its_fixtures_are_traced(self) -> None:
        self.assert_all_told(18, KINDS, "--races", *WITHOUT_CACHE)

    def test_a_race_in_any_kind_of_test_or_fixture_fails_the_test(self) -> None:
        ran = suite(*WITHOUT_CACHE, test_kinds=Path(__file__).with_name("kinds_of_tests.py").read_text())
        self.assertEqual((set(ran.verdicts.values()), len(ran.verdicts)), ({"FAILED"}, 28), ran.said)
        self.assertEqual(ran.said.count("not traced"), 0, ran.said)
        self.assertGreaterEqual(ran.said.count("itc_trace: race on"), 28, ran.said)

    def test_each_kind_is_traced_with_the_cache_and_without_assertions_rewritten(self) -> None:
        self.assert_all_told(18, KINDS, "--races", "--assert=plain")

    def test_what_fixtures_keep_from_test_to_test_is_traced_in_each(self) -> None:
        self.assert_all_told(11, FIXTURES, *WITHOUT_CACHE)

    def test_a_mark_of_the_module_counts_for_each_kind(self) -> None:
        self.assert_all_told(18, KINDS + MARKED, *WITHOUT_CACHE)

    @needs("python3-pytest-xdist", "pytest", "xdist")
    def test_each_kind_is_traced_in_the_processes_of_xdist(self) -> None:
        self.assert_all_told(18, KINDS, "--races", "-n", "4")

    @needs("python3-pytest-asyncio", "pytest", "pytest_asyncio")
    def test_coroutines_are_traced_with_the_plugin_of_asyncio(self) -> None:
        self.assert_all_told(20, KINDS + ASYNCIO, "--races", *WITHOUT_CACHE)

    @needs("python3-pytest-cov", "pytest", "pytest_cov")
    def test_all_is_traced_and_covered_as_ever_beside_the_plugin_that_measures_coverage(self) -> None:
        measured = *WITHOUT_CACHE, "--cov=.", "--cov-report=term-missing"
        traced = self.assert_all_told(18, KINDS, "--races", *measured)
        plain = suite("--doctest-modules", *measured, test_kinds=KINDS)
        covered = [re.findall(r"^test_kinds.py +\d.*$", one.said, re.MULTILINE) for one in (traced, plain)]
        self.assertTrue(covered[1], plain.said)
        self.assertEqual(*covered)

    def test_a_file_may_begin_with_anything_before_its_first_statement(self) -> None:
        for head in HEADS:
            with self.subTest(head=head):
                ran = suite(*WITHOUT_CACHE, test_shop=head + BODY)
                self.assertEqual(ran.verdicts, {"test_quiet": "PASSED", "test_own": "FAILED"}, ran.said)
                self.assertNotIn("itc_trace: incomplete", ran.said)


@NEEDS_PYTEST
class Shown(unittest.TestCase):
    """What a test shows is as untraced."""

    def test_a_test_that_fails_shows_the_same_traced(self) -> None:
        shown = []
        for words in ((), ("--races",)):
            ran = suite(*WITHOUT_CACHE, "--no-header", *words, test_shop=FAILING, conftest=REWRITTEN_LATE, helper=HELPER)
            shown.append(re.sub(r"0x[0-9a-f]+|in [0-9.]+s|={5,}|/tmp/\w+", "", ran.said))
        shown[1] = shown[1].replace(" races \nitc_trace: no race in 6 tests\n", "")  # The plugin's own section, behind all others.
        self.assertEqual(*shown)
        self.assertIn("At index 1 diff: 2 != 3", shown[0])

    def test_a_module_that_a_test_imports_is_watched_where_pytest_gives_it_assertions(self) -> None:
        helper = KINDS.partition("async def")[0] + "\ndef later(): run(Shop().sell)\n"
        text = "def test_racing():\n    import helper\n    helper.later()\n"
        ran = suite(*WITHOUT_CACHE, "--races", conftest=REWRITTEN_LATE, helper=helper, test_shop=text)
        self.assertIn("itc_trace: race on Shop.stock", ran.said)
        self.assertNotIn("incomplete", ran.said)

    def test_a_run_of_pytest_within_a_test_leaves_the_collector_to_the_outer_one(self) -> None:
        ran = suite("-p", "pytester", *WITHOUT_CACHE, "--races", test_shop=WITHIN)
        self.assertEqual(ran.verdicts, {"test_quiet_within": "PASSED"}, ran.said)

    def test_a_test_that_is_to_fail_does_so_by_its_race(self) -> None:
        ran = suite(*WITHOUT_CACHE, "--races", test_kinds=KINDS + EXPECTED)
        told = [ran.verdicts[f"test_racing_{name}"] for name in ("expected", "strictly", "skipped")]
        self.assertEqual(told, ["XFAIL", "XFAIL", "SKIPPED"], ran.said)


@NEEDS_PYTEST
class Untraced(unittest.TestCase):
    """A marked test that was not traced fails, and says so."""

    def assert_told(self, ran: Suite, why: str) -> None:
        self.assertEqual(set(ran.verdicts.values()), {"FAILED"}, ran.said)
        self.assertIn(f"itc_trace: the test was not traced{why}", ran.said)

    def test_a_marked_test_fails_if_no_collector_can_be_started(self) -> None:
        ran = suite(*WITHOUT_CACHE, "--races", "-k", "quiet", variables={"ITC_TRACE": "/nowhere"}, test_kinds=KINDS)
        self.assert_told(ran, ": ITC_TRACE names /nowhere")

    def test_a_marked_test_fails_if_the_process_is_traced_already(self) -> None:
        ran = suite(*WITHOUT_CACHE, "--races", "-k", "quiet", before=("-m", "itc_trace", "run"), test_kinds=KINDS)
        self.assert_told(ran, ": this process is being traced already")

    def test_a_marked_test_fails_if_another_plugin_leaves_out_what_the_plugin_hooks(self) -> None:
        ran = suite(*WITHOUT_CACHE, "--races", "-k", "quiet", conftest=LEAVES_OUT, test_kinds=KINDS)
        self.assertIn("itc_trace: the test was not traced", ran.said)
        self.assertIn("3 errors", ran.said)


if __name__ == "__main__":
    unittest.main()
