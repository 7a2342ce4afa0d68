"""A plugin of pytest: a test that is marked `races` fails where its run has a race, or was not seen whole. With
`--races` every test does.

The traced methods are put in place before the tests are imported, and note nothing but while such a test runs, with its
fixtures. The functions of the project are watched from the end of the collection on, those of the tests with the
assertions of pytest.
"""

from __future__ import annotations

import argparse
import ast
import contextlib
import json
import math
import os
import signal
import sys
import threading
import weakref
from collections.abc import Generator, Iterator
from types import ModuleType
from typing import Any

import pytest
from _pytest.assertion.rewrite import AssertionRewritingHook, rewrite_asserts
from _pytest.runner import runtestprotocol

from . import watch
from .analyse.baseline import read_baseline, write_baseline
from .analyse.benign import Looking, read_patterns
from .cli.reporting import STANDARD_OUTPUT, Wanted, deliver
from .cli.saying import say
from .cli.settings import FILE, Settings, read_settings
from .model.finding import named
from .model.handed_over import excluding
from .model.verdict import Cause
from .processes.hanging import leave_without_those_left, limited, tell_closed_cycle
from .record.collector import Collector
from .record.faults import Fault
from .report.as_json import as_object, report_of_object
from .report.formats import FORMATS
from .report.of_tests import OfTests, not_traced, short
from .report.report import Report, report_of
from .report.text import Shown, text
from .sync import put_all
from .api.tracing import Tracing
from .watch import doctests

MARK = "races"
TIMEOUT = "--races-timeout"
FAIL_ON, RACE, POSSIBLE = "--races-fail-on", "race", "possible"
FILES = {
    "--races-baseline": "races that are known: fail on others only",
    "--races-write-baseline": "write the races that were found there, for --races-baseline",
    "--races-json": "write what was found there as JSON",
    "--races-sarif": "write it there as SARIF 2.1.0",
}
"""The options that name a file."""
PHASES = ("setup", "call", "teardown")
LOST = "the process that ran the test has ended before it told what was seen"
FOUND = "itc_trace_found"
"""The attribute of a test's report by which what was found comes from the process of a worker.

It is JSON in ASCII, as a name of a file may be no text in UTF-8.
"""
SHOWN = Shown(how="-v shows them at the end")
TENANTS = tuple(f"test{number}" for number in range(16))

_tenants: Any = pytest.StashKey["_Tenants"]()
_modules: Any = pytest.StashKey[set[str]]()
"""The modules that were there as functions were looked through."""
_marked: Any = pytest.StashKey[bool]()
_traced: Any = pytest.StashKey["_Traced"]()
_report: Any = pytest.StashKey[pytest.TestReport | None]()
_asked: Any = pytest.StashKey["_Asked"]()
_met: Any = pytest.StashKey[OfTests]()
_logged: weakref.WeakSet[pytest.TestReport] = weakref.WeakSet()
"""The reports that were shown already. Nothing can be added to them."""


class _Tenants:
    """Gives each test a tenant of its own; a collector has sixteen."""

    def __init__(self) -> None:
        self._collector: Collector | None = None
        self._free: list[str] = []

    def next(self) -> tuple[int, str]:
        if self._collector is None or not self._free:
            self.close()
            self._collector, self._free = Collector(*TENANTS), list(TENANTS)
        return self._collector.port, self._free.pop()

    def close(self) -> None:
        if self._collector is not None:
            self._collector.close()
            self._collector = None


class _Asked:
    """What is asked for by options, and else by the settings of the project."""

    def __init__(self, config: pytest.Config) -> None:
        settings = read_settings(config.rootpath / FILE) if (config.rootpath / FILE).is_file() else Settings()
        self.watch = [*(config.getoption("--races-watch") or settings.watch), *map(excluding, settings.exclude)]
        self.fails_on_possible = (config.getoption(FAIL_ON) or settings.fail_on) == POSSIBLE
        files = config.getoption("--races-benign") or settings.benign
        self._patterns = [pattern for file in files for pattern in read_patterns(file)]
        self.new_baseline: str | None = config.getoption("--races-write-baseline")
        baseline = config.getoption("--races-baseline") or settings.baseline
        is_first = self.new_baseline is not None and not os.path.exists(baseline or "")
        self.baseline = [] if baseline is None or is_first else read_baseline(baseline)
        typed = {name: config.getoption(f"--races-{name}") for name in ("json", "sarif")}
        typed["github"] = STANDARD_OUTPUT if config.getoption("--races-github") else None
        self.formats = {name: file for name, file in typed.items() if file is not None} or settings.formats

    def looking(self) -> Looking:
        """How the races of one test are looked for."""
        return Looking(patterns=self._patterns, baseline=self.baseline)


class _Traced:
    """The run of one test, from the setup of its fixtures to their end."""

    def __init__(self, config: pytest.Config) -> None:
        self._fails_on_possible = config.stash[_asked].fails_on_possible
        self._tracing: Tracing | None = None
        self.report: Report | None = None
        self.found: str | None = None
        """Why the test fails, if it does."""
        try:
            port, tenant = config.stash[_tenants].next()
            self._tracing = Tracing(port, tenant, looking=config.stash[_asked].looking()).start()
        except Exception as fault:  # No collector, say, or the process is traced already.
            self._miss(f"the test was not traced: {fault}")

    def _miss(self, why: str) -> None:
        self.found, self.report = f"itc_trace: {why}", not_traced(why)

    def end(self) -> None:
        traced, self._tracing = self._tracing, None
        if traced is None:
            return
        try:
            tell_closed_cycle(traced.write)
            self.report = report_of(traced.races(), fail_on_possible=self._fails_on_possible)
            if self.report.verdict:
                self.found = text(self.report, SHOWN)
        except Exception as fault:  # The collector is gone, say.
            self._miss(f"the test was not traced to its end: {fault}")
        finally:
            traced.close()


def pytest_addoption(parser: pytest.Parser) -> None:
    group = parser.getgroup("races")
    group.addoption("--races", action="store_true", help="trace every test, and fail it where its run has a race")
    group.addoption(
        "--races-watch", metavar="PACKAGE", action="append", default=[], help="watch an installed package, too",
    )
    group.addoption("--races-watch-nothing", action="store_true", help="note only what is shared or touched by hand")
    group.addoption("--races-benign", metavar="FILE", action="append", default=[], help="races that are meant")
    group.addoption(FAIL_ON, choices=(RACE, POSSIBLE), help="fail a test where a race is possible, too")
    for option, told in FILES.items():
        group.addoption(option, metavar="FILE", help=told)
    group.addoption("--races-github", action="store_true", help="write annotations of GitHub behind the summary")
    group.addoption(
        TIMEOUT, type=_seconds, metavar="S", help="fail a traced test after S seconds, with what each task waits for",
    )


def _seconds(word: str) -> float:
    seconds = float(word)
    if not 0 < seconds < math.inf:
        raise argparse.ArgumentTypeError(f"{word!r} is no number of seconds above 0")
    return seconds


def pytest_configure(config: pytest.Config) -> None:
    config.addinivalue_line(
        "markers", f"{MARK}: trace the test, and fail it where its run has a race or was not seen whole",
    )
    try:
        config.stash[_asked] = _Asked(config)
    except Fault as fault:
        raise pytest.UsageError(f"itc_trace: {fault}") from fault
    config.stash[_met] = OfTests(config.stash[_asked].baseline)
    if not hasattr(config, "workerinput"):
        config.pluginmanager.register(_Summary(config), "itc_trace_summary")
    if not _hands_tests_on(config):
        config.stash[_tenants] = _Tenants()
        put_all()


def pytest_sessionfinish(session: pytest.Session) -> None:
    leave_without_those_left(lambda: int(session.exitstatus))


def pytest_unconfigure(config: pytest.Config) -> None:
    if _tenants in config.stash:
        config.stash[_tenants].close()


def _hands_tests_on(config: pytest.Config) -> bool:
    """Whether the tests run in other processes, as those of xdist."""
    is_distributed = config.getoption("dist", "no") != "no" and bool(config.getoption("tx", None))
    return is_distributed and not hasattr(config, "workerinput")


def _watch(config: pytest.Config) -> None:
    """Has the functions of the project noted, also those of tests that were imported meanwhile."""
    if not config.getoption("--races-watch-nothing") and config.stash.get(_modules, None) != set(sys.modules):
        watch.watch_loaded([str(config.rootpath)], config.stash[_asked].watch, _with_assertions(config))
        _let_pytest_find_first(config)
        config.stash[_modules] = set(sys.modules)


def _let_pytest_find_first(config: pytest.Config) -> None:
    """What pytest gives assertions of its own, as it is imported, gets hooks right after that."""
    hook: Any = next((one for one in sys.meta_path if isinstance(one, AssertionRewritingHook)), None)
    if hook is None:
        return
    sys.meta_path.remove(hook)
    sys.meta_path.insert(0, hook)

    def exec_module(module: ModuleType) -> None:
        __tracebackhide__ = True
        AssertionRewritingHook.exec_module(hook, module)
        _watch(config)

    hook.exec_module = exec_module


def _with_assertions(config: pytest.Config) -> watch.Prepare:
    """What pytest itself does to the tests that it imports: their assertions tell what was compared."""

    def prepare(tree: ast.Module, source: bytes, file: str) -> None:
        is_by_pytest = any(
            getattr(module, "__file__", None) == file
            and isinstance(getattr(module, "__loader__", None), AssertionRewritingHook)
            for module in list(sys.modules.values())
        )
        if is_by_pytest:
            rewrite_asserts(tree, source, file, config)
            _end_each_where_it_begins(tree)

    return prepare


def _end_each_where_it_begins(tree: ast.Module) -> None:
    """Nodes that pytest adds without an end would be given that of the module, which may be before them."""
    for node in ast.walk(tree):
        if hasattr(node, "lineno") and getattr(node, "end_lineno", None) is None:
            node.end_lineno, node.end_col_offset = node.lineno, node.col_offset


def _is_marked(item: pytest.Item) -> bool:
    """Whether the test is to be traced. It is kept, as a doctest loses the names of its module when it ends."""
    item.stash[_marked] = item.stash.get(_marked, False) or _has_mark(item)
    return bool(item.stash[_marked])


def _has_mark(item: pytest.Item) -> bool:
    """A doctest has the marks of its module."""
    if item.config.getoption("--races") or item.get_closest_marker(MARK) is not None:
        return True
    marks = getattr(getattr(item, "dtest", None), "globs", {}).get("pytestmark", [])
    return any(getattr(mark, "name", None) == MARK for mark in (marks if isinstance(marks, list) else [marks]))


def pytest_collection_finish(session: pytest.Session) -> None:
    """Watches before any fixture is set up: a generator goes on in the code with which it began."""
    if not _hands_tests_on(session.config) and any(map(_is_marked, session.items)):
        _watch(session.config)


def pytest_runtest_protocol(item: pytest.Item, nextitem: pytest.Item | None) -> bool | None:
    """Shows the reports of a traced test once its fixtures have ended, since only then its races are known."""
    if not _is_marked(item):
        return None
    item.ihook.pytest_runtest_logstart(nodeid=item.nodeid, location=item.location)
    for report in runtestprotocol(item, log=False, nextitem=nextitem):
        item.ihook.pytest_runtest_logreport(report=report)
    item.ihook.pytest_runtest_logfinish(nodeid=item.nodeid, location=item.location)
    return True


@pytest.hookimpl(hookwrapper=True, trylast=True)  # type: ignore[misc]
def pytest_runtest_setup(item: pytest.Item) -> Generator[None, Any, None]:
    if _is_marked(item):
        item.stash[_report] = None
        _watch(item.config)
        item.stash[_traced] = _Traced(item.config)
    yield


@pytest.hookimpl(hookwrapper=True, trylast=True)  # type: ignore[misc]
def pytest_runtest_call(item: pytest.Item) -> Generator[None, Any, None]:
    with _with_its_lines_watched(item), _within_its_time(item):
        yield


@contextlib.contextmanager
def _within_its_time(item: pytest.Item) -> Iterator[None]:
    """A traced test that takes longer than it may fails by what each of its tasks waits for."""
    seconds = item.config.getoption(TIMEOUT)
    is_limited = seconds is not None and _is_marked(item) and threading.current_thread() is threading.main_thread()
    if is_limited and hasattr(signal, "SIGALRM"):
        with limited(seconds, _fail_by):
            yield
    else:
        yield


def _fail_by(lines: list[str]) -> None:
    pytest.fail("\n".join(lines), pytrace=False)


@contextlib.contextmanager
def _with_its_lines_watched(item: pytest.Item) -> Iterator[None]:
    """The lines of a doctest have hooks, too, if it is traced and its file is watched."""
    doctest: Any = getattr(item, "dtest", None)
    selection = watch.selection() if doctest is not None and _is_marked(item) else None
    if selection is not None and selection.has_file(str(doctest.globs.get("__name__", "")), str(item.path)):
        with doctests.watched(doctest, selection):
            yield
    else:
        yield


@pytest.hookimpl(hookwrapper=True, trylast=True)  # type: ignore[misc]
def pytest_runtest_teardown(item: pytest.Item) -> Generator[None, Any, None]:
    yield
    traced = item.stash.get(_traced, None)
    if traced is not None:
        traced.end()


@pytest.hookimpl(hookwrapper=True, tryfirst=True)  # type: ignore[misc]
def pytest_runtest_makereport(item: pytest.Item, call: pytest.CallInfo[None]) -> Generator[None, Any, None]:
    outcome = yield
    report = outcome.get_result()
    if not _is_marked(item):
        return
    if report.when != "teardown":
        item.stash[_report] = report
        return
    traced, shown = item.stash.get(_traced, None), item.stash.get(_report, None)
    found = "itc_trace: the test was not traced" if traced is None else traced.found
    if traced is not None and traced.report is not None:
        setattr(report, FOUND, json.dumps(as_object(traced.report)))
    if found is not None and shown is not None and not _is_skipped(shown):
        _tell(report if shown in _logged else shown, found)


def pytest_runtest_logreport(report: pytest.TestReport) -> None:
    _logged.add(report)


class _Summary:
    """Tells at the end what all tests met, in whichever processes they ran."""

    def __init__(self, config: pytest.Config) -> None:
        self._config = config
        self._lost: list[str] = []
        """The tests whose processes have ended while they ran. Which of them were traced is not known."""

    def pytest_runtest_logreport(self, report: pytest.TestReport) -> None:
        found = getattr(report, FOUND, None)
        if found is not None:
            self._config.stash[_met].add(report.nodeid, report_of_object(json.loads(found)))
        elif report.when not in PHASES:
            self._lost.append(report.nodeid)

    @pytest.hookimpl(trylast=True)  # type: ignore[misc]
    def pytest_sessionfinish(self, session: pytest.Session) -> None:
        """Writes the files that are asked for."""
        met, asked = self._config.stash[_met], self._config.stash[_asked]
        if met.reports or asked.formats or self._config.getoption("--races"):
            for test in self._lost:
                met.add(test, not_traced(LOST, Cause.KILLED))
        if not met.reports:
            return
        files = {name: file for name, file in asked.formats.items() if file != STANDARD_OUTPUT}
        is_written = deliver(met.report(asked.fails_on_possible), Wanted(files))
        try:
            if asked.new_baseline is not None:
                write_baseline(asked.new_baseline, met.met)
        except OSError as fault:
            say(f"itc_trace: {asked.new_baseline} cannot be written: {fault.strerror}")
            is_written = False
        if not is_written:
            session.exitstatus = pytest.ExitCode.INTERNAL_ERROR

    def pytest_terminal_summary(self, terminalreporter: Any) -> None:
        met, asked = self._config.stash[_met], self._config.stash[_asked]
        report = met.report(asked.fails_on_possible)
        is_quiet, is_verbose = self._config.option.verbose < 0, self._config.option.verbose > 0
        if met.reports and (not is_quiet or report.findings or report.unseen):
            terminalreporter.ensure_newline()
            terminalreporter.section("races")
            terminalreporter.write_line("\n".join(_section(met, report, is_quiet, is_verbose)))
        for name, file in asked.formats.items():
            if file == STANDARD_OUTPUT and met.reports:
                terminalreporter.write(FORMATS[name](report))


def _section(met: OfTests, report: Report, is_quiet: bool, is_verbose: bool) -> Iterator[str]:
    """What was found, and how much of it each test met. The last line counts."""
    if is_quiet:
        yield from short(report.findings)
        yield f"itc_trace: {report.summary}"
        return
    told = text(report, Shown(is_verbose, how=SHOWN.how)).splitlines()
    yield from told[:-1]
    if is_verbose:
        yield from (f"id {one.identity} in {test}" for one in report.findings for test in one.tests[1:])
    yield from met.by_test()
    if report.gone:
        yield f"itc_trace: {named(report.gone)}"
    yield told[-1]


def _is_skipped(report: pytest.TestReport) -> bool:
    return bool(report.skipped) and not hasattr(report, "wasxfail")


def _tell(report: Any, found: str) -> None:
    """The test fails for what was found, unless it fails anyway. One that is to fail does so by this."""
    strict = "[XPASS(strict)] "
    if report.passed and hasattr(report, "wasxfail"):
        report.outcome = "skipped"
    elif report.failed and isinstance(report.longrepr, str) and report.longrepr.startswith(strict):
        report.outcome, report.wasxfail = "skipped", report.longrepr.removeprefix(strict)
    elif report.passed:
        report.outcome, report.longrepr = "failed", found
        return
    report.sections.append(("races", found))
