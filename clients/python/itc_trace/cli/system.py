"""Runs a system of several processes that report to one tenant, and lists the races of the whole at its end."""

from __future__ import annotations

import contextlib
import glob
import json
import math
import os
import re
import signal
import socket
import subprocess
import sys
import tempfile
import threading
import time
from collections.abc import Callable, Iterable, Iterator
from pathlib import Path
from queue import Empty, SimpleQueue
from types import FrameType
from typing import IO, Any, Protocol

from ..analyse.benign import Looking
from ..analyse.kept_sources import source_rows
from ..analyse.parts import races_of_parts
from ..analyse.progress import Bar
from ..analyse.races import Races
from ..analyse.seeing import races_seen
from ..analyse.snapshot import snapshot
from ..model.handed_over import REFUSED
from ..processes.part_collectors import PartCollectors, ask_for_port
from ..processes.relay import Relaying
from ..processes.relay_parts import RelayParts
from ..record.collector import HOST
from ..record.environment import PARTS, Reporting
from ..record.faults import Fault
from ..record.journal import NoJournal, missing_of
from ..record.whole_file import replacing
from ..report.report import report_of
from ..report.screen import is_terminal
from ..session import Refused
from .asking import Asking
from .ending import LOOK_FOR_SIGNALS, name_of
from .process_sources import ProcessSources
from .reporting import Wanted, deliver, list_shown, next_step
from .run import draw, draw_parts, environment_of_package, titled
from .saying import UNWRITTEN, say
from .ticking import ticking
from .statuses import OWN_STATUSES, forget_status, keep_status, own_status
from .system_file import Described, System
from ..model.verdict import END_OF_ALL, Cause, Unseen

READY_SECONDS = 60.0
GRACE_SECONDS = 10.0
SILENT_SECONDS = 5.0
"""So long this command waits without a word of what it waits for."""
LOOK_AGAIN = 0.05
LATE = object()
"""Nothing has come in time."""
PYTHON = re.compile(r"(?:pypy|python)(?:3(?:\.\d+)?)?(?:\.exe)?")
FLAGS_WITH_A_WORD = ("-X", "-W", "--check-hash-based-pycs")
SIGNALS = [getattr(signal, name) for name in ("SIGINT", "SIGTERM", "SIGHUP") if hasattr(signal, name)]


def _write_line(line: str, output: IO[str]) -> None:
    """Writes a line with its end in one piece: the lines of other threads come before it or behind it."""
    output.write(f"{line}\n")
    output.flush()


def listens(port: int) -> bool:
    """Whether somebody listens at the port."""
    try:
        socket.create_connection((HOST, port), 1).close()
    except OSError:
        return False
    return True


class Process:
    """A process of the system, from its start to its end.

    What it writes is handed on with its name before each line.
    """

    def __init__(
        self, described: Described, words: list[str], environment: dict[str, str], told: SimpleQueue[Any],
    ) -> None:
        self.described = described
        self.name = described.name
        self.status: int | None = None
        self.is_ended_by_us = False
        self._told = told
        self._ready = threading.Event()
        self.is_running = True
        """Whether its end is not told yet. Whoever takes it out of the queue tells it."""
        try:
            self._process = subprocess.Popen(
                words, cwd=described.directory, env=environment, stdin=subprocess.DEVNULL, stdout=subprocess.PIPE,
                stderr=subprocess.PIPE, start_new_session=True,
            )
        except OSError as error:
            raise Fault(f"process {self.name} cannot be started: {words[0]}: {error.strerror}") from error
        readers = [
            threading.Thread(target=self._hand_on, args=streams, daemon=True)
            for streams in ((self._process.stdout, sys.stdout), (self._process.stderr, sys.stderr))
        ]
        for reader in readers:
            reader.start()
        threading.Thread(target=self._wait, args=(readers,), daemon=True).start()

    def _hand_on(self, given: IO[bytes], output: IO[str]) -> None:
        for line in given:
            text = line.decode("utf-8", "replace").rstrip("\r\n")
            if self.described.ready is not None and self.described.ready in text:
                self._ready.set()
            with contextlib.suppress(OSError, ValueError):
                _write_line(f"{self.name} | {text}", output)

    def _wait(self, readers: list[threading.Thread]) -> None:
        self.status = self._process.wait()
        for reader in readers:
            reader.join(1)  # A process that it left behind may hold its output open.
        self._told.put(self)

    @property
    def pid(self) -> int:
        return self._process.pid

    def is_ready(self) -> bool:
        """Whether it has written the line, or listens at the port, that those who come after it wait for."""
        if self.described.port is not None:
            return listens(self.described.port)
        return self.described.ready is None or self._ready.is_set()

    def lacks(self) -> str:
        """What it has not done yet, for which others wait."""
        if self.described.port is not None:
            return f"nobody listens at port {self.described.port}"
        return f"none of its lines has {self.described.ready!r}"

    def end(self, number: int = signal.SIGTERM) -> None:
        """Ends it, and what it has started."""
        if self.is_running:
            self.is_ended_by_us = True
            with contextlib.suppress(OSError):
                os.killpg(self._process.pid, number)


class Running:
    """A system that runs: its processes, and what of it was not seen."""

    def __init__(self, system: System, port: int, folder: str, timeout: float | None = None) -> None:
        self._system = system
        self._timeout = timeout
        self._askings: dict[str, Asking] = {}
        """By the name of a process of Python that is traced."""
        self._port = port
        self._folder = folder
        self._told: SimpleQueue[Any] = SimpleQueue()
        self.processes: list[Process] = []
        self.unseen: list[Unseen] = []
        self.status = 0
        self._is_ending = False
        self._is_cut_short = False
        """Whether not all processes were started, as one of them was not ready."""

    def run(self) -> None:
        """Starts the processes in order, and returns once all have ended."""
        with self._heeding_signals(), self._limited():
            try:
                for described in self._system.in_order():
                    if self._is_ending or not self._are_ready(described.after):
                        break
                    self.processes.append(self._start(described))
                else:
                    self._look_at_services()
                self._wait_for_end()
            finally:
                self._end_all()
                while self._are_running():
                    self._next()

    def progress(self) -> str:
        return f"{sum(one.is_running for one in self.processes)} processes run, "

    def _look_at_services(self) -> None:
        """If there are services alone, nobody comes after them who would wait until they are ready."""
        if all(described.is_service for described in self._system.processes) and self._are_ready(
            [one.name for one in self.processes]
        ):
            _write_line(
                "itc_trace: all processes are services, and run until this command is ended, as by Ctrl-C", sys.stderr,
            )

    def _wait_for_end(self) -> None:
        is_silent = True
        while not self._is_ending and self._are_running() and not self._is_over():
            has_come = self._next(SILENT_SECONDS if is_silent else None)
            if not has_come and is_silent:
                is_silent = not self._tell_left()

    def _tell_left(self) -> bool:
        """Says which processes others came after still run, if nothing else does: they may be services.

        Gives whether it did.
        """
        before = {name for described in self._system.processes for name in described.after}
        left = [process.name for process in self.processes if process.is_running and not process.described.is_service]
        is_told = len(left) < len(self.processes) and before.issuperset(left)
        if is_told:
            _write_line(
                f"itc_trace: waiting for the end of {', '.join(left)}: "
                "with service = true a process is ended once the others have", sys.stderr,
            )
        return is_told

    def _are_running(self) -> bool:
        return any(process.is_running for process in self.processes)

    def journals(self, name: str) -> list[str]:
        """The journals of a process, of which there are more if it was started again."""
        found = glob.glob(glob.escape(self._journal(name)) + "*")
        return sorted(found, key=lambda path: (len(path), path))

    def _journal(self, name: str) -> str:
        return os.path.join(self._folder, f"{name}.journal")

    def _start(self, described: Described) -> Process:
        if described.port is not None and listens(described.port):
            raise Fault(
                f"process {described.name}: somebody listens at port {described.port} already: "
                "end that program, or name another port"
            )
        said = Reporting(self._port, self._system.tenant, described.name, self._journal(described.name))
        environment = {
            **environment_of_package(), "PYTHONUNBUFFERED": "1", **described.environment, **said.variables(),
            PARTS: "1",
        }
        is_python = PYTHON.fullmatch(os.path.basename(described.command[0])) is not None
        words = self._traced(described, said) if described.is_traced and is_python else described.command
        return Process(described, words, environment, self._told)

    def _traced(self, described: Described, said: Reporting) -> list[str]:
        """The words that run a Python program traced."""
        words = described.command
        place = 1
        while place < len(words) and words[place].startswith("-") and words[place] not in ("-m", "-c", "-"):
            place += 2 if words[place] in FLAGS_WITH_A_WORD else 1
        if place >= len(words) or words[place] in ("-c", "-"):
            raise Fault(
                f"process {said.process}: only a program in a file or a module can be traced: "
                "name one, or set traced = false"
            )
        configuration = {
            "port": said.port, "tenant": said.tenant, "journal": said.journal, "process": said.process, "host": HOST,
            "watched": described.watched, "told": self._told_by(described.name), "seed": None,
            "asked": self._asking(described.name).asked,
        }
        return [*words[:place], "-m", "itc_trace.cli.launch", json.dumps(configuration), *words[place:]]

    def _asking(self, name: str) -> Asking:
        return self._askings.setdefault(name, Asking(os.path.join(self._folder, f"{name}.asked")))

    def _told_by(self, name: str) -> str:
        return os.path.join(self._folder, f"{name}.told")

    def _are_ready(self, names: list[str]) -> bool:
        """Waits until these processes are ready. If one of them will not be, it says so."""
        begun = time.monotonic()
        for process in (process for process in self.processes if process.name in names):
            is_silent = True
            while not process.is_ready():
                waited = time.monotonic() - begun
                if self._is_ending:
                    return False
                if not process.is_running or waited > READY_SECONDS:
                    late = f"was not ready within {READY_SECONDS:.0f} s: {process.lacks()}"
                    self._miss(
                        Cause.KILLED,
                        f"process {process.name} {late if process.is_running else 'ended before it was ready'}",
                    )
                    self._is_cut_short = True
                    return False
                if is_silent and waited > SILENT_SECONDS:
                    is_silent = False
                    _write_line(
                        f"itc_trace: waiting until process {process.name} is ready: {process.lacks()} yet", sys.stderr,
                    )
                self._next(LOOK_AGAIN)
        return True

    def _next(self, seconds: float | None = None) -> bool:
        """Waits for the next end of a process, or for a signal. Gives whether one has come in so many seconds."""
        ended = self._next_told(seconds)
        if ended is LATE:
            return False
        if isinstance(ended, Process):
            ended.is_running = False
            self._tell_end(ended)
        return True

    def _next_told(self, seconds: float | None) -> Any:
        """It waits in pieces, in between which handlers of signals are called."""
        last = math.inf if seconds is None else time.monotonic() + seconds
        while (left := last - time.monotonic()) > 0:
            with contextlib.suppress(Empty):
                return self._told.get(timeout=min(left, LOOK_FOR_SIGNALS))
        return LATE

    def _is_over(self) -> bool:
        """Whether nothing runs but services.

        If there never is anything else, they go on, unless one of them was not ready.
        """
        are_all_services = all(described.is_service for described in self._system.processes)
        is_left = any(process.is_running and not process.described.is_service for process in self.processes)
        return not is_left and (self._is_cut_short or not are_all_services)

    def _tell_end(self, process: Process) -> None:
        status = process.status or 0
        if status and not process.is_ended_by_us:
            how = f"was ended by {name_of(-status)}" if status < 0 else f"ended with status {status}"
            _write_line(f"itc_trace: process {process.name} {how}", sys.stderr)
            self.status = self.status or (status if status > 0 else 128 - status)
        if status < 0 and not process.is_ended_by_us:
            self._miss(Cause.KILLED, f"process {process.name} was ended by {name_of(-status)}")

    def _miss(self, cause: Cause, text: str) -> None:
        self.unseen.append(Unseen(cause, text))

    # Ending

    def _end_all(self) -> None:
        """Ends those that have not been asked to end yet."""
        self._is_ending = True
        running = [process for process in self.processes if process.is_running and not process.is_ended_by_us]
        for process in running:
            process.end()
        if running:
            killing = threading.Timer(GRACE_SECONDS, self._kill_all)
            killing.daemon = True
            killing.start()

    def _kill_all(self) -> None:
        for process in self.processes:
            if process.status is None:  # One that has ended may not be told of yet.
                self._miss(
                    Cause.KILLED, f"process {process.name} did not end within {GRACE_SECONDS:.0f} s, and was killed",
                )
            process.end(signal.SIGKILL)

    @contextlib.contextmanager
    def _limited(self) -> Iterator[None]:
        """Within the block the system is ended after its time, if it has a limit."""
        if self._timeout is None:
            yield
            return
        timer = threading.Timer(self._timeout, self._time_out)
        timer.daemon = True
        timer.start()
        try:
            yield
        finally:
            timer.cancel()

    def _time_out(self) -> None:
        if not self._is_ending:
            self._ask_all()
            self._miss(Cause.KILLED, f"this system was ended after {self._timeout:g} s")
            self._end_all()
            self._told.put(None)

    def _ask_all(self) -> None:
        """Asks each process that runs what its tasks wait for."""
        for process in self.processes:
            asking = self._askings.get(process.name)
            if process.is_running and asking is not None:
                asking.ask(process.pid)
            elif process.is_running:
                _write_line(f"itc_trace: what process {process.name} waits for is not known", sys.stderr)

    @contextlib.contextmanager
    def _heeding_signals(self) -> Iterator[None]:
        before = {number: signal.signal(number, self._asked_to_end) for number in SIGNALS}
        if hasattr(signal, "SIGQUIT"):
            before[signal.SIGQUIT] = signal.signal(
                signal.SIGQUIT, lambda *_: threading.Thread(target=self._ask_all, daemon=True).start(),
            )
        try:
            yield
        finally:
            for number, handler in before.items():
                signal.signal(number, handler)

    def _asked_to_end(self, number: int, _: FrameType | None) -> None:
        if not self._is_ending:
            self._miss(Cause.KILLED, f"this system was ended by {name_of(number)}")
            self._end_all()
        self._told.put(None)

    # What was seen

    def lines(self) -> Iterator[str]:
        """The lines of all journals, none of which is kept. What was not seen of a process is told with its name."""
        for process in self.processes:
            written = [path for path in self.journals(process.name) if os.path.getsize(path) > 0]
            if self._is_refused(process.name):
                self._miss(Cause.TRACER, f"process {process.name} could not be run")
            elif process.described.is_traced and not written:
                self._miss(Cause.JOURNAL, f"process {process.name} reported nothing")
            if len(written) > 1:
                say(f"itc_trace: process {process.name} reported {len(written)} times: it was started again")
            own = [path for path in written if self._is_journal(process, path)]
            yield from _lines_of(process, own)
            described = process.described
            sources = ProcessSources(described.directory, described.command)
            found = source_rows(_lines_of(process, own), sources.find)
            yield from (one.row() for one in found)
        yield END_OF_ALL

    def _is_refused(self, name: str) -> bool:
        told_by = Path(self._told_by(name))
        return told_by.is_file() and told_by.read_text(encoding="ascii") == REFUSED

    def _is_journal(self, process: Process, path: str) -> bool:
        """Whether the file is a journal. What is missing of it is told."""
        try:
            with open(path, encoding="utf-8", errors="replace") as journal:
                missing = missing_of(journal)
        except NoJournal:
            self._miss(Cause.JOURNAL, f"the journal of process {process.name} is none")
            return False
        for one in missing:
            self._miss(Cause.JOURNAL, one.text.replace("the journal", f"the journal of process {process.name}", 1))
        return True


def _lines_of(process: Process, journals: list[str]) -> Iterator[str]:
    """The whole lines of these journals of a process."""
    is_ended_by_us = process.described.is_service and process.is_ended_by_us
    for path in journals:
        with open(path, encoding="utf-8", errors="replace") as journal:
            yield from (
                line for line in journal
                if line.endswith("\n") and not (is_ended_by_us and line == ENDED_AS_A_SERVICE)
            )


BORDERS = "borders"
"""The file that tells how the parts of a divided trace begin."""
ENDED_AS_A_SERVICE = Unseen(Cause.KILLED, "the program was ended by SIGTERM").row()


class Reports(Protocol):
    """What runs and reports to a relay."""

    unseen: list[Unseen]
    status: int

    def run(self) -> None:
        """Returns once all of it has ended."""

    def lines(self) -> Iterable[str]:
        """The lines of all journals."""

    def progress(self) -> str:
        """What a line of progress begins with."""


def run_system(
    system: System, looking: Looking, fail_on_possible: bool = False, status_file: str | None = None,
    wanted: Wanted | None = None, timeout: float | None = None,
) -> int:
    """The verdict's status, and where that is 0 the first status of a process that was not 0."""
    return run_reporting(
        system, lambda port, folder: Running(system, port, folder, timeout), looking, fail_on_possible, status_file,
        wanted,
    )


def run_reporting(
    system: System, begin: Callable[[int, str], Reports], looking: Looking, fail_on_possible: bool = False,
    status_file: str | None = None, wanted: Wanted | None = None, is_quiet: bool = False,
) -> int:
    """Runs what reports to a relay of its own, whose port it gets, and keeps its journals in a folder.

    Gives the verdict's status, and where that is 0 the status of what ran. If it is quiet, nothing is told where
    there is nothing to tell.
    """
    forget_status(status_file)
    with tempfile.TemporaryDirectory(prefix="itc_trace_") as folder, PartCollectors(system.tenant) as collectors:
        parts = RelayParts(lambda: ask_for_port(collectors.asked_at), os.path.join(folder, BORDERS))
        with Relaying(collectors.port, parts) as relay:
            running = begin(relay.port, folder)
            with ticking(sys.stderr, running.progress):
                running.run()
        if parts.number > 1:
            exports = system.export or (None if system.picture is None else os.path.join(folder, "export"))
            races = _races_in_parts(system, looking, running.lines(), folder, collectors.port_of(parts.number), exports)
            races.unseen = [*running.unseen, *races.unseen]
            picture = draw_parts(exports, system.picture, races, system.name)
        else:
            lines = list(running.lines())
            races = races_seen(system.tenant, collectors.port, lines, HOST, looking, Bar(sys.stderr))
            races.unseen = [*running.unseen, *races.unseen]
            picture = _keep(system, collectors.port, lines, folder, races)
        if system.processes and not any(described.is_traced for described in system.processes):
            say("itc_trace: no process is traced, so no race was looked for: leave out traced = false")
        report, wanted = report_of(races, looking, fail_on_possible, picture), wanted or Wanted()
        step = next_step(report, wanted, system.export, False)
        if report.verdict or report.findings or running.status in OWN_STATUSES or not is_quiet:
            say(list_shown(report, wanted, sys.stderr, step, own_status(report.verdict, running.status)))
        if step and is_terminal(sys.stderr):
            say(step)
        status = keep_status(status_file, report.verdict, running.status)
        return status if deliver(report, wanted) else UNWRITTEN


def _races_in_parts(
    system: System, looking: Looking, lines: Iterable[str], folder: str, port: int, exports: str | None,
) -> Races:
    """The races of a system whose trace was divided. Each part has an export of its own, if one is asked for."""
    borders = os.path.join(folder, BORDERS)
    journal = f"{system.export}.journal" if system.export is not None else os.path.join(folder, "journal")
    with open(journal, "w", encoding="utf-8") as written, open(borders, encoding="utf-8") as border_lines:
        written.writelines(border_lines)
        written.writelines(lines)
    return races_of_parts(journal, looking, Bar(sys.stderr), (system.tenant, port), exports)


def _keep(system: System, port: int, lines: list[str], folder: str, races: Races) -> str | None:
    """Writes the export with its journal, and the picture, if they are asked for. Gives where the picture is."""
    if system.export is None and system.picture is None:
        return None
    export = system.export or os.path.join(folder, "export")
    try:
        with replacing(export) as new, open(new, "w", encoding="ascii", newline="\n") as output:
            snapshot(system.tenant, port, output)
        Path(f"{export}.journal").write_text("".join(lines), encoding="utf-8")
        about = ["--labels", f"{export}.journal", *titled(system.name)]
        is_drawn = system.picture is not None and draw(export, about, system.picture, races)
        return system.picture if is_drawn else None
    except (OSError, Refused, NoJournal) as fault:
        races.unseen.append(Unseen(Cause.COLLECTOR, f"the trace cannot be kept ({fault})"))
        return None
