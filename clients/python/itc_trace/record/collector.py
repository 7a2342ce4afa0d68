"""Finds the collector's program, and runs one of its own for a program that is traced."""

from __future__ import annotations

import os
import shutil
import socket
import subprocess
import sys
import weakref
from collections.abc import Iterator
from pathlib import Path
from types import TracebackType

from . import own_files
from .own_threads import with_signals

HOST = "127.0.0.1"
MOST_EVENTS = 16384
MOST_TASKS = 2048
MOST_MESSAGES = 16384
PORTS_TO_TRY = 5


class NoCollector(Exception):
    """There is no collector to report to."""


def _folders_above(path: Path) -> Iterator[Path]:
    yield path
    yield from path.parents


def find_in_repository(name: str) -> str | None:
    """A command of the repository that this package or the current folder lies in."""
    for start in (Path(__file__).resolve().parent, Path.cwd()):
        for folder in _folders_above(start):
            command = folder / name
            if (folder / "crates.txt").is_file() and command.is_file() and os.access(command, os.X_OK):
                return str(command)
    return None


def find_program() -> str:
    """The collector's program: ITC_TRACE of the environment, else of the PATH, else of the repository."""
    named = os.environ.get("ITC_TRACE")
    if named and shutil.which(named) is None:
        raise NoCollector(f"ITC_TRACE names {named}, which is no program: set it to the path of itc_trace")
    found = named or shutil.which("itc_trace") or find_in_repository("itc_trace")
    if found is None:
        raise NoCollector("no itc_trace found: set ITC_TRACE to its path, or have it on the PATH")
    return found


def free_port() -> int:
    """A port that nobody listens at right now."""
    with socket.create_server((HOST, 0)) as door:
        port: int = door.getsockname()[1]
        return port


BESIDE = '"$@" & collector=$!; exec >&- 2>/dev/null; read -r _; kill -9 "$collector"; wait "$collector"'
"""Runs the collector until the standard input ends: so it ends with its owner, however that one ends."""


class Collector:
    """A collector of its own, at a free port, with the greatest limits. It ends with `close`, or with this process."""

    def __init__(self, *tenants: str) -> None:
        self.port: int = 0
        self._process: subprocess.Popen[bytes] | None = self._start(find_program(), tenants or ("trace",))
        _running.add(self)

    def _start(self, program: str, tenants: tuple[str, ...]) -> subprocess.Popen[bytes]:
        for _ in range(PORTS_TO_TRY):
            self.port = free_port()
            limits = ["--events", str(MOST_EVENTS), "--tasks", str(MOST_TASKS), "--messages", str(MOST_MESSAGES)]
            process = _run_beside([program, "serve", "--port", str(self.port), "--workers", "16", *limits, *tenants])
            assert process.stdout is not None
            if process.stdout.readline().startswith(b"listening"):
                return process
            _end(process)  # The port was taken in between, say.
        raise NoCollector(f"{program} does not serve as a collector: set ITC_TRACE to the path of itc_trace")

    def close(self) -> None:
        """Ends the collector."""
        process, self._process = self._process, None
        if process is not None:
            _end(process)

    def forget(self) -> None:
        """In a forked child: lets go of the collector, which is the parent's, so that it ends with the parent."""
        process, self._process = self._process, None
        if process is not None:
            process.returncode = 0  # It is no child of this process, and not to be waited for.
            _close_pipes(process)

    def __enter__(self) -> Collector:
        return self

    def __exit__(
        self, kind: type[BaseException] | None, error: BaseException | None, trace: TracebackType | None
    ) -> None:
        self.close()


_running: weakref.WeakSet[Collector] = weakref.WeakSet()


def _forget_all() -> None:
    for collector in list(_running):
        collector.forget()


if hasattr(os, "register_at_fork"):
    os.register_at_fork(after_in_child=_forget_all)


def _run_beside(words: list[str]) -> subprocess.Popen[bytes]:
    """Runs a command that no key of the terminal reaches."""
    process = with_signals(lambda: subprocess.Popen(
        ["/bin/sh", "-c", BESIDE, "sh", *words], stdin=subprocess.PIPE, stdout=subprocess.PIPE, stderr=sys.__stderr__,
        start_new_session=True,
    ))
    for pipe in (process.stdin, process.stdout):
        if pipe is not None:
            own_files.spare(pipe.fileno())
    return process


def _end(process: subprocess.Popen[bytes]) -> None:
    _close_pipes(process)
    process.wait()


def _close_pipes(process: subprocess.Popen[bytes]) -> None:
    for pipe in (process.stdin, process.stdout):
        if pipe is not None and not pipe.closed:
            own_files.let_go(pipe.fileno())
            pipe.close()
