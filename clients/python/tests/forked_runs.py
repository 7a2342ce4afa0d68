"""Runs programs as `python3 -m itc_trace run` does, most of them in forks of a process that has imported the package.

To begin Python twice and to import the package, for the command and for the program, takes longer than most programs do. One run of ten is
a process of its own all the same, so that a start that is broken is seen. A seed draws which ones: ITC_PROGRAM_SEED, or else a fresh one.
ITC_PROGRAM_SHARE names another share than 10, and with 1 no run is a fork.
"""

from __future__ import annotations

import atexit
import json
import os
import random
import re
import signal
import socket
import subprocess
import sys
import threading
from concurrent.futures import ThreadPoolExecutor
from pathlib import Path

from .support import PACKAGE, run_traced

SEED = int(os.environ.get("ITC_PROGRAM_SEED", random.SystemRandom().randrange(10_000)))
SHARE = int(os.environ.get("ITC_PROGRAM_SHARE", "10"))
OF_THEIR_OWN = re.compile(r"\b(?:atexit|fork|gc|multiprocessing|ProcessPoolExecutor|signal|subprocess|sys|weakref|__del__)\b")
"""What a program names that begins processes, or looks at its own. It is never run in a fork."""
SERVER = Path(__file__).with_name("fork_server.py")
LONGEST = 1500
MOST_REPLY = 100


class ForkServer:
    """A process that has imported the package, with this environment. It runs one program at a time."""

    def __init__(self, environment: dict[str, str]) -> None:
        self._door, other = socket.socketpair(socket.AF_UNIX, socket.SOCK_SEQPACKET)
        with other:
            self._process = subprocess.Popen(
                [sys.executable, str(SERVER), str(other.fileno())], env=environment, pass_fds=[other.fileno()],
                stdout=subprocess.PIPE, stderr=subprocess.PIPE,  # As those of each program are.
            )

    def run(self, words: tuple[str, ...]) -> subprocess.CompletedProcess[str]:
        (output, for_output), (errors, for_errors) = os.pipe(), os.pipe()
        with open(output) as said, open(errors) as complained, ThreadPoolExecutor(1) as pool:
            try:
                socket.send_fds(self._door, [json.dumps(words).encode()], [for_output, for_errors])
            finally:
                os.close(for_output)
                os.close(for_errors)
            process = self._reply()
            killing = threading.Timer(LONGEST, os.kill, (process, signal.SIGKILL))
            killing.start()
            complaint = pool.submit(complained.read)
            try:
                text, status = said.read(), self._reply()
            finally:
                killing.cancel()
            return subprocess.CompletedProcess(words, status, text, complaint.result())

    def _reply(self) -> int:
        reply = self._door.recv(MOST_REPLY)
        if not reply:
            raise RuntimeError(f"the fork server has ended: {self.close()}")
        return int(reply)

    def close(self) -> str:
        """Ends it, and gives what it has written to its own standard error."""
        self._door.close()
        return self._process.communicate()[1].decode()


class _Idle:
    """The servers that run nothing now, by their environments."""

    def __init__(self) -> None:
        self._servers: dict[tuple[tuple[str, str], ...], list[ForkServer]] = {}
        atexit.register(self.close)

    def take(self, environment: dict[str, str]) -> ForkServer:
        try:
            return self._of(environment).pop()
        except IndexError:
            return ForkServer(environment)

    def put_back(self, environment: dict[str, str], server: ForkServer) -> None:
        self._of(environment).append(server)

    def _of(self, environment: dict[str, str]) -> list[ForkServer]:
        return self._servers.setdefault(tuple(sorted(environment.items())), [])

    def close(self) -> None:
        for servers in self._servers.values():
            for server in servers:
                server.close()


_idle = _Idle()


def run_forked(*words: str, **variables: str) -> subprocess.CompletedProcess[str]:
    """Runs as `run_traced` does, in a fork."""
    environment = {**os.environ, "PYTHONPATH": str(PACKAGE), **variables}
    server = _idle.take(environment)
    ended = server.run(("--all", *words))
    _idle.put_back(environment, server)
    return ended


def run_program(program: Path, place: int, *words: str, **variables: str) -> subprocess.CompletedProcess[str]:
    """Runs `python3 -m itc_trace run WORDS.. PROGRAM`. Of all places among the runs of a test, the seed draws those that are no fork."""
    is_forked = (place + SEED) % SHARE and not OF_THEIR_OWN.search(program.read_text())
    return (run_forked if is_forked else run_traced)(*words, str(program), **variables)


def sample() -> str:
    """Says which runs are processes of their own."""
    return f"sample: 1 run of {SHARE} is a process of its own, by ITC_PROGRAM_SEED={SEED}"
