"""A process beside a program, by which it is known whether a signal came
to the whole group of processes or to this one alone."""

from __future__ import annotations

import contextlib
import signal
import subprocess
import time

COMMAND = ("cat",)
"""Ends with this process, as its input does."""
PENDING = "ShdPnd:"
"""Begins the line of a process's status that has the signals which it holds back, as a number of 16."""
GRACE_SECONDS = 0.05
"""So late a signal comes at most that somebody sends to each process of a group by itself."""


class Sentinel:
    """Holds back all signals. One that it has was sent to its group, or to all processes of this run."""

    def __init__(self) -> None:
        self._process: subprocess.Popen[bytes] | None = None
        if not hasattr(signal, "pthread_sigmask"):
            return
        before = signal.pthread_sigmask(signal.SIG_BLOCK, signal.valid_signals())
        with contextlib.suppress(OSError):  # Without it nothing is known of a signal.
            self._process = subprocess.Popen(
                COMMAND, stdin=subprocess.PIPE, stdout=subprocess.DEVNULL, stderr=subprocess.DEVNULL,
            )
        signal.pthread_sigmask(signal.SIG_SETMASK, before)

    def has(self, number: int) -> bool:
        """Whether the signal came to this process, too."""
        end = time.monotonic() + GRACE_SECONDS
        while not self._holds(number):
            if time.monotonic() > end:
                return False
            time.sleep(GRACE_SECONDS / 10)
        return True

    def _holds(self, number: int) -> bool:
        if self._process is None:
            return False
        try:
            with open(f"/proc/{self._process.pid}/status", encoding="ascii", errors="replace") as status:
                held = next(line for line in status if line.startswith(PENDING))
        except (OSError, StopIteration):
            return False  # The system does not tell.
        return bool(int(held.removeprefix(PENDING), 16) >> number - 1 & 1)

    def close(self) -> None:
        if self._process is not None and self._process.stdin is not None:
            self._process.stdin.close()
            self._process.wait()
            self._process = None
