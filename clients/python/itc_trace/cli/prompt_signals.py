"""Has a handler of the package called soon after its signal, although the main thread waits in code of C.

Python calls a handler once its main thread goes on. One that comes to a system call just behind the signal would wait
there first, and so would one that does not see the signal, as another thread has taken it. Python tells a descriptor of
each signal at once, and a thread reads it here.
"""

from __future__ import annotations

import operator
import os
import signal
import threading
import time
from collections.abc import Callable
from typing import Any

from ..record import own_files, plain
from ..record.own_threads import start_thread

DELAY, LONGEST_DELAY = 0.005, 0.05
PATIENCE = 1.0
"""After so many seconds a main thread that is told again and again is taken to stand in code of C that heeds nothing.
"""
MOST_READ = 4096
CHANGED = b"\0"
"""No signal has this number: what was written before it came for a handler that was set before."""
_pipe, _read, _write = os.pipe, os.read, os.write
_set_wakeup: Any = signal.set_wakeup_fd
_send = getattr(signal, "pthread_kill", None)
_monotonic = time.monotonic
"""As they are before any program is traced."""


class PromptSignals:
    """Looks after the signals of this process for which the package has a handler."""

    def __init__(self, is_due: Callable[[int], bool], end: Callable[[int], object]) -> None:
        """`is_due` gives whether the package's handler is set for a signal, and was not called yet.

        `end` does what the handler would do, in another thread than the main one.
        """
        self._is_due = is_due
        self._end = end
        self._process = os.getpid()
        self._reading = self._writing = -1
        self._is_set = False
        """Whether Python tells this descriptor, and not one of the program."""
        self._lock = plain.allocate_lock()
        """Held while a signal is sent once more, so that no other handler is set meanwhile."""
        self._changes = self._changes_read = 0

    def begin(self) -> None:
        """Without room for files or for a thread, handlers are called once the main thread goes on."""
        if _send is None:
            return
        try:
            reading, writing = _pipe()
        except OSError:
            return
        os.set_blocking(writing, False)
        self._reading, self._writing = own_files.keep(reading), own_files.keep(writing, self._move)
        try:
            start_thread(self._read_on)
        except RuntimeError:
            self._close()
            return
        self._have_told()

    def forget(self) -> None:
        """In a forked child: Python tells of its signals to the parent's descriptor, which is closed.

        A thread that is not there may have held the lock.
        """
        self._lock = plain.allocate_lock()
        if self._is_set:
            self._is_set = False
            _set_wakeup(-1)
        self._close()

    def _close(self) -> None:
        for file in (self._reading, self._writing):
            if file >= 0 and own_files.is_own(file):
                own_files.close(file)
        self._reading = self._writing = -1

    def _have_told(self) -> None:
        if self._writing >= 0 and own_files.is_own(self._writing):
            _set_wakeup(self._writing, warn_on_full_buffer=False)
            self._is_set = True

    def _move(self, file: int) -> None:
        """The program has put another file at the number of the descriptor."""
        self._writing = file
        if self._is_set and threading.current_thread() is threading.main_thread():
            self._have_told()

    def set_by_program(self, *words: Any, **named: Any) -> int:
        """What stands for `signal.set_wakeup_fd`. The program sees no descriptor but its own."""
        before = int(_set_wakeup(*words, **named))
        is_own, self._is_set = self._is_set, False
        if operator.index(words[0]) == -1:
            self._have_told()
        return -1 if is_own else before

    def is_changing(self) -> None:
        """Another handler is about to be set: what has come by now is not for it."""
        with self._lock:
            self._changes += 1

    def has_changed(self) -> None:
        """What comes from now on is for the handler that was set."""
        try:
            if self._writing >= 0:
                _write(self._writing, CHANGED)
        except OSError:  # Then nothing is known of what has come, and nothing is sent again.
            pass

    def _read_on(self) -> None:
        """In a thread of its own."""
        while self._process == os.getpid() and own_files.is_own(self._reading):
            try:
                came = _read(self._reading, MOST_READ)
            except OSError:
                return
            if not came:
                return
            for number in came:
                if number == CHANGED[0]:
                    self._changes_read += 1
                else:
                    self._have_called(number)

    def _have_called(self, number: int) -> None:
        """Sends the signal to the main thread again until its handler was called."""
        delay, last = DELAY, _monotonic() + PATIENCE
        while self._is_left(number):
            plain.sleep(delay)
            delay = min(2 * delay, LONGEST_DELAY)
            with self._lock:
                main = threading.main_thread().ident
                if not self._is_left(number) or main is None or _send is None:
                    return
                if _monotonic() < last:
                    _send(main, number)
                    continue
            self._end(number)
            return

    def _is_left(self, number: int) -> bool:
        return self._changes == self._changes_read and self._process == os.getpid() and self._is_due(number)
