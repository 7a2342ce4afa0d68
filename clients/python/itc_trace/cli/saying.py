"""Says something to whoever typed a command, also where a stream is closed or cannot be written."""

from __future__ import annotations

import contextlib
import os
import sys

UNWRITTEN = 3
"""The status of a command whose output cannot be written, if it is not the program's."""


def say(text: str) -> None:
    """Writes to standard error, if there still is one."""
    if sys.stderr is not None:
        with contextlib.suppress(OSError, ValueError):
            print(text, file=sys.stderr, flush=True)


def write(text: str | bytes) -> bool:
    """Writes to standard output. Gives whether all of it was written, and says why if it was not.

    Whoever reads it may have ended. Bytes are written as they are.
    """
    if sys.stdout is None:
        say("itc_trace: the output cannot be written: standard output is closed")
        return False
    try:
        if isinstance(text, bytes):
            sys.stdout.flush()
            sys.stdout.buffer.write(text)
            sys.stdout.buffer.flush()
        else:
            encoding = sys.stdout.encoding or "utf-8"
            print(text.encode(encoding, "backslashreplace").decode(encoding), end="", flush=True)
        return True
    except BrokenPipeError:
        _let_go()
        return True
    except (OSError, ValueError) as fault:
        _let_go()
        say(f"itc_trace: the output cannot be written: {getattr(fault, 'strerror', None) or fault}")
        return False


def _let_go() -> None:
    """What is still held back is not written at the end of the process either."""
    sys.stdout = open(os.devnull, "w", encoding="utf-8")
