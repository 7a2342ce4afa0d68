"""Runs many small programs in one process each way: untraced, and traced with the hooks in C and with those in Python."""

from __future__ import annotations

import os
import re
import tempfile
from pathlib import Path
from typing import NamedTuple

from .support import run_python, run_traced

MAIN = """
import importlib, sys, threading, traceback
sys.stderr = sys.stdout
first = threading.Thread(target=int)
first.start()
first.join()
for name in sys.argv[1:]:
    print("==", name, flush=True)
    try:
        importlib.import_module(name)
    except BaseException:
        traceback.print_exc()
print("== end", flush=True)
"""
"""From the first thread on all hooks are there."""
ADDRESS = re.compile(r"0x[0-9a-f]{6,}")
FORMS = {"in C": "", "in Python": "1"}


class Outcome(NamedTuple):
    """What each program has written, and what the tracer has said."""

    written: dict[str, str]
    said: str
    status: int


def outcome(programs: dict[str, str], hooks: str | None, *words: str) -> Outcome:
    """What the programs write: untraced, or with the hooks of a form, and with further words for `run`."""
    with tempfile.TemporaryDirectory() as folder:
        for name, text in {**programs, "main": MAIN}.items():
            Path(folder, f"{name}.py").write_text(text)
        main = os.path.join(folder, "main.py")
        ran = run_python(main, *programs) if hooks is None else run_traced(*words, main, *programs, ITC_TRACE_PURE=FORMS[hooks])
    parts = re.split(r"^== (\w+)\n", ADDRESS.sub("0x", ran.stdout.replace(folder, "")), flags=re.MULTILINE)
    written = dict(zip(parts[1::2], parts[2::2]))
    written.pop("end", None)
    return Outcome(written, ran.stderr, ran.returncode)
