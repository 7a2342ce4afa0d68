"""Writes a report in each format that is asked for."""

from __future__ import annotations

from dataclasses import dataclass, field
from typing import TextIO

from ..model.readable import readable
from ..record.faults import Fault
from ..record.whole_file import replacing
from ..report.formats import FORMATS
from ..report.grouping import entries
from ..report.report import Report
from ..report.screen import screen_of
from ..report.style import style_of
from ..report.text import Shown, text
from ..model.verdict import Verdict
from .saying import say, write

STANDARD_OUTPUT = "-"
PROMPT = "$"
"""What a shell writes behind all."""


@dataclass
class Wanted:
    """The formats that are asked for, and how much is shown of the list for a person."""

    files: dict[str, str] = field(default_factory=dict)
    """By the name of a format the file, or `-` for standard output."""
    shown: Shown = field(default_factory=Shown)
    called: str = "python3 -m itc_trace"
    """How the command line is called."""

    def outputs(self) -> list[tuple[str, str | None]]:
        """The files, each with its option. Standard output may be given once."""
        to_output = [f"--{name}" for name, file in self.files.items() if file == STANDARD_OUTPUT]
        if len(to_output) > 1:
            raise Fault(f"{' and '.join(to_output)} both write to standard output: name a file for one of them")
        return [(f"--{name}", file) for name, file in self.files.items() if file != STANDARD_OUTPUT]

    @property
    def takes_output(self) -> bool:
        return STANDARD_OUTPUT in self.files.values()


def next_step(report: Report, wanted: Wanted, export: str | None, is_run: bool) -> str:
    """What to do next, in one line for whoever sits at a terminal. Empty if there is nothing to say."""
    kept = export or next((file for name, file in wanted.outputs() if name == "--json" and file is not None), None)
    if not report.findings:
        is_whole = is_run and report.verdict is Verdict.NO_RACE
        return "itc_trace: next: --runs 10 tries other schedules" if is_whole else ""
    first = report.findings[0] if wanted.shown.is_all else entries(report.findings)[0].shown
    identity = first.identity
    if kept is None:
        return f"itc_trace: next: keep the trace by --export FILE, and type `{wanted.called} explain {identity} FILE`"
    return f"itc_trace: next: `{wanted.called} explain {identity} {kept}` tells of this race, and --picture draws it"


def list_shown(report: Report, wanted: Wanted, stream: TextIO | None, next_line: str = "", ending: str = "") -> str:
    """The list for a person who looks at a stream. On a terminal it leaves room for the prompt and for the next line.

    What is to end its last line has room there, too.
    """
    screen = screen_of(stream)
    if screen is not None:
        screen = screen.without([PROMPT, *([next_line] if next_line else []), *([ending] if ending else [])])
    return text(report, wanted.shown, style_of(stream), screen) + ending


def deliver(report: Report, wanted: Wanted) -> bool:
    """Writes the report. Gives whether all of it was written, and says why if it was not."""
    return all([_write(FORMATS[name](report), file) for name, file in wanted.files.items()])


def _write(text: str, file: str) -> bool:
    told = text.encode("utf-8", "backslashreplace")  # What stands for a byte of a name is an escape of JSON so.
    if file == STANDARD_OUTPUT:
        return write(told)
    try:
        with replacing(file) as new, open(new, "wb") as written:
            written.write(told)
    except OSError as fault:
        say(f"itc_trace: {readable(file)} cannot be written: {fault.strerror}")
        return False
    return True
