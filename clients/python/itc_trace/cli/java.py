"""Runs a program of Java with the agent that watches it, and lists its races at its end."""

from __future__ import annotations

import glob
import os
import re
import shutil
import signal
from dataclasses import dataclass, field
from pathlib import Path
from types import FrameType

from ..analyse.kept_sources import source_rows
from ..model.file_names import working_folder
from ..model.verdict import BREAKS_OFF, END_OF_ALL, Cause, Unseen
from ..record.collector import find_in_repository
from ..record.environment import ALONE, PARTS, SILENCED, Reporting
from ..record.faults import Fault
from ..record.journal import NoJournal, read_whole
from .ending import Child
from .process_sources import ProcessSources

AGENT = "itc-trace-agent.jar"
NAMED = "ITC_TRACE_AGENT"
"""The variable of the environment that names the agent."""
BUILT = "clients/java/agent/build"
"""What builds the agent, in the repository."""
WITH_A_WORD = frozenset((
    "-cp", "-classpath", "--class-path", "-p", "--module-path", "--upgrade-module-path", "--add-modules",
    "--enable-native-access", "--add-exports", "--add-opens", "--add-reads", "--limit-modules", "--patch-module",
    "--describe-module", "-d", "--source",
))
"""The options of java that take the next word."""


@dataclass
class Java:
    """What is asked for."""

    words: list[str]
    """Those of java, with its own options first."""
    agent: str | None = None
    watched: list[str] = field(default_factory=list)
    excluded: list[str] = field(default_factory=list)
    has_silenced: bool = False
    """Whether a file of patterns or a baseline may silence races."""

    def command(self) -> list[str]:
        """The words that run the program with the agent. A fault says what is missing."""
        java = shutil.which("java")
        if java is None:
            raise Fault("there is no java on the PATH: install a JDK of 17 or later")
        options = [*(f"watch={one}" for one in self.watched), *(f"exclude={one}" for one in self.excluded)]
        for one in options:
            if "," in one:
                raise Fault(f"{one.partition('=')[2]} is no package: give each package an option of its own")
        agent = os.path.abspath(_found(self.agent))
        return [java, f"-javaagent:{agent}{'=' * bool(options)}{','.join(options)}", *self.words]

    @property
    def program(self) -> str:
        """The program that runs, as its process is called: the jar, the module or the class."""
        place = 0
        while place < len(self.words) and self.words[place].startswith("-"):
            if self.words[place] in ("-jar", "-m", "--module"):
                return _short(self.words[place + 1:place + 2])
            place += 2 if self.words[place] in WITH_A_WORD else 1
        return _short(self.words[place:place + 1])


def _short(words: list[str]) -> str:
    """The name of a jar, of a module or of a class, without what it lies in."""
    name = os.path.basename(words[0]) if words else ""
    name = re.sub(r"\.(jar|java)$", "", name).split("/")[-1].split(".")[-1]
    return re.sub(r"[^A-Za-z0-9_-]", "", name) or "java"


def _found(named: str | None) -> str:
    """The agent: the one that is named, the one beside this package, or the one that was built in the repository."""
    named = named or os.environ.get(NAMED) or None
    beside = Path(__file__).resolve().parent.parent / AGENT
    build = find_in_repository(BUILT)
    built = None if build is None else Path(build).parent / AGENT
    found = named or next((str(one) for one in (beside, built) if one is not None and one.is_file()), None)
    if found is None:
        told = f"build it by {build} {built}" if build else f"build it by {BUILT} of the repository"
        raise Fault(f"there is no {AGENT}: {told}, or name it by --agent or {NAMED}")
    if not os.path.isfile(found):
        raise Fault(f"there is no agent {found}: build it by {build or BUILT}")
    return found


def _leave_to_program(_: int, __: FrameType | None) -> None:
    """The JVM answers the same signal by itself, and tells what its threads do."""


class JavaProgram:
    """A program of Java that runs and reports, from its start to its end."""

    def __init__(self, java: Java, port: int, tenant: str, folder: str) -> None:
        self._java = java
        self._folder = folder
        self._said = Reporting(port, tenant, java.program, os.path.join(folder, "journal"))
        self.unseen: list[Unseen] = []
        self.status = 0
        self._is_killed = False

    def run(self) -> None:
        """Runs it to its end."""
        environment = {**os.environ, **self._said.variables(), PARTS: "1", ALONE: "1"}
        environment |= {SILENCED: "1"} if self._java.has_silenced else {}
        told, asked = (os.path.join(self._folder, name) for name in ("told", "asked"))
        before = signal.signal(signal.SIGQUIT, _leave_to_program)
        try:
            child = Child(self._java.command(), environment, told, asked)
        finally:
            signal.signal(signal.SIGQUIT, before)
        self.status = child.status
        if child.signal_name:
            self._is_killed = True
            self.unseen.append(Unseen(Cause.KILLED, f"the program was ended by {child.signal_name}"))

    def progress(self) -> str:
        return f"{self._said.process} runs, "

    def lines(self) -> list[str]:
        """The lines of its journal, and the sources. It has several if it starts further JVMs by the same words."""
        lines: list[str] = []
        found = glob.glob(glob.escape(os.path.join(self._folder, "journal")) + "*")
        written = [path for path in sorted(found, key=lambda path: (len(path), path)) if os.path.getsize(path) > 0]
        if not written:
            self.unseen.append(Unseen(Cause.JOURNAL, "the program reported nothing"))
        for path in written:
            lines += self._lines_of(path)
        sources = ProcessSources(working_folder(), self._java.words)
        return [*lines, *(one.row() for one in source_rows(lines, sources.find)), END_OF_ALL]

    def _lines_of(self, path: str) -> list[str]:
        with open(path, encoding="utf-8", errors="replace") as journal:
            lines = list(journal)
        try:
            missing = read_whole(lines).missing
        except NoJournal:
            self.unseen.append(Unseen(Cause.JOURNAL, "the journal of the program is none"))
            return []
        self.unseen += [one for one in missing if not (self._is_killed and one == BREAKS_OFF)]
        return [line for line in lines if line.endswith("\n")]
