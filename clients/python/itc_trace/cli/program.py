"""The commands of the collector's program, as `itc-trace` has them: by a file's name too, and with faults in words."""

from __future__ import annotations

import contextlib
import ctypes
import os
import re
import signal
import socket
import subprocess
import sys
from collections.abc import Callable, Iterator
from dataclasses import dataclass
from typing import IO

from ..record.collector import HOST
from ..record.faults import WORDS_REFUSED, Fault
from .parser import TENANT
from .saying import UNWRITTEN, say, write

NAME = "itc-trace"
HELPS = frozenset(("-h", "--help"))
USAGES = {"check": "check [EXPORT]", "load": "load <TENANT> [EXPORT]"}
"""Of the commands that take a file's name."""
EXPORT = "  [EXPORT]     The file of the export; standard input, if none is named\n"
MOST_TENANTS = 16
NOT_AN_EXPORT = re.compile(r"(?:itc_trace: )?no (\d+) (\d+)\n?")
FAULT = re.compile(r"itc_trace: ([a-z ]+)\n?")
HANDED_ON = (signal.SIGINT, signal.SIGTERM, signal.SIGHUP, signal.SIGQUIT)
END_WITH_PARENT = 1
"""The option of prctl by which a process is sent a signal once its parent has ended."""


@dataclass
class Typed:
    """What was typed behind `itc-trace`, for a command of the program."""

    command: str
    words: list[str]
    """Those of the program."""
    tenants: list[str]
    options: dict[str, str]
    file: str | None = None
    """What is read in place of standard input."""

    @property
    def input(self) -> str:
        return self.file or "standard input"


def run_program(program: str, command: str, words: list[str]) -> int:
    """Runs a command of the program. The status is the program's."""
    if not HELPS.isdisjoint(words):
        return 0 if write(help_of(program, command)) else UNWRITTEN
    typed = _typed(command, words)
    with _given(typed) as given:
        return _run(program, typed, given)


def help_of(program: str, command: str) -> str:
    """The program's help, with the name and the words that `itc-trace` has."""
    told = subprocess.run([program, command, "--help"], capture_output=True, text=True, check=True).stdout
    own = re.sub(r"\bitc_trace (?=[a-z])", f"{NAME} ", told).replace("itc_trace: ", f"{NAME}: ")
    if command not in USAGES:
        return own
    head, rest = own.partition("Usage: ")[0], own.partition("\nOptions:")[2]
    tenant = re.search(r"^  <TENANT>.*\n", own, re.M)
    return f"{head}Usage: {NAME} {USAGES[command]}\n\nArguments:\n{tenant[0] if tenant else ''}{EXPORT}\nOptions:{rest}"


def _typed(command: str, words: list[str]) -> Typed:
    """Takes the words apart. Each option of the program takes a value, and a command that takes a file has none."""
    options: dict[str, str] = {}
    places = []
    place = 0
    marked = words.index("--") if "--" in words else len(words)
    while place < len(words):
        name, sign, value = words[place].partition("=")
        if words[place].startswith("-") and words[place] != "-" and place <= marked:
            if command in USAGES and place < marked:
                raise Fault(f"{command} has no option {name}: {_usage(command)}")
            takes_next = not sign and name != "--" and command not in USAGES
            options[name] = "".join(words[place + 1 : place + 2]) if takes_next else value
            place += 2 if takes_next else 1
        else:
            places.append(place)
            place += 1
    return _with_file(Typed(command, list(words), [words[place] for place in places], options), places)


def _with_file(typed: Typed, places: list[int]) -> Typed:
    """Takes the file's name out of the words, if the command takes one."""
    if typed.command not in USAGES:
        return typed
    tenants = 1 if typed.command == "load" else 0
    if len(places) > tenants + 1:
        further = typed.tenants[tenants + 1]
        raise Fault(f"{typed.command} takes one export, and {further} is a word too many: {_usage(typed.command)}")
    if len(places) == tenants == 1 and not TENANT.fullmatch(typed.tenants[0]) and os.path.exists(typed.tenants[0]):
        raise Fault(f"load wants the name of a tenant before the file {typed.tenants[0]}: {_usage(typed.command)}")
    if len(places) < tenants:
        raise Fault(f"load wants the name of a tenant: {_usage(typed.command)}")
    if len(places) > tenants:
        typed.file = typed.tenants.pop()
        del typed.words[places[-1]]
    return typed


def _usage(command: str) -> str:
    return f"{NAME} {USAGES[command]}"


@contextlib.contextmanager
def _given(typed: Typed) -> Iterator[IO[bytes] | None]:
    """The file that is read, or None for standard input."""
    if typed.file is None or typed.file == "-":
        _look_at_input(typed)
        yield None
        return
    try:
        file = open(typed.file, "rb")
    except OSError as fault:
        raise Fault(f"{typed.file or 'a file without a name'} cannot be read: {fault.strerror}") from fault
    with file:
        yield file


def _look_at_input(typed: Typed) -> None:
    """Standard input has to be there, and whoever sits at a terminal is told that it is read."""
    if typed.command == "serve":
        return
    if sys.stdin is None:
        raise Fault(f"standard input is closed: {typed.command} reads {_what_is_read(typed)}")
    if sys.stdin.isatty():
        say(f"{NAME}: reads {_what_is_read(typed)} from the terminal, until Ctrl-D")


def _what_is_read(typed: Typed) -> str:
    return "an export" if typed.command in USAGES else "lines of a tenant and a request"


def _run(program: str, typed: Typed, given: IO[bytes] | None) -> int:
    is_check = typed.command == "check"
    process = subprocess.Popen(
        [program, typed.command, *typed.words], stdin=given, stdout=subprocess.PIPE if is_check else None,
        stderr=subprocess.PIPE,
        text=True, errors="replace", preexec_fn=_end_with_parent,
    )
    _hand_signals_on(process)
    assert process.stderr is not None
    answer = process.stdout.read() if process.stdout is not None else ""
    is_silent = not answer
    for line in process.stderr:
        is_silent = False
        say(_in_words(program, typed, line.rstrip("\n")))
    status = process.wait()
    if status > 0 and is_silent:
        advice = "set ITC_TRACE to the path of itc_trace if it is none"
        say(f"{NAME}: {program} ended with status {status} and said nothing: {advice}")
    if status < 0:
        _end_by(-status)
    return _tell(program, typed, answer, status) if is_check else status


def _end_with_parent() -> None:
    """In the child: it ends with its parent, however that one ends."""
    ctypes.CDLL(None).prctl(END_WITH_PARENT, signal.SIGKILL)


def _hand_signals_on(process: subprocess.Popen[str]) -> None:
    """Signals that would end this process end the program, of whose end this process is told. Ignored ones stay so."""
    for number in HANDED_ON:
        if signal.getsignal(number) != signal.SIG_IGN:
            signal.signal(number, lambda got, _: process.send_signal(got))


def _end_by(number: int) -> None:
    """Ends this process as the program ended."""
    signal.signal(number, signal.SIG_DFL)
    os.kill(os.getpid(), number)


def _tell(program: str, typed: Typed, answer: str, status: int) -> int:
    """Writes the answer of a check, and behind it what its reason means."""
    if not write(answer):
        return UNWRITTEN
    found = NOT_AN_EXPORT.fullmatch(answer)
    if found:
        say(f"{NAME}: {_why_no_export(program, typed, found)}")
    return status


def _in_words(program: str, typed: Typed, line: str) -> str:
    """A line of the program's standard error, in words for a person if it is one of its fixed ones."""
    no_export, fault = NOT_AN_EXPORT.fullmatch(line), FAULT.fullmatch(line)
    if no_export:
        return f"{NAME}: {_why_no_export(program, typed, no_export)}"
    if fault and fault[1] in FAULTS:
        return f"{NAME}: {FAULTS[fault[1]](typed)}"
    return re.sub(r"\bitc_trace (?=[a-z])", f"{NAME} ", line)


def _why_no_export(program: str, typed: Typed, found: re.Match[str]) -> str:
    return f"{typed.input} is no export: line {found[1]}, reason {found[2]}{sentence_of(program, found[2])}"


def sentence_of(program: str, reason: str) -> str:
    """What the reason means, as the program's help says it; nothing where it does not."""
    told = subprocess.run([program, "check", "--help"], capture_output=True, text=True, check=False).stdout
    found = re.search(rf"^  {reason} (.*)$", told, re.M)
    return f": {found[1]}" if found else ""


def _tenants(typed: Typed) -> str:
    """Which of the names is no name of a tenant."""
    for name in typed.tenants:
        if not TENANT.fullmatch(name):
            return f"{name!r} is no name of a tenant: it has 1 to 24 letters, digits or _{_of_file(typed, name)}"
    twice = next((name for name in typed.tenants if typed.tenants.count(name) > 1), None)
    if twice is not None:
        return f"tenant {twice} is named twice"
    if len(typed.tenants) > MOST_TENANTS:
        return f"{len(typed.tenants)} tenants are named: {MOST_TENANTS} at most"
    if typed.command == "load":
        return f"load takes one tenant: {_usage(typed.command)}"
    exported = typed.options.get("--export")
    if exported is not None and exported not in typed.tenants:
        named = ", ".join(typed.tenants)
        what = exported or "nothing"
        return f"--export names {what}, which is none of the tenants {named}: it is a tenant's name, no file's"
    return "the names of the tenants are not accepted"


def _of_file(typed: Typed, name: str) -> str:
    """What to do with a file that is named in place of a tenant."""
    if not os.path.isfile(name):
        return ""
    if typed.command == "serve":
        return f": {NAME} replay reads a file, and serve reads what programs report"
    return f": to read the file, write <{name} behind the names"


def _port(typed: Typed) -> str:
    """Why the port could not be bound, found out by one more attempt."""
    port = typed.options.get("--port", "")
    try:
        with socket.socket() as door:
            door.setsockopt(socket.SOL_SOCKET, socket.SO_REUSEADDR, 1)
            door.bind((HOST, int(port)))
    except PermissionError:
        return f"port {port} is kept for root: choose one above 1023 by --port"
    except (OSError, ValueError):
        return f"port {port} is in use: choose another by --port, or end who listens there"
    return f"port {port} could not be listened at: try again, or choose another by --port"


FAULTS: dict[str, Callable[[Typed], str]] = {
    "words": lambda _: "a word is no text: write it in UTF-8",
    "tenants": _tenants,
    "port": _port,
    "accept fault": lambda _: "no connection could be accepted: too many files may be open, see `ulimit -n`",
    "read fault": lambda typed: f"{typed.input} cannot be read: give it a file that is no folder",
    "write fault": lambda _: "the output cannot be written: the disk is full, or who reads it has ended",
    "input too long": lambda typed: f"{typed.input} takes more than 2^30 reads: cut it apart",
    "no memory": lambda _: (
        "out of memory: choose lower limits by --events, --tasks, --messages or --cache, or give it more"
    ),
}
"""The fixed words of the program for its faults, and what they mean here."""


def main(program: str, command: str, words: list[str]) -> int:
    try:
        return run_program(program, command, words)
    except Fault as fault:
        say(f"{NAME}: {fault}")
        return WORDS_REFUSED
