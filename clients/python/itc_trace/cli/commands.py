"""The commands: `python3 -m itc_trace run|system|races|explain|relay|snapshot ..`."""

from __future__ import annotations

import argparse
import errno
import io
import os
import random
import shutil
import sys

from ..analyse.baseline import read_baseline, write_baseline
from ..analyse.benign import Looking, read_patterns
from ..model.readable import readable
from ..record.collector import HOST, NoCollector
from ..record.environment import OWN_TENANT
from ..record.faults import WORDS_REFUSED, Fault, in_words, look, look_for_collector
from ..record.journal import NoJournal
from ..analyse.races import Races
from ..processes.relay import relay
from .ending import Ended, ends_by_signals
from .explain import explain
from .java import Java, JavaProgram
from .kept_trace import KeptTrace
from .options import NEW_SEED, parser
from .output_files import check_outputs
from .parser import Parser
from .saying import UNWRITTEN, say, write
from .settings import Settings, settings_here
from .reporting import STANDARD_OUTPUT, Wanted, deliver, list_shown, next_step
from .run import MOST_SEED, Run, run, tell_if_untouched
from ..session import Refused
from ..analyse.snapshot import snapshot
from ..report.hints import missing_sources
from ..report.report import report_of
from ..report.screen import is_terminal
from ..report.text import Shown
from ..model.verdict import Verdict
from .statuses import keep_status
from .system import run_reporting, run_system
from .system_file import System, read_system


LOOKING = ("run", "java", "system", "races")
"""The commands that look for races."""
EXPORT_BEGINS = b'{"events":'
LINE_BEGINS, PAGE_BEGINS = b'{"event"', b"<!"
"""So begin lines of an export or a journal, and pages."""
OPTIONS_OF_PYTHON = {
    "-c": "a file, or -m and a module, but no text of a program",
    "-": "a file, or -m and a module, but no standard input",
}
"""What is typed before a program as python3 takes it, and what `run` takes instead."""
TO_STANDARD_OUTPUT = ("--json", "--sarif")
"""The options that take `-` for their file."""


def _divided(words: list[str], options: Parser, of_java: Parser) -> tuple[list[str], list[str]]:
    """The words of `run` up to the program, and the program's own. Those of java follow its options."""
    flags, place = options.flags(), 1
    is_run = words[:1] == ["run"]
    while is_run and place < len(words) and words[place].startswith("-") and words[place] not in ("-m", "--"):
        place += 1 if words[place] in flags or "=" in words[place] else 2
    if words[:1] == ["java"]:
        place = _end_of_options(words, of_java)
    elif not is_run:
        place = len(words)
    rest = words[place:]
    return words[:place], rest[1:] if rest[:1] == ["--"] else rest


def _end_of_options(words: list[str], options: Parser) -> int:
    """The place of the first word that is java's own: its options begin with one dash, or stand behind two."""
    place = 1
    while place < len(words) and words[place].startswith("-") and words[place] != "--":
        option = words[place].partition("=")[0]
        if option not in options.options() and not option.startswith("--"):
            break
        place += 1 if option in options.flags() or "=" in words[place] else 2
    return min(place, len(words))


def _java(words: argparse.Namespace, program: list[str]) -> int:
    if not program:
        raise Fault(f"java wants what runs the program, as -jar FILE or a class{_taken_as_value(words.typed)}")
    has_silenced = bool(words.looking.patterns or words.looking.baseline)
    java = Java(program, words.agent, words.watch or [], words.exclude or [], has_silenced)
    java.command()
    system = System([], OWN_TENANT, words.export, words.picture)
    beside = None if words.export is None else f"{words.export}.journal"
    outputs = (
        ("--export", words.export), ("the journal of --export", beside), ("--picture", words.picture),
        ("--status-file", words.status_file), ("--write-baseline", words.write_baseline), *words.wanted.outputs(),
    )
    check_outputs(outputs, _read(words))
    try:
        with ends_by_signals():
            return run_reporting(
                system, lambda port, folder: JavaProgram(java, port, system.tenant, folder), words.looking,
                words.fail_on == "possible", words.status_file, words.wanted, words.quiet,
            )
    except Ended as ended:
        say(f"itc_trace: incomplete: {ended}")
        return keep_status(words.status_file, Verdict.INCOMPLETE, None)


def _run(words: argparse.Namespace, program: list[str]) -> int:
    if not program or program[0] == "-m" and not any(program[1:2]):
        raise Fault(f"run wants a program, or -m and a module{_taken_as_value(words.typed)}")
    if program[0] != "-m":
        _look_for_program(program[0], words)
    if not words.is_program_marked:
        _tell_of_options_behind(program, words.options)
    return run(Run(
        program, words.port, words.tenant, words.process, words.export, words.journal, words.picture, _host(words),
        quiet=words.quiet, fail_on_possible=words.fail_on == "possible", runs=words.runs, is_shaken=not words.no_shake,
        seed=random.SystemRandom().randrange(MOST_SEED) if words.shake == NEW_SEED else words.shake,
        part_events=words.part_events, timeout=words.timeout, is_confirmed=words.confirm,
        status_file=words.status_file,
        watched=None if words.watch_nothing else words.watch or [], excluded=words.exclude or [],
        looking=words.looking, inputs=_read(words), baseline=words.write_baseline, wanted=words.wanted,
    ))


def _host(words: argparse.Namespace) -> str:
    """Where the collector is reached, which only a port of it makes needed."""
    if words.host is not None and words.port is None:
        raise Fault("--host wants --port, too: without it a collector of its own is started here")
    return words.host or HOST


def _taken_as_value(typed: list[str]) -> str:
    """Which option has taken the program as its value."""
    last, before = typed[-1], typed[-2] if len(typed) > 1 else ""
    return f": {before} takes {last} as its value" if before.startswith("-") and os.path.exists(last) else ""


def _look_for_program(program: str, words: argparse.Namespace) -> None:
    """Says what may have been meant by a word that is no program."""
    if os.path.isfile(program):
        if program.endswith(".toml"):
            raise Fault(f"{program} is no program: if it describes a system, run it by `system {program}`")
        if is_export(program):
            raise Fault(f"{program} is no program, but an export: list its races by `races {program}`")
        if _begins(program, LINE_BEGINS) or _begins(program, PAGE_BEGINS):
            raise Fault(f"{program} is no program of Python: name a file, or -m and a module")
    elif not os.path.exists(program):
        raise Fault(f"there is no program {program or 'without a name'}: {_meant_by(program, words)}")


def is_export(file: str) -> bool:
    return _begins(file, EXPORT_BEGINS)


def _begins(file: str, with_these: bytes) -> bool:
    with open(file, "rb") as given:
        return given.read(len(with_these)) == with_these


def _meant_by(program: str, words: argparse.Namespace) -> str:
    if program and os.path.isfile(f"{program}.py"):
        return f"did you mean {program}.py?"
    if words.shake == NEW_SEED and program.isdigit():
        return f"write --shake={program} if it is a seed"
    if program and shutil.which(program):
        return "name the file that Python runs, as shop.py, without the command before it"
    return "name a file, or -m and a module"


def _looking(words: argparse.Namespace, is_first: bool) -> Looking:
    """The first run that writes a baseline reads none, also where the settings name it."""
    if is_first:
        words.baseline = None
    baseline = [] if words.baseline is None else read_baseline(words.baseline)
    return Looking(words.strict, [pattern for file in words.benign for pattern in read_patterns(file)], baseline)


def _wanted(words: argparse.Namespace, settings: Settings) -> Wanted:
    """The formats that were typed, else those that are set."""
    files = {name: file for name in ("json", "sarif") if (file := getattr(words, name)) is not None}
    if words.github:
        files["github"] = STANDARD_OUTPUT
    return Wanted(files or dict(settings.formats), Shown(words.all, words.max), words.called)


def _system(words: argparse.Namespace) -> int:
    system = read_system(words.file)
    system.export, system.picture = words.export or system.export, words.picture or system.picture
    beside = None if system.export is None else f"{system.export}.journal"
    outputs = (
        ("--export", system.export), ("the journal of --export", beside), ("--picture", system.picture),
        ("--status-file", words.status_file),
        ("--write-baseline", words.write_baseline), *words.wanted.outputs(),
    )
    check_outputs(outputs, [(words.file, words.file), *_read(words)])
    return run_system(
        system, words.looking, words.fail_on == "possible", words.status_file, words.wanted, words.timeout,
    )


def _races(words: argparse.Namespace) -> int:
    outputs = [("--write-baseline", words.write_baseline), *words.wanted.outputs()]
    found, picture = _kept(words, outputs, _read(words)).races(words.looking)
    return _tell(words, found, picture)


def _kept(
    words: argparse.Namespace, outputs: list[tuple[str, str | None]], inputs: list[tuple[str, str]],
) -> KeptTrace:
    host = _host(words)
    return KeptTrace(
        words.command, words.trace, words.journal, words.port, host, words.picture, outputs, inputs,
    )


def _explain(words: argparse.Namespace) -> int:
    kept = _kept(words, [("--benign", words.benign)], [])
    if words.benign is not None:
        check_outputs([("--benign", words.benign)], [(words.trace, words.trace)])
    return explain(words.id, kept, words.strict, words.benign)


def _tell(words: argparse.Namespace, found: Races, picture: str | None = None) -> int:
    report = report_of(found, words.looking, words.fail_on == "possible", picture, missing_sources(found))
    stream = sys.stderr if words.wanted.takes_output else sys.stdout
    step = next_step(report, words.wanted, words.trace if words.port is None else None, False)
    is_written = _tell_person(list_shown(report, words.wanted, stream, step), words.wanted)
    if step and is_terminal(stream):
        say(step)
    tell_if_untouched(found)
    return int(report.verdict) if deliver(report, words.wanted) and is_written else UNWRITTEN


def _tell_person(words: str, wanted: Wanted) -> bool:
    """Writes the list to standard output, or to standard error if another format has that. Gives whether it did."""
    if wanted.takes_output:
        say(words)
        return True
    return write(f"{words}\n")


def _relay(words: argparse.Namespace) -> None:
    host = _host(words)
    if words.listen == words.port and host == HOST:
        raise Fault(f"port {words.port} is that of the collector: have the relay listen at another by --listen")
    look_for_collector(words.port, host)
    try:
        relay(words.listen, words.port, host)
    except OSError as fault:
        is_taken = fault.errno == errno.EADDRINUSE
        why = "is in use" if is_taken else f"cannot be listened at: {fault.strerror}"
        raise Fault(f"port {words.listen} {why}: choose another by --listen") from fault


def _tell_of_options_behind(program: list[str], options: Parser) -> None:
    """Says of options of `run` behind the program that the program gets them, unless its source has their names."""
    try:
        with open(program[0], "rb") as file:
            source = file.read()
    except OSError:
        return  # It is a module, or a folder.
    for word in program[1:]:
        option = word.partition("=")[0]
        if option.startswith("--") and option in options.options() and option.removeprefix("--").encode() not in source:
            say(
                f"itc_trace: {program[0]} gets {option}: put it before {program[0]} if it is for run, "
                "or put -- before the program"
            )


def main(name: str = "python3 -m itc_trace") -> int:
    made = parser(name)
    own, program = _divided(sys.argv[1:], made.commands["run"], made.commands["java"])
    for before, word in zip(own, own[1:]):
        if own[0] == "run" and word in OPTIONS_OF_PYTHON and before not in TO_STANDARD_OUTPUT:
            made.commands["run"].refuse(f"run takes {OPTIONS_OF_PYTHON[word]}")
    words = made.parse_all(own)
    words.typed, words.options, words.called = own, made.commands["run"], name
    words.is_program_marked = "--" in sys.argv[1 : len(own) + 2]
    try:
        return _done(words, program)
    except (NoCollector, NoJournal, Refused, OSError) as fault:
        say(f"itc_trace: {in_words(fault)}")
        return WORDS_REFUSED


def _looked(words: argparse.Namespace, program: list[str]) -> int:
    """Does what a command is for that looks for races,
    and writes the baseline if one is asked for and races were looked for."""
    settings = settings_here()
    is_baseline_typed = words.baseline is not None
    settings.fill(words)
    is_first = not is_baseline_typed and words.write_baseline is not None and not os.path.exists(words.baseline or "")
    words.looking, words.wanted = _looking(words, is_first), _wanted(words, settings)
    if words.command == "run":
        status = _run(words, program)
    elif words.command == "java":
        status = _java(words, program)
    else:
        status = _system(words) if words.command == "system" else _races(words)
    if words.write_baseline is not None and words.looking.has_looked:
        return status if _is_baseline_written(words.write_baseline, words.looking) else UNWRITTEN
    return status


def _is_baseline_written(file: str, looking: Looking) -> bool:
    """Writes the races that were met, and says so."""
    try:
        write_baseline(file, looking.met)
    except OSError as fault:
        say(f"itc_trace: {readable(file)} cannot be written: {fault.strerror}")
        return False
    count = len(looking.met)
    name = readable(file)
    say(f"itc_trace: {name} has {count} race{'' if count == 1 else 's'}: --baseline {name} fails on others only")
    return True


def _read(words: argparse.Namespace) -> list[tuple[str, str]]:
    """The files that are read for a list of races. A baseline may be written anew."""
    baseline = [words.baseline] if words.baseline is not None and words.baseline != words.write_baseline else []
    return [(file, file) for file in (*words.benign, *baseline)]


def _done(words: argparse.Namespace, program: list[str]) -> int:
    """Does what a command is for. Its status."""
    if words.command in LOOKING:
        return _looked(words, program)
    if words.command == "explain":
        return _explain(words)
    if words.command == "relay":
        _relay(words)
    else:
        host = _host(words)
        look(words.tenant, words.port, host)
        taken = io.StringIO()
        snapshot(words.tenant, words.port, taken, host)
        return 0 if write(taken.getvalue()) else UNWRITTEN
    return 0
