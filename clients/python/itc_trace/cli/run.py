"""Runs a program with tracing on, and lists its races at its end."""

from __future__ import annotations

import _imp
import contextlib
import importlib.util
import io
import json
import os
import random
import subprocess
import sys
import tempfile
import time
import warnings
from collections.abc import Callable, Collection, Iterable, Iterator
from dataclasses import dataclass, field, replace
from functools import partial
from pathlib import Path
from typing import IO, Protocol

from ..analyse.benign import Looking
from ..analyse.deadlocks import Deadlock
from ..analyse.kept_sources import add_sources
from ..record.collector import HOST, find_in_repository
from ..record.dividing import LEAVE
from .ending import Child, Ended, ends_by_signals, is_asked_to_end
from ..record.environment import OWN_TENANT
from ..record.faults import WORDS_REFUSED, Fault, look
from ..record.whole_file import replacing
from .output_files import check_outputs
from .reporting import Wanted, deliver, list_shown, next_step
from .saying import UNWRITTEN, say
from .ticking import left_in_words, ticking
from .statuses import OWN_STATUSES, forget_status, keep_status, own_status
from ..report.merging import Merged
from ..processes.part_collectors import PartCollectors
from ..analyse.parts import number_of_parts, races_of_parts
from ..analyse.progress import Bar
from ..report.race_rows import race_rows
from ..report.report import Report, report_of
from ..report.screen import is_terminal
from .trying import MOST_PAIRS, plan_of
from ..analyse.races import Race, Races
from ..analyse.seeing import races_seen
from ..session import Refused
from ..analyse.snapshot import snapshot
from ..model.finding import runs_in_words
from ..model.handed_over import RAISED, REFUSED, Plan, excluding
from ..model.readable import readable
from ..model.verdict import BREAKS_OFF, REMOVED, Cause, PassedOver, Unseen, Verdict

UNTOUCHED = """\
itc_trace: nothing was touched, so there was no race to find
    Wrap what tasks share by itc_trace.shared(value, "name"), or call itc_trace.touch("name") where it is used.
    A number, a text or a tuple needs touch."""
MOST_SEED = 1 << 32
MOST_TRIES = 5
"""So many further runs try what is possible."""
SHAKEN_TRIES = (2, 4)
"""Which of these are shaken, too. Others leave the order of tasks as it was before they meet."""


@dataclass
class Run:
    """What `run` was asked for."""

    words: list[str]
    port: int | None = None
    tenant: str = OWN_TENANT
    process: str | None = None
    export: str | None = None
    journal: str | None = None
    picture: str | None = None
    host: str = HOST
    quiet: bool = False
    watched: list[str] | None = None
    """The packages that are watched beside the program's own modules. None watches nothing."""
    excluded: list[str] = field(default_factory=list)
    """Patterns of files of the program that are not watched."""
    looking: Looking = field(default_factory=Looking)
    fail_on_possible: bool = False
    runs: int = 1
    seed: int | None = None
    """By which the first run is shaken, and each later one by the next number."""
    part_events: int = LEAVE.events
    """After so many events a new part of the trace begins."""
    is_shaken: bool = True
    """Whether the runs from the second one on are shaken."""
    inputs: list[tuple[str, str]] = field(default_factory=list)
    """The files that are read for the list of races, each with the word for it."""
    baseline: str | None = None
    """Where the races that were found are written, to be known."""
    is_confirmed: bool = False
    """Whether possible deadlocks and races are tried in further runs."""
    cycles: list[list[tuple[str, str]]] | None = None
    """The steps of those that this run tries."""
    plan: Plan | None = None
    """Where this run is to have tasks meet."""
    timeout: float | None = None
    """After so many seconds it is told what the program waits for, and the program is ended."""
    status_file: str | None = None
    """Where the verdict and the program's status are written apart."""
    wanted: Wanted = field(default_factory=Wanted)
    """The formats that the report is written in."""
    label: str = ""
    """Which of several runs this is, for a line of progress."""

    def of(self, number: int) -> Run:
        """The run of this number, with files of its own."""
        if self.runs == 1:
            return self
        named = {name: f"{file}.{number}" for name in ("export", "journal", "picture") if (file := getattr(self, name))}
        return replace(self, **named, label=f"run {number} of {self.runs}: ")


@dataclass
class Outcome:
    """What became of one run."""

    status: int
    races: Races
    has_raised: bool
    """Whether an error of the program ended it."""
    draw: Callable[[], str | None]
    """Draws the picture, as long as the files of the run are there. Gives where it is."""
    picture: str | None = None


def run(asked: Run) -> int:
    """The program's own status where the verdict is 0, else that of the verdict."""
    _check(asked)
    forget_status(asked.status_file)
    try:
        with ends_by_signals():
            return _run_once(asked, asked.seed) if asked.runs == 1 else _run_often(asked)
    except Ended as ended:
        say(f"itc_trace: incomplete: {readable(str(ended))}")
        return keep_status(asked.status_file, Verdict.INCOMPLETE, None)


def _check(asked: Run) -> None:
    """Finds what keeps the program from being run before anything is started."""
    program = asked.words[0]
    if program == "-m":
        _check_module(asked.words[1])
    elif not os.path.exists(program):
        raise Fault(f"there is no program {program}: name a file, or -m and a module")
    elif not os.path.isdir(program):
        _check_syntax(program)
    _check_outputs(asked)
    if asked.port is not None:
        look(asked.tenant, asked.port, asked.host)


def _check_outputs(asked: Run) -> None:
    inputs = list(asked.inputs)
    if asked.words[0] != "-m":
        inputs.append(("the program", asked.words[0]))
    for number in range(1, asked.runs + 1):
        one = asked.of(number)
        beside = f"{one.export}.journal" if one.export is not None and one.journal is None else None
        check_outputs((
            ("--status-file", asked.status_file), ("--write-baseline", asked.baseline), ("--export", one.export),
            ("--journal", one.journal), ("--picture", one.picture),
            ("the journal of --export", beside), *asked.wanted.outputs(),
        ), inputs)


def _check_module(name: str) -> None:
    top = name.partition(".")[0]
    sys.path.insert(0, os.getcwd())
    try:
        if importlib.util.find_spec(top) is None:
            raise Fault(f"there is no module {name}: name one that python3 -m would find, or a file")
    except ValueError:
        pass  # A module without a specification is there.
    finally:
        del sys.path[0]


NOT_UTF_8 = "(unicode error) 'utf-8' codec"
"""So the language says that the bytes of a source are no text."""


def _check_syntax(program: str) -> None:
    source = Path(program).read_bytes()
    if source.startswith(b"PK"):
        return  # An archive with a program in it.
    try:
        with warnings.catch_warnings():
            warnings.simplefilter("ignore")  # The program's own run gives them.
            compile(source, program, "exec", dont_inherit=True)
    except SyntaxError as error:
        if error.msg.startswith(NOT_UTF_8):
            told = "it is no text in UTF-8, and names no other encoding"
            raise Fault(f"{program} cannot be run: {told}") from error
        where = "" if error.lineno is None else f" at line {error.lineno}"
        raise Fault(f"{program} cannot be run: {error.msg}{where}: mend it first") from error
    except (ValueError, RecursionError, MemoryError) as error:
        raise Fault(f"{program} cannot be run: {error}: name a program of Python") from error


def _run_once(asked: Run, seed: int | None) -> int:
    outcome = _outcome(asked, seed)
    if outcome is None:
        return WORDS_REFUSED
    report = report_of(outcome.races, asked.looking, asked.fail_on_possible, outcome.picture)
    is_delivered = _tell(asked, report, outcome.status)
    is_untouched = asked.watched is None and _is_untouched(outcome.races) and not outcome.has_raised
    if is_untouched and _is_told(asked, report, outcome.status):
        say(UNTOUCHED)
    return _kept(asked, report, outcome.status, is_delivered)


class _Tried(Protocol):
    """What was found, of which deadlocks and races may be possible only."""

    tries: int

    @property
    def tried(self) -> list[Deadlock]:
        """The deadlocks that are possible only."""

    def confirm(self, keys: Collection[object]) -> None:
        """Those of these keys have been."""

    @property
    def tried_races(self) -> list[Race]:
        """The races that are possible only."""

    def confirm_races(self, keys: Collection[object]) -> None:
        """Those of these keys have been."""

    def add_further(self, races: Iterable[Race]) -> None:
        """A further run has had these, too."""


def _confirm(asked: Run, found: _Tried) -> set[object]:
    """Tries all that is possible only, and tells what came of it. Gives the keys of what further runs met."""
    return _confirm_deadlocks(asked, found) | _confirm_races(asked, found)


def _further(asked: Run) -> Run:
    """A further run, which keeps nothing."""
    return replace(
        asked, port=None, host=HOST, export=None, journal=None, picture=None, status_file=None, is_confirmed=False,
        looking=Looking(asked.looking.strict), label="--confirm: ",
    )


def _confirm_races(asked: Run, found: _Tried) -> set[object]:
    """Runs the program again as long as a race is possible only, and has tasks meet at the two lines of each. Gives the
    keys of those that it had.
    """
    met: set[object] = set()
    if found.tried_races and not is_asked_to_end() and not asked.quiet:
        say(f"itc_trace: --confirm runs the program {MOST_TRIES} times at most, and holds tasks where they may race")
    more = len(found.tried_races) - MOST_PAIRS
    if more > 0 and not asked.quiet:
        say(f"itc_trace: --confirm: {more} further pairs of lines are not tried: {MOST_PAIRS} is the most")
    for number in range(MOST_TRIES):
        left = found.tried_races[:MOST_PAIRS]
        if not left or is_asked_to_end():
            break
        seed = random.SystemRandom().randrange(MOST_SEED) if number in SHAKEN_TRIES else None
        looking = Looking(asked.looking.strict, asked.looking.patterns, asked.looking.baseline)
        outcome = _outcome(replace(_further(asked), plan=plan_of(left, number), looking=looking), seed)
        found.tries += 1
        races = [] if outcome is None else outcome.races.races
        keys = {race.key for race in races}
        found.confirm_races(keys)
        found.add_further(races)
        met |= keys.intersection(race.key for race in left)
    _tell_untold(asked, found)
    return met


def _tell_untold(asked: Run, found: _Tried) -> None:
    """How many races that are told as possible were not met."""
    left = found.tried_races[:MOST_PAIRS]
    for race in left:
        race.try_in_vain(found.tries)
    if left and not asked.quiet:
        were = "was" if len(left) == 1 else "were"
        say(f"itc_trace: --confirm: {len(left)} of the pairs of lines {were} not met in {runs_in_words(found.tries)}")


def _confirm_deadlocks(asked: Run, found: _Tried) -> set[object]:
    """Runs the program again if a deadlock is possible, and has each task wait before its inner lock. Gives the keys of
    those that it met.

    A wait for a queue is not tried: nobody would see that it has closed.
    """
    cycles = [[one.places for one in deadlock.steps] for deadlock in found.tried]
    if not cycles or is_asked_to_end():
        return set()
    if not asked.quiet:
        say("itc_trace: --confirm runs the program again, and holds its tasks before their inner locks")
    outcome = _outcome(replace(_further(asked), cycles=cycles), None)
    met: set[object] = set() if outcome is None else {deadlock.key for deadlock in outcome.races.deadlocks}
    found.confirm(met)
    count = len(found.tried)
    if count and not asked.quiet:
        say(f"itc_trace: --confirm: {count} possible deadlock{'' if count == 1 else 's'} did not come about")
    return met


def _is_told(asked: Run, report: Report, status: int) -> bool:
    """Whether there is something to say to a person."""
    is_ambiguous = not report.verdict and status in OWN_STATUSES
    return bool(report.verdict or report.findings) or is_ambiguous or not asked.quiet


def _tell(asked: Run, report: Report, status: int) -> bool:
    """Tells what was found. Gives whether all formats that are asked for were written."""
    if _is_told(asked, report, status):
        step = next_step(report, asked.wanted, asked.export if asked.runs == 1 else None, asked.runs == 1)
        say(list_shown(report, asked.wanted, sys.stderr, step, own_status(report.verdict, status)))
        if step and is_terminal(sys.stderr):
            say(step)
    return deliver(report, asked.wanted)


def _kept(asked: Run, report: Report, status: int, is_delivered: bool) -> int:
    """The status of the command."""
    told = keep_status(asked.status_file, report.verdict, status)
    return told if is_delivered else UNWRITTEN


def _run_often(asked: Run) -> int:
    """Runs it several times, and tells what was found in all of them together."""
    with contextlib.closing(contextlib.ExitStack()) as files:
        return _run_each(asked, files)


def _run_each(asked: Run, files: contextlib.ExitStack) -> int:
    """The files of the runs go with the stack, if pictures of them are drawn again."""
    merged, begun = Merged(), time.monotonic()
    drawn: list[Outcome] | None = [] if asked.is_confirmed and asked.picture is not None else None
    first_seed = random.SystemRandom().randrange(MOST_SEED) if asked.seed is None else asked.seed
    for number in range(1, asked.runs + 1):
        is_shaken = asked.seed is not None or asked.is_shaken and number > 1
        seed = (first_seed + number - 1) % MOST_SEED if is_shaken else None
        tried = merged.tried_races if asked.is_shaken else []
        one = replace(asked.of(number), plan=plan_of(tried, merged.tries) if tried else None)
        outcome = _outcome(one, seed, None if drawn is None else files)
        if outcome is None:
            return WORDS_REFUSED
        if drawn is not None:
            drawn.append(outcome)
        merged.add(outcome.races, outcome.status, seed, bool(tried))
        if not asked.quiet:
            left = left_in_words(time.monotonic() - begun, number, asked.runs) if is_terminal(sys.stderr) else ""
            told = f"run {number} of {asked.runs}{_by_seed(seed)}: {outcome.races.found()}{left}"
            say(f"itc_trace: {readable(told)}")
        if is_asked_to_end():
            break
    if asked.is_confirmed:
        _draw_confirmed(drawn or (), _confirm(asked, merged))
    report = merged.report(asked.looking, asked.fail_on_possible)
    return _kept(asked, report, merged.status, _tell(asked, report, merged.status))


def _draw_confirmed(outcomes: Iterable[Outcome], met: set[object]) -> None:
    """Draws the runs anew in which a deadlock or a race of these keys was possible only."""
    for outcome in outcomes:
        races = outcome.races
        deadlocks = {one.key for one in races.possible_deadlocks}
        if met & (deadlocks | {one.key for one in (*races.possible, *races.hidden)}):
            races.confirm(met)
            races.confirm_races(met)
            outcome.draw()


def _size_in_words(journal: str) -> str:
    """How large the journal of a run is."""
    try:
        return f"{os.path.getsize(journal) / 1e6:.1f} MB of journal, "
    except OSError:
        return ""


def _by_seed(seed: int | None) -> str:
    return "" if seed is None else f" (--shake={seed})"


def _outcome(asked: Run, seed: int | None, files: contextlib.ExitStack | None = None) -> Outcome | None:
    """What became of one run. None where the program could not be started, which was told.

    Its files go at once, or with the stack that is given.
    """
    with contextlib.closing(contextlib.ExitStack()) as own, _collectors(asked) as collectors:
        work = (own if files is None else files).enter_context(tempfile.TemporaryDirectory(prefix="itc_trace_"))
        journal = asked.journal or (f"{asked.export}.journal" if asked.export else os.path.join(work, "journal"))
        Path(journal).write_bytes(b"")
        with ticking(None if asked.quiet else sys.stderr, lambda: f"{asked.label}{_size_in_words(journal)}"):
            told_by, asked_by = os.path.join(work, "told"), os.path.join(work, "asked")
            child = _run_program(asked, collectors, journal, told_by, asked_by, seed)
        if child.told == REFUSED:
            return None
        number = number_of_parts(journal) if collectors is not None and os.path.exists(journal) else 1
        port, is_divided = _port(asked, collectors, number), number > 1
        if is_divided:
            parts = asked.export or (None if asked.picture is None else os.path.join(work, "export"))
            races = races_of_parts(journal, asked.looking, Bar(sys.stderr), (asked.tenant, port), parts)
        else:
            with _opened(journal) as rows:
                races = races_seen(asked.tenant, port, rows, asked.host, asked.looking, Bar(sys.stderr))
            if not os.path.exists(journal):
                races.unseen = [REMOVED if one == BREAKS_OFF else one for one in races.unseen]
        races.passed_over += [PassedOver("files", pattern) for pattern in asked.excluded]
        if (asked.journal or asked.export) and os.path.exists(journal):
            add_sources(journal)
        if child.is_timed_out:
            races.unseen = [
                Unseen(Cause.KILLED, f"the program was ended after {asked.timeout:g} s"),
                *(one for one in races.unseen if one != BREAKS_OFF and one.cause is not Cause.KILLED),
            ]
        elif child.signal_name and not _is_killed(races):
            killed = Unseen(Cause.KILLED, f"the program was ended by {child.signal_name}")
            races.unseen = [killed, *(one for one in races.unseen if one != BREAKS_OFF)]
        if asked.is_confirmed and asked.runs == 1:
            _confirm(asked, races)
        if is_divided:
            drawing = partial(draw_parts, parts, asked.picture, races, _name_of(asked))
            is_kept = True
        else:
            export = asked.export or os.path.join(work, "export")
            drawing = partial(_draw_whole, asked, export, journal, races)
            is_kept = _keep(asked, port, export, races)
        return Outcome(child.status, races, child.told == RAISED, drawing, drawing() if is_kept else None)


def _opened(journal: str) -> IO[str]:
    """The journal of a run. One that the program has removed has no lines, and so breaks off."""
    try:
        return open(journal, encoding="utf-8", errors="replace")
    except FileNotFoundError:
        return io.StringIO()


def _is_killed(races: Races) -> bool:
    return any(one.cause is Cause.KILLED for one in races.unseen)


@contextlib.contextmanager
def _collectors(asked: Run) -> Iterator[PartCollectors | None]:
    """Collectors of its own, if the run does not report to one that is there."""
    if asked.port is not None:
        yield None
        return
    with PartCollectors(asked.tenant) as collectors:
        yield collectors


def _port(asked: Run, collectors: PartCollectors | None, part: int = 1) -> int:
    return collectors.port_of(part) if collectors is not None else asked.port or 0


def _run_program(
    asked: Run, collectors: PartCollectors | None, journal: str, told: str, asked_by: str, seed: int | None,
) -> Child:
    configuration = {
        "port": _port(asked, collectors), "tenant": asked.tenant, "journal": os.path.abspath(journal),
        "process": asked.process, "host": asked.host,
        "watched": None if asked.watched is None else [*asked.watched, *map(excluding, asked.excluded)],
        "told": told, "seed": seed, "asked": asked_by, "confirm": asked.cycles, "plan": _kept_plan(asked.plan, told),
        "parts": (None if collectors is None or asked.process is not None else collectors.asked_at, asked.part_events),
    }
    words = [
        sys.executable, *options_of_interpreter(), "-m", "itc_trace.cli.launch", json.dumps(configuration), *asked.words
    ]
    return Child(words, environment_of_package(), told, asked_by, asked.timeout)


def _kept_plan(plan: Plan | None, told: str) -> str | None:
    """The file that has the plan, which may be too long for a word of a command."""
    if plan is None:
        return None
    file = f"{told}.plan"
    Path(file).write_text(json.dumps(plan), encoding="ascii")
    return file


def options_of_interpreter() -> list[str]:
    """The options with which this Python was begun. The library knows most of them, and some of those by `-X`."""
    options: list[str] = subprocess._args_from_interpreter_flags()  # type: ignore[attr-defined]
    known = {options[place + 1].partition("=")[0] for place, word in enumerate(options) if word == "-X"}
    for name, value in sys._xoptions.items():
        if name not in known:
            options += ["-X", name if value is True else f"{name}={value}"]
    if _imp.check_hash_based_pycs != "default":
        options += ["--check-hash-based-pycs", _imp.check_hash_based_pycs]
    return options


def environment_of_package() -> dict[str, str]:
    """The package has to be found by the program's process, too, wherever it was found by this one."""
    own = str(Path(__file__).resolve().parent.parent.parent)
    environment = dict(os.environ)
    paths = [own, *environment.get("PYTHONPATH", "").split(os.pathsep)]
    environment["PYTHONPATH"] = os.pathsep.join(path for path in paths if path)
    return environment


def _keep(asked: Run, port: int, export: str, races: Races) -> bool:
    """Writes the export if it or a picture is asked for. Gives whether it did."""
    if asked.export is None and asked.picture is None:
        return False
    try:
        with replacing(export) as new, open(new, "w", encoding="ascii", newline="\n") as output:
            snapshot(asked.tenant, port, output, asked.host)
    except (OSError, Refused) as fault:  # The collector is gone, say.
        races.unseen.append(Unseen(Cause.COLLECTOR, f"the trace cannot be kept ({fault})"))
        return False
    return True


def _draw_whole(asked: Run, export: str, journal: str, races: Races) -> str | None:
    """Draws a run that is not divided, if a picture is asked for. Gives where the picture is."""
    words = ["--labels", journal, *titled(_name_of(asked))]
    return asked.picture if asked.picture is not None and draw(export, words, asked.picture, races) else None


def _name_of(asked: Run) -> str:
    """The program that ran, as its picture is titled."""
    return asked.words[1] if asked.words[0] == "-m" else os.path.basename(asked.words[0])


def titled(name: str) -> list[str]:
    """The words by which a picture is titled, if what ran has a name."""
    return [f"--program={name}"] if name else []


def draw_parts(parts: str | None, picture: str | None, races: Races, name: str) -> str | None:
    """Draws all parts of a run in one page, whose exports are listed there. Gives where the picture is."""
    if parts is None or picture is None:
        return None
    return picture if draw(os.devnull, ["--parts", parts, *titled(name)], picture, races) else None


class _NotDrawn(Exception):
    """Why there is no page."""


def draw(export: str, about: list[str], picture: str, races: Races) -> bool:
    """Draws the trace with its races, and what the words name beside. Gives whether it did."""
    command = os.environ.get("ITC_PICTURE") or find_in_repository("picture")
    if command is None:
        say("itc_trace: no picture: the command of that name is in the repository of itc_trace")
        return False
    try:
        with replacing(picture) as new, tempfile.NamedTemporaryFile("w", suffix=".races", encoding="utf-8") as rows:
            rows.write(race_rows(report_of(races)))
            rows.flush()
            _draw_page(export, [command, *about, "--races", rows.name], new)
    except (_NotDrawn, OSError) as fault:
        say(f"itc_trace: no picture: {getattr(fault, 'strerror', None) or fault}")
        return False
    return True


def _draw_page(export: str, words: list[str], file: str) -> None:
    with open(export, "rb") as given, open(file, "wb") as page:
        drawn = subprocess.run(
            words, stdin=given, stdout=page, stderr=subprocess.PIPE, encoding="utf-8", errors="replace", check=False,
        )
    if drawn.returncode:
        raise _NotDrawn((drawn.stderr.splitlines() or [words[0]])[-1])


def draw_tenant(tenant: str, port: int, host: str, lines: Iterable[str], picture: str, races: Races) -> bool:
    """Draws what the collector has of the tenant, with the labels of a journal's lines. Gives whether it did."""
    with tempfile.TemporaryDirectory(prefix="itc_trace_") as work:
        export, journal = os.path.join(work, "export"), os.path.join(work, "journal")
        with open(export, "w", encoding="ascii", newline="\n") as output:
            snapshot(tenant, port, output, host)
        # The last one of a program that still runs may be cut off.
        whole = [line for line in lines if line.endswith("\n")]
        Path(journal).write_text("".join(whole), encoding="utf-8")
        return draw(export, ["--labels", journal], picture, races)


def _is_untouched(races: Races) -> bool:
    return not races.touches and not races.unseen and not races.found_ones


def tell_if_untouched(races: Races) -> None:
    """Says on standard error what a program has to do for its races to be found, where nothing was touched."""
    if _is_untouched(races):
        say(UNTOUCHED)
