"""Runs the small programs of the clients, each for one order that is reported by itself, and looks which of their lines race.

Each program is of Java, Rust or Go, and is run as a process of a system, in which there may be others. A line that races says so in a
comment of the source, as in `race: lost_update`, and one that races possibly as in `possible: lucky_lock`. Exactly these lines have
to be listed for the process of the program.

Usage: clients/wrappers.py FOLDER LANGUAGE.., with the built programs in FOLDER. The last line is 'wrappers: N passed'.
"""

from __future__ import annotations

import json
import os
import re
import socket
import statistics
import subprocess
import sys
import tempfile
import threading
import time
from collections.abc import Callable, Iterator
from concurrent.futures import ThreadPoolExecutor
from pathlib import Path
from typing import Any, NamedTuple

from peaks import Kind, Peaks

from itc_trace import Collector, Session

CLIENTS = Path(__file__).resolve().parent
PAGE = CLIENTS.parent / "docs" / "clients.md"
SOURCES = {"java": CLIENTS / "java/examples/Wrappers.java", "rust": CLIENTS / "rust/wrappers.rs", "go": CLIENTS / "go/wrappers/main.go"}
PRIMITIVES = {"java": CLIENTS / "java/examples/Primitives.java", "rust": CLIENTS / "rust/primitives.rs"}
"""Programs of one order each, which are run with a race and without one."""
WEB = {"java": CLIENTS / "java/examples/WebPrograms.java", "rust": CLIENTS / "rust/web_programs.rs"}
JOBS = CLIENTS / "java/examples/Jobs.java"
REQUESTS = os.environ.get("ITC_REQUESTS", "4000")
"""So many requests the long run answers, and so many jobs another one does."""
DEADLOCKS = {
    "rust": ("two_orders", "two_orders_gate", "read_orders", "read_orders_both", "tried_order", "crossed_orders", "gate_let_go",
             "hand_over_hand", "both_ends", "acquired_again", "wait_orders", "sent_orders"),
    "java": ("two_orders", "two_orders_gate", "read_orders", "read_orders_both", "tried_order", "monitor_orders", "hand_over_hand",
             "late_orders", "crossed_orders", "gate_let_go", "both_ends", "wait_orders", "latched_orders"),
}
"""Programs of which some acquire locks in orders that make a cycle."""
LUCKY = ("read_lock", "stamped_lock", "stamped_trust", "stamped_turn")
"""Those that a lock keeps in order by luck alone."""
FIRST_COME = ("monitor",)
"""Those that a lock keeps in order by luck if the giver is there before anybody waits, as on a busy machine."""
ENDS = {"java": ("exit", "halt", "panic", "goes_on"), "rust": ("dropped", "exit", "finish", "panic", "goes_on", "abort")}
"""How a program ends right behind a race."""
MOST_TIMES = 4
"""So many times as long as one of the language a free lock may take."""
FEW_EVENTS = {"rust": 60, "java": 8000}
"""In Java a lock that is no more counts up to the next collection of garbage. 6000 such locks would take 12000 events else."""
NO_RACE, RACES, INCOMPLETE = 0, 66, 67
SYSTEM = "system.toml"
"""The file that describes a system."""
MOST_OF_FIRST = 1.15
"""So many times as much memory as the collector of the first part half of the later ones may take."""
MOST_BESIDE = 12_000
"""So many kilobytes more than that any later one may take."""
AT_ONCE = max(2, len(os.sched_getaffinity(0)))
OF_A_SYSTEM = 5
"""So many programs at most are processes of one system."""
FEW = 4
"""So many are that run with a race and without one."""
DIVIDED = ("go", "java", "rust")
"""Clients whose trace goes on in another part before it is full, where the relay divides it."""
OF_A_PART = 16384
"""So many events at most a part has."""
ALONE = ("many", "filling", "contended")
"""Programs that need most of a trace for themselves."""
MOST_SECONDS = 300
SLOW = 0.3
ODD_THING = '"na\u00efve"\t\\ \U0001f600'
COMMON = {
    "lost_update": RACES, "plain_threads": RACES, "locked": NO_RACE, "lucky_lock": NO_RACE, "hand_off": NO_RACE, "after_hand_off": RACES,
    "before_end": RACES, "condition": NO_RACE, "read_lock": NO_RACE, "read_first": NO_RACE, "read_lock_race": RACES, "writer_goes_on": RACES,
    "contended": NO_RACE, "tried_lock": NO_RACE, "odd_names": NO_RACE, "other_calls": NO_RACE, "many": NO_RACE, "filling": INCOMPLETE,
}
OWN = {
    "java": {"executor": NO_RACE, "before_future": RACES, "two_jobs": RACES, "cancelled_job": RACES, "future": NO_RACE,
             "future_calls": NO_RACE, "callback_too_early": RACES},
    "rust": {"scope": NO_RACE, "rendezvous": NO_RACE, "closed_channel": NO_RACE},
    "go": {"wait_group": NO_RACE, "rendezvous": NO_RACE, "full_channel": NO_RACE, "closed_channel": NO_RACE, "context": NO_RACE,
           "late_cancel": RACES, "http": NO_RACE, "http_race": RACES},
}
LINES = ("odd_names", "hand_off", "tried_lock", "writer_goes_on", "condition", "other_calls")
OWN_LINES = {"java": ("executor",), "rust": ("scope", "rendezvous"),
             "go": ("wait_group", "rendezvous", "full_channel", "closed_channel", "context")}
"""Programs whose events each have a line of their own."""
THINGS = {"odd_names": {ODD_THING}, "wait_group": {"first", "second"}, "context": {"stock", "prices"}, "scope": {"stock", "joined"}}
"""What they touch, if it is not the stock alone."""
ODD_TASKS = ("task", "task_2", "1_2", "root", "others_2")
"""What the tasks of `odd_names` are called, behind the name of their process and two that are cut."""
OWN_NAME = "my-shop_1"
FULL_NAMES = ("go", "java", "rust")
"""Clients that tell the name of a process in full. The names of its threads begin with eight letters and digits of it."""
PYTHON = """import itc_trace
itc_trace.touch("row", across=True)  # race: across
itc_trace.touch("row", write=True, across=True)  # race: across
"""
RECEIVER = """import itc_trace, os, sys, time
while not os.path.exists(sys.argv[1]):
    time.sleep(0.01)
itc_trace.incoming(open(sys.argv[1]).read().strip())
itc_trace.touch("row", write=True, across=True)
"""
SENDER = """import itc_trace, os, sys
itc_trace.touch("row", write=True, across=True)
with open(sys.argv[1] + ".new", "w") as file:
    file.write(itc_trace.outgoing())
os.rename(sys.argv[1] + ".new", sys.argv[1])
"""


class Wrong(Exception):
    """What a program was to show, and does not."""


def marked(source: Path, word: str, name: str) -> set[str]:
    """The lines whose comment names the program behind this word."""
    lines = source.read_text().splitlines()
    names = (re.search(rf"\b{word}: ([a-z_ ]+)", line) for line in lines)
    return {f"{source.name}:{number}" for number, found in enumerate(names, 1) if found and name in found[1].split()}


PLACE = r"(?:\S+ \()?(.+?):(\d+)"
"""A file and a line, as they are told. Those of Java stand in parentheses behind the method."""


def listed(told: str, word: str, process: str | None = None) -> set[str]:
    """The lines of the races, or of the possible races, that were listed; of those on the things of a process, if one is named."""
    races = re.findall(rf"^itc_trace: {word} on (.*)\n((?: .*\n)+)", told, re.M)
    lines = "".join(lines for thing, lines in races if process is None or thing.endswith(f" of {process}"))
    return {f"{Path(file).name}:{line}" for file, line in re.findall(rf" at {PLACE}", lines)}


def listed_deadlocks(told: str, process: str) -> set[str]:
    """The lines of the possible deadlocks of tasks of the process."""
    found = re.findall(r"^itc_trace: possible deadlock on .*\n((?: .*\n)+)", told, re.M)
    lines = "".join(one for one in found if one.lstrip().startswith(f"{process}_"))
    return {f"{Path(file).name}:{line}" for file, line in re.findall(rf" (?:holds|wants) .*? at {PLACE}", lines)}


class Programs:
    """The built programs of one language."""

    def __init__(self, language: str, built: Path) -> None:
        self.language = language
        self.source = SOURCES[language]
        self._built = built

    def words(self, *words: str) -> list[str]:
        if self.language == "java":
            return ["java", "-XX:TieredStopAtLevel=1", "-cp", str(self._built / "java"), "Wrappers", *words]
        return [str(self._built / f"{self.language}_wrappers"), *words]

    def words_of_free_lock(self) -> list[str]:
        """What measures a lock, built with all optimizations."""
        if self.language == "java":
            return ["java", "-cp", str(self._built / "java"), "FreeLock"]
        return [str(self._built / f"{self.language}_free_lock")]


def run_system(
    folder: Path, options: list[str] | None = None, *, seconds: float = MOST_SECONDS, variables: dict[str, str] | None = None,
    **processes: list[str],
) -> "subprocess.CompletedProcess[str]":
    """Runs these processes as a system, with these options, for so many seconds at most, and with these variables in their environment."""
    file = folder / SYSTEM
    file.write_text("".join(f"[process.{name}]\ncommand = {json.dumps(words)}\n" for name, words in processes.items()))
    environment = {**os.environ, **(variables or {}), "PYTHONPATH": str(CLIENTS / "python")}
    return subprocess.run(
        [sys.executable, "-m", "itc_trace", "system", "--all", *(options or []), str(file)], env=environment, capture_output=True, text=True,
        timeout=seconds)


def check(ran: "subprocess.CompletedProcess[str]", status: int, races: set[str], possible: set[str]) -> None:
    found = ran.returncode, listed(ran.stderr, "race"), listed(ran.stderr, "possible race")
    if found != (status, races, possible):
        raise Wrong(f"{found} in place of {(status, races, possible)}\n{ran.stdout}{ran.stderr}")
    if status != INCOMPLETE and re.search("^itc_trace: incomplete: ", ran.stderr, re.M):  # A race has the same status then.
        raise Wrong(f"the run was not seen whole\n{ran.stdout}{ran.stderr}")


def check_orders(programs: Programs, statuses: dict[str, int]) -> None:
    """Each of these programs has the races that are due to it, in a system of them all."""
    processes = {f"p{number}": name for number, name in enumerate(statuses, 1)}
    with tempfile.TemporaryDirectory() as folder:
        ran = run_system(Path(folder), **{process: programs.words(name) for process, name in processes.items()})
    wrong = [f"{name}: {fault}" for process, name in processes.items() for fault in faults_of(ran, programs, process, name)]
    if wrong:
        raise Wrong("\n".join([*wrong, ran.stdout, ran.stderr]))
    races, possible = (set().union(*(marked(programs.source, word, name) for name in statuses)) for word in ("race", "possible"))
    check(ran, max(statuses.values()), races, possible)
    stops = ran.stderr.count("tracing stops: the trace is full")
    if stops != list(statuses.values()).count(INCOMPLETE):
        raise Wrong(f"{stops} lines say that the trace is full\n{ran.stderr}")


def faults_of(ran: "subprocess.CompletedProcess[str]", programs: Programs, process: str, name: str) -> Iterator[str]:
    """What is otherwise of this process than is due to its program."""
    for word, due in (("race", marked(programs.source, "race", name)), ("possible race", marked(programs.source, "possible", name))):
        found = listed(ran.stderr, word, process)
        if found != due:
            yield f"lines of a {word}: {found} in place of {due}"
    if f"{process} | done\n" not in ran.stdout:
        yield "it did not go on to its end"


def written(folder: str, name: str, text: str) -> Path:
    file = Path(folder) / name
    file.write_text(text)
    return file


def check_primitives(programs: Programs, names: list[str]) -> None:
    """What is done before an order is given is told to be in order, and what is done after it is told to race."""
    source, processes = PRIMITIVES[programs.language], [(name, how) for name in names for how in ("ordered", "raced")]
    with tempfile.TemporaryDirectory() as folder:
        ran = run_system(
            Path(folder), **{f"p{number}": programs.words("primitives", *process) for number, process in enumerate(processes)})
    for number, (name, how) in enumerate(processes):
        process, due = f"p{number}", marked(source, "race", "raced")
        races, possible = (listed(ran.stderr, word, process) for word in ("race", "possible race"))
        is_lucky = how == "ordered" and name in LUCKY
        is_luck_told = bool(possible) == is_lucky or (how == "ordered" and name in FIRST_COME)
        if bool(races) != (how == "raced") or not races <= due or not is_luck_told or f"{process} | done\n" not in ran.stdout:
            raise Wrong(f"{name}, {how}: {races}, and possible {possible}\n{ran.stdout}{ran.stderr}")
    if re.search("^itc_trace: incomplete: ", ran.stderr, re.M):
        raise Wrong(f"the run was not seen whole\n{ran.stderr}")


def primitives_of(programs: Programs) -> list[str]:
    """The names of these programs."""
    ran = subprocess.run(
        programs.words("primitives", "all"), env={**os.environ, "ITC_TRACE_PORT": ""}, capture_output=True, text=True, check=True,
        timeout=MOST_SECONDS)
    return ran.stdout.split()[:-1]


def check_deadlocks(programs: Programs) -> None:
    """Locks that are acquired in orders that make a cycle are told with all their places. No others are."""
    with tempfile.TemporaryDirectory() as folder:
        names = DEADLOCKS[programs.language]
        ran = run_system(Path(folder), **{f"p{number}": programs.words(name) for number, name in enumerate(names)})
    for number, name in enumerate(names):
        found, due = listed_deadlocks(ran.stderr, f"p{number}"), marked(programs.source, "deadlock", name)
        if found != due or f"p{number} | done\n" not in ran.stdout:
            raise Wrong(f"{name}: {sorted(found)} in place of {sorted(due)}\n{ran.stdout}{ran.stderr}")


def check_free_locks(programs: Programs) -> None:
    """Locks that nobody else wants, and a lock with readers that nobody writes under, leave next to nothing in the trace."""
    with tempfile.TemporaryDirectory() as folder:
        ran = run_system(Path(folder), one=programs.words("free_locks"))
    check(ran, NO_RACE, set(), set())
    events = int(re.findall(r"(\d+) events", ran.stderr)[0])
    if events > FEW_EVENTS[programs.language]:
        raise Wrong(f"{events} events\n{ran.stderr}")


def times_of_free_lock(words: list[str], of_whom: str) -> tuple[float, float]:
    """The nanoseconds of a turn of the language's lock, and of one that is wrapped, with a trace. Nobody else wants either."""
    with Collector() as collector:
        environment = {**os.environ, "ITC_TRACE_PORT": str(collector.port)}
        ran = subprocess.run([*words, of_whom], env=environment, capture_output=True, text=True, check=True, timeout=MOST_SECONDS)
    _, own, with_trace = ran.stdout.split()
    return float(own), float(with_trace)


def check_free_lock_costs(programs: Programs, of_whom: str) -> None:
    """A lock that nobody else wants takes at most four times as long as one of the language, by the best of nine rounds of each."""
    own, with_trace = times_of_free_lock(programs.words_of_free_lock(), of_whom)
    if with_trace > MOST_TIMES * own:
        raise Wrong(f"a {of_whom} takes {with_trace} ns, and untraced {own} ns")


def check_end(programs: Programs, how: str) -> None:
    """What was noted by the end of a process is told, however the end comes."""
    with tempfile.TemporaryDirectory() as folder:
        ran = run_system(Path(folder), one=programs.words("ends", how))
    source = PRIMITIVES[programs.language]
    if how == "abort":
        if ran.returncode != RACES or listed(ran.stderr, "race") != marked(source, "race", "ends") or "SIGABRT" not in ran.stderr:
            raise Wrong(f"the program that aborts\n{ran.stdout}{ran.stderr}")
    else:
        check(ran, RACES, marked(source, "race", "ends"), set())


def check_late_hook(programs: Programs) -> None:
    """Of two hooks at the end of a process one touches when the other one is done."""
    with tempfile.TemporaryDirectory() as folder:
        ran = run_system(Path(folder), one=programs.words("ends", "hook"))
    check(ran, RACES, marked(PRIMITIVES[programs.language], "race", "hook"), set())


def check_service(programs: Programs) -> None:
    """A service that is ended by SIGTERM has told all that it noted."""
    with tempfile.TemporaryDirectory() as folder:
        words = json.dumps(programs.words("ends", "sleep"))
        file = written(folder, "system.toml", f'[process.one]\ncommand = {words}\nready = "raced"\nservice = true\n'
                       '[process.other]\ncommand = ["true"]\nafter = ["one"]\ntraced = false\n')
        ran = subprocess.run(
            [sys.executable, "-m", "itc_trace", "system", "--all", str(file)], env={**os.environ, "PYTHONPATH": str(CLIENTS / "python")},
            capture_output=True, text=True, timeout=MOST_SECONDS)
    check(ran, RACES, marked(PRIMITIVES[programs.language], "race", "ends"), set())


def check_child(programs: Programs) -> None:
    """A child process comes after whoever has started it, and before whoever has waited for it. It has a name of its own."""
    for how, status in (("ordered", NO_RACE), ("raced", RACES)):
        with tempfile.TemporaryDirectory() as folder:
            ran = run_system(Path(folder), shop=programs.words("parent", how))
        check(ran, status, marked(PRIMITIVES[programs.language], "race", "parent") if status else set(), set())
        if "reported 2 times: it was started again" not in ran.stderr:  # The child has started one by plain means, which is no child.
            raise Wrong(ran.stderr)


def check_names_in_full(programs: Programs) -> None:
    """A process is told by its name in full."""
    with tempfile.TemporaryDirectory() as folder:
        ran = run_system(Path(folder), warehouse_of_all=programs.words("lost_update"))
    if "race on stock of warehouse_of_all\n" not in ran.stderr or not re.search(r"in [\w:.]*sell|at [\w.]*sell \(", ran.stderr):
        raise Wrong(ran.stderr)


def check_requests(programs: Programs) -> None:
    """A long run is divided, seen whole, and its memory stays as it is. Requests that forget the lock race across parts."""
    check_collectors(check_long(programs, "requests", WEB[programs.language]))


def check_jobs(programs: Programs) -> None:
    """The same holds of an executor that lives long, whose jobs race if one does not wait for them."""
    check_long(programs, "jobs", JOBS)


def check_long(programs: Programs, name: str, source: Path) -> Peaks:
    with tempfile.TemporaryDirectory() as folder, Peaks(Path(folder) / SYSTEM) as peaks:
        ran = run_system(Path(folder), one=programs.words(name, REQUESTS))
    check(ran, RACES, marked(source, "race", name), set())
    if int(re.findall(r"(\d+) events", ran.stderr)[-1]) <= OF_A_PART:
        raise Wrong(f"the run was not divided\n{ran.stderr}")
    return peaks


def check_collectors(peaks: Peaks) -> None:
    """The parts of a long run become no longer: each begins with little."""
    of_first, *of_others = peaks.of(Kind.COLLECTOR)
    most = MOST_OF_FIRST * of_first
    if statistics.median(of_others) > most or max(of_others) > most + MOST_BESIDE:
        raise Wrong(f"the collector of the first part takes {of_first} kB, and the others take {of_others}")


def check_across(programs: Programs) -> None:
    """A race of two processes is listed with both lines. A message orders them, whichever of them sends it."""
    with tempfile.TemporaryDirectory() as folder:
        python = written(folder, "store.py", PYTHON)
        ran = run_system(Path(folder), store=[sys.executable, str(python)], seller=programs.words("across"))
        check(ran, RACES, marked(programs.source, "race", "across") | marked(python, "race", "across"), set())
        for number, (own, other) in enumerate((("sender", RECEIVER), ("receiver", SENDER))):
            message, python = str(Path(folder) / f"message{number}"), written(folder, f"other{number}.py", other)
            ran = run_system(Path(folder), own=programs.words(own, message), other=[sys.executable, str(python), message])
            check(ran, NO_RACE, set(), set())


def check_without_collector(programs: Programs) -> None:
    """The program goes on, whether nobody says where to report, or nobody is there."""
    for port, told in (("", ""), ("9", "itc_trace: nothing is traced: "), ("many", "itc_trace: nothing is traced: ITC_TRACE_PORT is many")):
        ran = subprocess.run(
            programs.words("locked"), env={**os.environ, "ITC_TRACE_PORT": port}, capture_output=True, text=True, timeout=MOST_SECONDS)
        if (ran.returncode, ran.stdout) != (0, "done\n") or not ran.stderr.startswith(told) or ran.stderr.count("\n") != bool(told):
            raise Wrong(f"with port '{port}' the program writes {ran.stdout}{ran.stderr}")


Reply = Callable[[str], "str | None"]
"""What a collector that is none answers to a line. It ends the session at a line without an answer."""


def run_beside(programs: Programs, reply: Reply, *words: str) -> "tuple[subprocess.CompletedProcess[str], list[str]]":
    """Runs a program beside a collector that answers so. Gives the lines of its journal, too."""
    with socket.create_server(("127.0.0.1", 0)) as door, tempfile.TemporaryDirectory() as folder:
        threading.Thread(target=answer, args=(door, reply), daemon=True).start()
        journal = Path(folder) / "journal"
        environment = {**os.environ, "ITC_TRACE_PORT": str(door.getsockname()[1]), "ITC_TRACE_JOURNAL": str(journal)}
        ran = subprocess.run(programs.words(*words), env=environment, capture_output=True, text=True, timeout=MOST_SECONDS)
        if (ran.returncode, ran.stdout) != (0, "done\n"):
            raise Wrong(f"status {ran.returncode}: {ran.stdout}{ran.stderr}")
        return ran, journal.read_text().splitlines()


def answer(door: socket.socket, reply: Reply) -> None:
    connection, _ = door.accept()
    with connection, connection.makefile("r", newline="\n") as lines:
        lines.readline()  # The opening has no reply of its own.
        for line in lines:
            told = "200 0 1 0" if line == "count\n" else reply(line)
            if told is None:
                return
            connection.sendall(told.encode() + b"\n")


def check_gone_collector(programs: Programs) -> None:
    """The program goes on if the collector ends the session in the middle, and the journal says so."""
    check_stop(programs, lambda line: "201 1" if line.startswith("spawn") else None, "collector", "the collector is gone", "many")


def check_refused_report(programs: Programs) -> None:
    """The program goes on if a report is refused for no good reason. A line says which."""
    check_stop(programs, lambda line: "201 1" if line.startswith("spawn") else "401 no task", "tracer", "local p: 401 no task", "across")


def check_stop(programs: Programs, reply: Reply, cause: str, reason: str, name: str) -> None:
    ran, journal = run_beside(programs, reply, name)
    if ran.stderr != f"itc_trace: tracing stops: {reason}\n" or json.loads(journal[-1]) != {"unseen": cause, "text": reason}:
        raise Wrong(f"{ran.stderr}, and the journal ends with {journal[-1]}")


def check_full(programs: Programs) -> None:
    """The program goes on if the trace is full. So it is at a collector that nobody divides the trace of."""
    with Collector("trace") as collector, tempfile.TemporaryDirectory() as folder:
        journal = Path(folder) / "journal"
        environment = {**os.environ, "ITC_TRACE_PORT": str(collector.port), "ITC_TRACE_JOURNAL": str(journal)}
        ran = subprocess.run(programs.words("filling"), env=environment, capture_output=True, text=True, timeout=MOST_SECONDS)
        last = json.loads(journal.read_text().splitlines()[-1])
    reason = "the trace is full (413 events full)"
    if (ran.returncode, ran.stdout, ran.stderr) != (0, "done\n", f"itc_trace: tracing stops: {reason}\n") or last != {"unseen": "full", "text": reason}:
        raise Wrong(f"status {ran.returncode}: {ran.stdout}{ran.stderr}, and the journal ends with {last}")


def check_message_is_sent(programs: Programs) -> None:
    """A message is handed on once the collector has it, and no earlier."""
    with tempfile.TemporaryDirectory() as folder:
        file, early = Path(folder) / "message", []

        def reply(line: str) -> str:
            if line.startswith("send"):
                time.sleep(SLOW)
                early.append(file.exists())
            return "201 1"

        _, sent = run_beside(programs, reply, "sender", str(file))
        if early != [False] or not file.exists():
            raise Wrong(f"the message is there early: {early}")
        _, received = run_beside(programs, lambda _: "201 1", "receiver", str(file))
    check_lines(programs, [row for row in map(json.loads, sent + received) if "event" in row])


def check_journal(programs: Programs) -> None:
    """The environment names tenant, process and journal. The journal has each event as the collector has it, with its line."""
    with Collector("shop") as collector, tempfile.TemporaryDirectory() as name:
        kept = written(name, "journal", "kept")
        environment = {"ITC_TRACE_TENANT": "shop", "ITC_TRACE_PROCESS": OWN_NAME, "ITC_TRACE_JOURNAL": str(kept)}
        rows: list[dict[str, Any]] = []
        for number, program in enumerate((*LINES, *OWN_LINES.get(programs.language, ())), 2):
            subprocess.run(
                programs.words(program), env={**os.environ, **environment, "ITC_TRACE_PORT": str(collector.port)}, check=True,
                capture_output=True, timeout=MOST_SECONDS)
            *own, last = map(json.loads, Path(f"{kept}.{number}").read_text().splitlines())
            if last != {"end": True}:
                raise Wrong(f"the journal of {program} ends with {last}")
            named, own = [row for row in own if "process" in row], [row for row in own if "process" not in row]
            if [row["process"] for row in named] != [OWN_NAME if number == 2 else f"{OWN_NAME} {number - 1}"]:
                raise Wrong(f"the journal of {program} names its process by {named}")
            check_names(programs.language, program, number - 1, own)
            rows += own
        with Session("shop", collector.port, "view") as session:
            count = session.count()[0]
            told = {event: session.event(event)[:2] for event in range(1, count + 1)}
        touched = {row["event"] for row in rows if row["thing"] is not None}
        events = sorted([*touched, *(row["event"] for row in rows if row["thing"] is None)])
        if kept.read_text() != "kept" or events != list(told):
            raise Wrong(f"{count} events, and in the journals {events}; the first one is {kept.read_text()}")
    check_lines(programs, rows)
    check_events(rows, told)


def check_events(rows: list[dict[str, Any]], told: dict[int, tuple[str, str]]) -> None:
    """The collector has told the kind and the task of each event."""
    for row in rows:
        if told[row["event"]] != ("local" if row["thing"] is not None else row["kind"], row["task"]):
            raise Wrong(f"{row} is of {told[row['event']]}")


def check_names(language: str, program: str, start: int, rows: list[dict[str, Any]]) -> None:
    """What is touched, and by which task. The process was started so many times."""
    if language in FULL_NAMES:
        process, prefix, room = (OWN_NAME if start == 1 else f"{OWN_NAME} {start}"), "myshop1_", 16
    else:
        process = "mysho" if start == 1 else f"mysho{start}"
        prefix, room = f"{process}_", 12
    things = {row["thing"] for row in rows if row["thing"] is not None}
    if things != {f"{thing} of {process}" for thing in THINGS.get(program, {"stock"})}:
        raise Wrong(f"the journal of {process}, which is {program}, has {things}")
    tasks = [row["task"] for row in sorted(rows, key=lambda row: row["event"]) if row["thing"] is not None]
    second = "a" * room + "_2" if language not in FULL_NAMES else "a" * (room - 2) + "_2"
    if program == "odd_names" and tasks != [f"{prefix}{name}" for name in ("a" * room, second, *ODD_TASKS)]:
        raise Wrong(f"the tasks of {program} are {tasks}")


def check_lines(programs: Programs, rows: list[dict[str, Any]]) -> None:
    """What the program's own lines do has that line. An end has none but by hand, and neither has what nobody calls."""
    source = programs.source.read_text().splitlines()
    for row in rows:
        is_called = not row["label"].startswith(("start process", "take over")) and "_others" not in (row["label"][-7:], row["task"][-7:])
        is_there = row["file"] is not None and Path(row["file"]).name == programs.source.name and 0 < row["line"] <= len(source)
        if is_called != is_there and (row["label"], row["file"]) != ("end", None):
            raise Wrong(f"the line of {row}")
        if row["thing"] is not None and "touch" not in source[row["line"] - 1].lower():
            raise Wrong(f"no touch at the line of {row}")


def check_table() -> None:
    """The table of what is followed names each program, and no others."""
    rows = re.findall(r"^\| .* \| ([^|]*) \|$", PAGE.read_text().partition("| What is followed |")[2].partition("\n\n")[0], re.M)
    named = {name for row in rows for name in re.findall(r"`(\w+)`", row)}
    due = {*COMMON, *(name for own in OWN.values() for name in own), "across", "sender", "receiver", "web_client", "web_server", "requests", "jobs"}
    if named != due:
        raise Wrong(f"{PAGE.name} lacks {sorted(due - named)}, and has {sorted(named - due)}, which nothing runs")


def check_table_of_ends() -> None:
    """The table of how a process ends names each way that is tried, and no others."""
    text = PAGE.read_text().partition("\n| The end | Java | Rust | Programs |\n")[2].partition("\n\n")[0]
    named = {name for row in re.findall(r"^\| .* \| ([^|]*) \|$", text, re.M) for name in re.findall(r"`(\w+)`", row)} - {"killed"}
    due = {*ENDS["java"], *ENDS["rust"], "hook", "service"}
    if named != due:
        raise Wrong(f"{PAGE.name} lacks {sorted(due - named)}, and has {sorted(named - due)}, which nothing runs")


def check_other_table(programs: Programs) -> None:
    """The table of what else a client follows names each of its programs of one order, and no others."""
    text = PAGE.read_text().partition(f"\n## What else {programs.language.title()} follows\n")[2].partition("\n## ")[0]
    named = {name for row in re.findall(r"^\| .* \| ([^|]*) \|$", text, re.M) for name in re.findall(r"`(\w+)`", row)}
    if named != set(primitives_of(programs)):
        raise Wrong(f"{PAGE.name} has {sorted(named)}, and there are {sorted(primitives_of(programs))}")


class Check(NamedTuple):
    """A check of one program or of several, by their names, with what it calls, and with what."""

    names: list[str]
    call: Callable[..., None]
    words: tuple[Any, ...]


def run_all(title: str, checks: list[Check]) -> int:
    """Makes the checks, some at a time, and tells how many programs passed. What fails beside others is made once more by itself."""
    with ThreadPoolExecutor(AT_ONCE) as pool:
        faults = list(pool.map(fault_of, checks))
    failed = [check for check, fault in zip(checks, faults, strict=True) if fault is not None and fails_again(check, fault)]
    ill = sum(len(check.names) for check in failed)
    well = sum(len(check.names) for check in checks) - ill
    print(f"{title}: {well} passed" + (f", {ill} failed" if ill else ""))
    return 1 if ill else 0


def fault_of(check: Check) -> "Exception | None":
    try:
        check.call(*check.words)
    except (Wrong, OSError, LookupError, ValueError, subprocess.SubprocessError) as wrong:
        return wrong
    return None


def fails_again(check: Check, fault: Exception) -> bool:
    names = ", ".join(check.names)
    print(f"{names}: fails beside others: {fault}", flush=True)
    again = fault_of(check)
    print(f"{names}: passes alone" if again is None else f"clients: wrong: {names}: {again}", flush=True)
    return again is not None


def systems_of(statuses: dict[str, int]) -> Iterator[dict[str, int]]:
    """The programs that are run together. Those that need a trace for themselves take longest, and come first."""
    yield from ({name: statuses[name]} for name in ALONE if name in statuses)
    others = [name for name in statuses if name not in ALONE]
    for first in range(0, len(others), OF_A_SYSTEM):
        yield {name: statuses[name] for name in others[first:first + OF_A_SYSTEM]}


def main() -> int:
    checks = [Check(["table"], check_table, ()), Check(["table of ends"], check_table_of_ends, ())]
    for language in sys.argv[2:]:
        programs = Programs(language, Path(sys.argv[1]))
        own = {**COMMON, **OWN[language]}
        if language in DIVIDED:
            del own["filling"]
            checks.append(Check([f"{language}: filling"], check_full, (programs,)))
        checks += [
            Check([f"{language}: {name}" for name in statuses], check_orders, (programs, statuses)) for statuses in systems_of(own)
        ]
        if language in DEADLOCKS:
            checks.append(Check([f"{language}: {name}" for name in DEADLOCKS[language]], check_deadlocks, (programs,)))
        checks += [
            Check([f"{language}: {name}"], call, (programs,)) for name, call in (
                ("across", check_across), ("no collector", check_without_collector), ("gone collector", check_gone_collector),
                ("refused report", check_refused_report), ("message is sent", check_message_is_sent), ("journal", check_journal))
        ]
        if language in PRIMITIVES:
            names = primitives_of(programs)
            checks += [
                Check([f"{language}: {name}, {how}" for name in names[first:first + FEW] for how in ("ordered", "raced")],
                      check_primitives, (programs, names[first:first + FEW])) for first in range(0, len(names), FEW)
            ]
            checks += [Check([f"{language}: end by {how}"], check_end, (programs, how)) for how in ENDS[language]]
            checks += [Check([f"{language}: free {of_whom}"], check_free_lock_costs, (programs, of_whom)) for of_whom in ("lock", "reader")]
            checks += [
                Check([f"{language}: {name}"], call, (programs,)) for name, call in (
                    ("other table", check_other_table), ("free locks", check_free_locks), ("service", check_service), ("child", check_child),
                    ("names in full", check_names_in_full), ("requests", check_requests), *([("late hook", check_late_hook), ("jobs", check_jobs)] if language == "java" else []))
            ]
    return run_all("wrappers", checks)


if __name__ == "__main__":
    sys.exit(main())
