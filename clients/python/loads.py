"""Runs programs that use packages of Debian in many threads or tasks: plain, traced, and with their package watched. Compares what they print.

Usage: python3 clients/python/loads.py [--install] [--lists FOLDER | --reports FOLDER] [LOAD..]

`load_programs.py` has the programs. One that works on a service starts it in a folder of its own, at a port that is free, and ends it. With
--install it installs from Debian what it wants, and a load that lacks its package is left out and named. A row of the table tells of the
lines that were the same, of each status, of the processor's seconds, and of what was found. The fourth run has a race planted, which has to be told. With --reports each
load keeps the report of its watched run. With --lists it keeps the list of that run: with each pair of lines, as a file gets it, and as a
usual terminal does. A row of the table then has the lines of the first two, and the rows of that terminal that each of the three takes. The
status is 1 if a line is another one, or if a planted race is not told.
"""

from __future__ import annotations

import argparse
import contextlib
import fcntl
import json
import os
import pty
import pwd
import resource
import shutil
import socket
import struct
import subprocess
import sys
import tempfile
import termios
import time
from collections.abc import Iterator
from pathlib import Path
from typing import NamedTuple

from itc_trace.report.screen import Screen
from load_programs import LOADS, Load

PACKAGE = Path(__file__).resolve().parent
PYTHON = "/usr/bin/python3"
HOST = "127.0.0.1"
READY_SECONDS = 120.0
LONGEST = float(os.environ.get("ITC_LOAD_SECONDS", "900"))
SCREEN = Screen()
PLAIN = {**os.environ, "PYTHONPATH": str(PACKAGE), "TERM": "dumb"}
OWNER_OF_DATA = "postgres"
"""Postgres does not run as root."""


@contextlib.contextmanager
def running(words: list[str], **named: object) -> Iterator[None]:
    """A service, which is ended behind the block."""
    process = subprocess.Popen(words, stdout=subprocess.DEVNULL, stderr=subprocess.DEVNULL, **named)  # type: ignore[call-overload]
    try:
        yield
    finally:
        process.terminate()
        process.wait()


def redis(folder: Path, port: int) -> contextlib.AbstractContextManager[None]:
    return running(["redis-server", "--port", str(port), "--bind", HOST, "--save", "", "--dir", str(folder)])


def mosquitto(folder: Path, port: int) -> contextlib.AbstractContextManager[None]:
    settings = folder / "settings"
    settings.write_text(f"listener {port} {HOST}\nallow_anonymous true\n")
    return running(["mosquitto", "-c", str(settings)])


def postgres(folder: Path, port: int) -> contextlib.AbstractContextManager[None]:
    data, programs = folder / "data", next(iter(sorted(Path("/usr/lib/postgresql").glob("*/bin"))))
    owner = pwd.getpwnam(OWNER_OF_DATA)
    data.mkdir()
    words: dict[str, int] = {}
    if os.getuid() == 0:
        folder.chmod(0o755)
        os.chown(data, owner.pw_uid, owner.pw_gid)
        words = {"user": owner.pw_uid, "group": owner.pw_gid}
    made = [str(programs / "initdb"), "-D", str(data), "-A", "trust", "-U", OWNER_OF_DATA, "--no-sync"]
    subprocess.run(made, check=True, stdout=subprocess.DEVNULL, cwd="/", **words)  # type: ignore[call-overload]
    settings = ["-c", f"listen_addresses={HOST}", "-c", f"unix_socket_directories={data}", "-c", "fsync=off"]
    return running([str(programs / "postgres"), "-D", str(data), "-p", str(port), *settings], cwd="/", **words)


SERVICES = {"redis": redis, "postgres": postgres, "mosquitto": mosquitto}
PLANTED = "race on Planted.count"


def free_port() -> int:
    with socket.create_server((HOST, 0)) as door:
        return int(door.getsockname()[1])


def wait_for(port: int) -> None:
    end = time.monotonic() + READY_SECONDS
    while True:
        with contextlib.suppress(OSError), socket.create_connection((HOST, port), 5):
            return
        if time.monotonic() > end:
            raise SystemExit("the service does not begin")
        time.sleep(0.1)


class Ran(NamedTuple):
    """What a run printed and told, its status, and the seconds that it kept a processor busy."""

    lines: list[str]
    told: str
    status: int
    seconds: float


def ran(load: Load, *options: str, word: str = "") -> Ran:
    """The program, with a service that is new."""
    with tempfile.TemporaryDirectory() as name:
        program, port = Path(name, "program.py"), free_port()
        program.write_text(load.program)
        with contextlib.ExitStack() as stack:
            if load.service:
                stack.enter_context(SERVICES[load.service](Path(name), port))
                wait_for(port)
                time.sleep(1)  # Postgres listens before it takes anybody in.
            before = ["-m", "itc_trace", "run", *options] if options else []
            environment = {**os.environ, "PYTHONPATH": str(PACKAGE)}
            words = [PYTHON, *before, str(program), str(port), *([word] if word else [])]
            began = processor_seconds()
            one = subprocess.run(words, capture_output=True, text=True, env=environment, timeout=LONGEST, check=False)
            seconds = processor_seconds() - began
    return Ran(one.stdout.splitlines(), one.stderr, one.returncode, seconds)


def processor_seconds() -> float:
    """Those of all programs that have ended."""
    used = resource.getrusage(resource.RUSAGE_CHILDREN)
    return used.ru_utime + used.ru_stime


def watching(load: Load) -> list[str]:
    return [word for name in load.watched for word in ("--watch", name)]


def is_there(load: Load) -> bool:
    words = [PYTHON, "-c", f"import {', '.join(load.watched)}"]
    return subprocess.run(words, capture_output=True, check=False).returncode == 0 and all(
        shutil.which(name) or Path("/usr/lib", name).exists() for name in load.packages if not name.startswith("python3-")
    )


def keep_lists(name: str, folder: Path) -> str:
    """Keeps the list of a watched run as it is in a file and on a usual terminal, and the one with each pair of lines.

    Gives how many lines they have, and how many rows of the terminal they take, as a row.
    """
    load, export = LOADS[name], folder / f"{name}.export"
    ran(load, *watching(load), "--export", str(export))
    found = {"all": list_of(export, "--all"), "list": list_of(export), "screen": list_at_terminal(export)}
    for kind, text in found.items():
        (folder / f"{name}.{kind}").write_text(text)
    everything, listed, shown = (text.splitlines() for text in found.values())
    count, _, more = listed[-1].removeprefix("itc_trace: ").partition(" in this run")
    rows = [sum(map(SCREEN.rows_of, lines)) for lines in (everything, listed, shown)]
    told_more = more.partition("; not")[0].partition(":")[0]
    return f"| `{name}` | {count}{told_more} | {len(everything)} | {len(listed)} | {' | '.join(map(str, rows))} |"


def words_of_list(export: Path, *options: str) -> list[str]:
    return [PYTHON, "-m", "itc_trace", "races", *options, str(export)]


def list_of(export: Path, *options: str) -> str:
    words = words_of_list(export, *options)
    return subprocess.run(words, capture_output=True, text=True, env=PLAIN, timeout=LONGEST, check=False).stdout


def list_at_terminal(export: Path) -> str:
    """What a person sees on a terminal of the usual size."""
    screen, terminal = pty.openpty()
    fcntl.ioctl(terminal, termios.TIOCSWINSZ, struct.pack("HHHH", SCREEN.rows, SCREEN.columns, 0, 0))
    running_list = subprocess.Popen(words_of_list(export), stdin=terminal, stdout=terminal, stderr=terminal, env=PLAIN)
    os.close(terminal)
    shown = b""
    with contextlib.suppress(OSError):  # The other end is closed, and all was read.
        while piece := os.read(screen, 65536):
            shown += piece
    os.close(screen)
    running_list.wait(LONGEST)
    return shown.decode().replace("\r\n", "\n")


def keep_report(name: str, folder: Path) -> str:
    """Keeps the report of a watched run. Gives how many findings it has, and of which things, as a row."""
    load, report = LOADS[name], folder / f"{name}.json"
    ran(load, *watching(load), "--json", str(report))
    found = json.loads(report.read_text())["findings"]
    things = sorted({one["thing"] for one in found})
    return f"| {name} | {len(found)} | {', '.join(things)} |"


def told(name: str) -> tuple[str, bool]:
    """The row of a load, and whether each run printed the same and the planted race was told."""
    load = LOADS[name]
    plain = ran(load)
    if plain.status:
        raise SystemExit(f"{name}: {plain.told}")
    runs = [ran(load, "--watch-nothing"), ran(load, *watching(load))]
    is_planted = PLANTED in ran(load, *watching(load), "--all", word="planted").told
    same = [sum(first == second for first, second in zip(plain.lines, one.lines)) for one in runs]
    cells = [name, " ".join(load.watched), str(len(plain.lines)), *map(str, same), *(str(one.status) for one in runs)]
    cells += [f"{one.seconds:.1f}" for one in (plain, *runs)]
    cells += [found_by(runs[1]), "told" if is_planted else "not told"]
    return f"| {' | '.join(cells)} |", is_planted and all(one.lines == plain.lines for one in runs)


def found_by(one: Ran) -> str:
    """What the last line says was found."""
    last = one.told.splitlines()[-1].removeprefix("itc_trace: ")
    return last.replace(" in this run", "").partition("; not looked into")[0].partition(": ")[0]


def main() -> int:
    parser = argparse.ArgumentParser(description=__doc__, formatter_class=argparse.RawDescriptionHelpFormatter)
    parser.add_argument("--install", action="store_true")
    parser.add_argument("--lists", type=Path, metavar="FOLDER")
    parser.add_argument("--reports", type=Path, metavar="FOLDER")
    parser.add_argument("loads", nargs="*", metavar="LOAD", choices=[*LOADS, []], default=[])
    asked = parser.parse_args()
    are_right = True
    for name in asked.loads or LOADS:
        if asked.install and shutil.which("apt-get"):
            words = ["apt-get", "install", "-y", "--no-install-recommends", *LOADS[name].packages]
            subprocess.run(words, check=True, stdout=subprocess.DEVNULL)
        if not is_there(LOADS[name]):
            print(f"{name} is left out: {' '.join(LOADS[name].packages)} is not there", flush=True)
            continue
        row, is_right = row_of(name, asked.lists, asked.reports)
        are_right = are_right and is_right
        print(row, flush=True)
    return 0 if are_right else 1


def row_of(name: str, lists: Path | None, reports: Path | None) -> tuple[str, bool]:
    if lists is not None:
        return keep_lists(name, lists), True
    return (keep_report(name, reports), True) if reports is not None else told(name)


if __name__ == "__main__":
    sys.exit(main())
