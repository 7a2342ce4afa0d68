"""Types what stands in a file of usages, each in a child of a process that has imported the package already, and tells what is said.

Usage: answers.py PLACES <USAGES, where PLACES has the words that stand for ports. A line of a usage is typed as in a shell: with variables
before the words, and with `<FILE`, `>FILE`, `2>FILE` behind them, where `&-` stands for a stream that is closed. For each usage it writes
a line of JSON: the status, the output, and the errors.
"""

from __future__ import annotations

import json
import os
import runpy
import shlex
import signal
import sys
import tempfile
import time
import traceback
from pathlib import Path

from itc_trace.cli import command

PICTURE = Path(__file__).resolve().parents[3] / "picture"
STREAMS = {"<": (0, os.O_RDONLY, "stdin"), ">": (1, os.O_WRONLY | os.O_CREAT | os.O_TRUNC, "stdout"), "2>": (2, os.O_WRONLY | os.O_CREAT | os.O_TRUNC, "stderr")}
LONGEST = 600.0
HANGS = "hangs"


def main() -> None:
    places = json.loads(sys.argv[1])
    for usage in sys.stdin.read().splitlines():
        for word, port in places.items():
            usage = usage.replace(word, port)
        print(json.dumps(answer(shlex.split(usage))), flush=True)


def answer(words: list[str]) -> tuple[object, str, str]:
    with tempfile.TemporaryFile() as output, tempfile.TemporaryFile() as error:
        child = os.fork()
        if child == 0:
            os.setsid()
            for number, name in ((0, os.open(os.devnull, os.O_RDONLY)), (1, output.fileno()), (2, error.fileno())):
                os.dup2(name, number)
            os._exit(typed(words))
        status = waited_for(child)
        said = []
        for file in (output, error):
            file.seek(0)
            said.append(file.read().decode(errors="backslashreplace"))
        return status, said[0], said[1]


def waited_for(child: int) -> object:
    end = time.monotonic() + LONGEST
    while time.monotonic() < end:
        ended, status = os.waitpid(child, os.WNOHANG)
        if ended:
            return os.waitstatus_to_exitcode(status)
        time.sleep(0.005)
    os.killpg(child, signal.SIGKILL)
    os.waitpid(child, 0)
    return HANGS


def typed(words: list[str]) -> int:
    """Does in the child what the words say. Its status."""
    try:
        while words and "=" in words[0] and words[0].partition("=")[0].isupper():
            name, _, value = words.pop(0).partition("=")
            os.environ[name] = value
        redirect(words)
        sys.argv = ["itc-trace", *words]
        status: object = picture(words[1:]) if words[:1] == ["picture"] else command.main()
    except SystemExit as end:
        status = end.code
    except BaseException:
        traceback.print_exc()
        status = 1
    for stream in (sys.stdout, sys.stderr):
        try:
            if stream is not None:
                stream.flush()
        except (OSError, ValueError):
            status = status or 120
    return int(status or 0) if isinstance(status, int) or status is None else 1


def redirect(words: list[str]) -> None:
    """Opens and closes the streams as a shell does, and takes what says so out of the words."""
    for word in [word for word in words if word.startswith(("<", ">", "2>"))]:
        words.remove(word)
        sign = "2>" if word.startswith("2>") else word[0]
        number, flags, name = STREAMS[sign]
        file = word.removeprefix(sign)
        if file == "&-":
            os.close(number)
            setattr(sys, name, None)
        else:
            os.dup2(os.open(file, flags), number)


def picture(words: list[str]) -> object:
    """The command that `itc-trace` starts a process for."""
    sys.argv = [str(PICTURE), *words]
    runpy.run_path(str(PICTURE), run_name="__main__")
    return 0


if __name__ == "__main__":
    main()
