"""Runs programs in forks of a process that has imported the package: see `forked_runs`.

Usage: python3 fork_server.py NUMBER, the number of a socket that is open

Each message there has the words behind `python3 -m itc_trace run` as JSON, and with it the files for standard output and standard error. It
has two replies: the number of the process, and its status.

A run is two processes, that of the command and that of the program. Each is forked in the state in which `python3 -m` would begin it, with the
same modules, arguments, paths and files. `test_fork_server` compares what a program sees there. It cannot see two things: all forks of
a server hash alike, and the command leaves its modules without their ends.
"""

import os
import sys

DOOR = int(sys.argv[1])
sys.argv[:], sys.path[0] = ["-m"], os.getcwd()  # As `python3 -m` begins, and before the package looks at them.

import runpy  # noqa: E402

import itc_trace.cli.launch  # noqa: E402

OF_PROGRAM = frozenset(sys.modules) - {"itc_trace.cli.launch"}
"""The modules that the program's process begins with. It runs the last one as `__main__`."""

import itc_trace.__main__  # noqa: E402
import itc_trace.cli.ending  # noqa: E402

del sys.modules["itc_trace.__main__"], itc_trace.__main__  # The command's process runs this one as `__main__`.

# The package has imported these.
import atexit  # noqa: E402
import json  # noqa: E402
import signal  # noqa: E402
import socket  # noqa: E402
import subprocess  # noqa: E402
import threading  # noqa: E402
import types  # noqa: E402
from typing import Any, NoReturn  # noqa: E402

LONGEST = 1 << 16


def serve(door: socket.socket) -> None:
    """Comes back where nothing more is asked for, and in each fork at its end."""
    while True:
        text, files, _, _ = socket.recv_fds(door, LONGEST, 2)
        if not text:
            return
        process = os.fork()
        if process == 0:
            door.close()
            for number, file in enumerate(files, 1):
                os.dup2(file, number)
                os.close(file)
            run(json.loads(text))
            return
        for file in files:
            os.close(file)
        door.send(b"%d" % process)
        door.send(b"%d" % os.waitstatus_to_exitcode(os.waitpid(process, 0)[1]))


def run(words: list[str]) -> None:
    """Runs the command. The program's process is forked first, and waits until the command begins it."""
    told, telling = os.pipe()
    process = os.fork()
    if process == 0:
        os.close(telling)
        with open(told, encoding="utf-8") as request:
            text = request.read()
        if not text:
            os._exit(0)  # The command begins no program.
        launch(**json.loads(text))
        return
    os.close(told)
    ending: Any = itc_trace.cli.ending
    ending.subprocess = types.SimpleNamespace(Popen=lambda words, env: Waiting(process, telling, words, env))
    try:
        begin("itc_trace", "run", *words)
    except SystemExit as ended:
        leave(ended.code)


def launch(words: list[str], environment: dict[str, str]) -> None:
    os.environ.clear()
    os.environ.update(environment)
    forgotten = [forget(name) for name in list(sys.modules) if name not in OF_PROGRAM]
    begin("itc_trace.cli.launch", *words[len(words_of("itc_trace.cli.launch")):])
    del forgotten


def forget(name: str) -> types.ModuleType:
    """A module that the command has imported, which the program's process has yet to import if it wants it."""
    module = sys.modules.pop(name)
    package, _, last = name.rpartition(".")
    if package in OF_PROGRAM:
        delattr(sys.modules[package], last)
    return module


def words_of(module: str) -> list[str]:
    return [sys.executable, *subprocess._args_from_interpreter_flags(), "-m", module]  # type: ignore[attr-defined]


def begin(module: str, *words: str) -> None:
    """Does what `python3 -m MODULE WORDS..` does."""
    sys.argv[:] = ["-m", *words]
    sys.orig_argv[:] = [*words_of(module), *words]
    sys.modules["__main__"] = types.ModuleType("__main__")
    threading.main_thread()._set_native_id()  # type: ignore[attr-defined]
    runpy._run_module_as_main(module)  # type: ignore[attr-defined]


def leave(status: object) -> NoReturn:
    """The end of the command without the end of all its modules, which takes as long as the command. That of the program is whole."""
    threading._shutdown()  # type: ignore[attr-defined]
    atexit._run_exitfuncs()
    sys.stdout.flush()
    sys.stderr.flush()
    os._exit(status if isinstance(status, int) else int(status is not None))


class Waiting:
    """The program's process, which begins now. The command sees it as one that it has started."""

    def __init__(self, process: int, telling: int, words: list[str], environment: dict[str, str]) -> None:
        if words[:len(words_of("itc_trace.cli.launch"))] != words_of("itc_trace.cli.launch"):
            raise ValueError(f"the command begins another process: {words}")
        self.pid = process
        self._status: int | None = None
        with open(telling, "w", encoding="utf-8") as request:
            json.dump({"words": words, "environment": environment}, request)

    def wait(self) -> int:
        """As that of a `Popen`, it may be called again."""
        if self._status is None:
            self._status = os.waitstatus_to_exitcode(os.waitpid(self.pid, 0)[1])
        return self._status

    def kill(self) -> None:
        os.kill(self.pid, signal.SIGKILL)


if __name__ == "__main__":
    serve(socket.socket(fileno=DOOR))
