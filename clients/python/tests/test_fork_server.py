"""A program that is run in a fork sees and leaves what it would in a process of its own."""

from __future__ import annotations

import json
import re
import textwrap
import unittest

from .forked_runs import run_forked
from .support import ProgramCase, run_traced

LOOKS = """
    import atexit, gc, json, locale, os, resource, signal, stat, sys, threading, types
    own = sys.modules["itc_trace.own_path"]
    helper = sys.modules["itc_trace.watch.helper"]
    status = dict(line.split(":\\t", 1) for line in open("/proc/self/status") if ":\\t" in line)
    def kind(file):
        return stat.S_IFMT(os.stat(f"/proc/self/fd/{file}").st_mode)
    files = [file for file in os.listdir("/proc/self/fd") if os.path.exists(f"/proc/self/fd/{file}")]
    main = threading.main_thread()
    print(json.dumps({
        "arguments": sys.argv, "command": sys.orig_argv, "path": sys.path, "hooks": [repr(one)[:40] for one in sys.path_hooks],
        "finders": [getattr(one, "__name__", type(one).__name__) for one in sys.meta_path], "modules": sorted(sys.modules),
        "imported": list(sys.modules), "known": sorted(own.KNOWN_BEFORE), "flags": sys.flags[:], "options": sys._xoptions,
        "warnings": [sys.warnoptions, repr(sys.modules["warnings"].filters)], "executable": [sys.executable, sys.prefix],
        "limits": [sys.getrecursionlimit(), sys.getswitchinterval(), gc.get_threshold(), gc.isenabled(), gc.get_freeze_count(), gc.get_debug()],
        "helper": helper.quick is not None, "at exit": atexit._ncallbacks(), "callbacks": len(gc.callbacks),
        "folder": os.getcwd(), "environment": dict(os.environ), "native": sorted(map(os.fsdecode, os.environb)),
        "mask": os.umask(0), "nice": os.nice(0), "groups": [os.getpgrp(), os.getsid(0)],
        "signals": [repr(signal.getsignal(one)).split(" at ")[0] for one in signal.valid_signals()], "alarm": signal.getitimer(signal.ITIMER_REAL),
        "masks": [status[name] for name in ("SigBlk", "SigIgn", "SigCgt", "Threads", "NoNewPrivs", "Seccomp")],
        "resources": [resource.getrlimit(getattr(resource, name)) for name in dir(resource) if name.startswith("RLIMIT")],
        "threads": [(one.name, one.daemon, one.is_alive()) for one in threading.enumerate()],
        "main": [main.native_id == threading.get_native_id() == os.getpid(), main.ident == threading.get_ident(), repr(type(main))],
        "module": sorted((name, repr(value).split(" at ")[0]) for name, value in vars(sys.modules["__main__"]).items() if name.startswith("__")),
        "files": sorted((int(file), kind(file)) for file in files),
        "streams": [
            (one.name, one.mode, one.encoding, one.errors, one.line_buffering, one.write_through, one.isatty(), one.seekable(), one.newlines)
            for one in (sys.stdin, sys.stdout, sys.stderr)
        ],
        "locale": [locale.setlocale(locale.LC_ALL), locale.getpreferredencoding(False), sys.getfilesystemencoding()],
        "excepthooks": [repr(one) for one in (sys.excepthook, sys.unraisablehook, sys.displayhook, sys.gettrace(), sys.getprofile())],
        "maps": sorted({line.split()[1] for line in open("/proc/self/maps")}), "parent": open(f"/proc/{os.getppid()}/stat").read().split()[1],
    }))
"""
ENDS = {
    "well": "print('made')",
    "with a status": "import sys\nprint('made')\nsys.exit(3)",
    "with a text": "import sys\nsys.exit('not made')",
    "with an error": "def make():\n    raise ValueError('none left')\nmake()",
    "with an error that its own hook shows": "import sys\nsys.excepthook = lambda *told: print('hook', told[0].__name__)\n1 / 0",
    "with an interrupt": "raise KeyboardInterrupt",
    "at once": "import os\nprint('made', flush=True)\nos._exit(4)",
    "by a signal": "import os, signal\nprint('made', flush=True)\nos.kill(os.getpid(), signal.SIGTERM)",
    "killed": "import os, signal\nprint('made', flush=True)\nos.kill(os.getpid(), signal.SIGKILL)",
    "with what is registered for the end": "import atexit\natexit.register(print, 'end')\nprint('made')",
    "with a thread that goes on": "import threading, time\nthreading.Thread(target=lambda: (time.sleep(0.1), print('made'))).start()",
    "with a thread that fails": "import threading\nthread = threading.Thread(target=lambda: 1 / 0, name='maker')\nthread.start()\nthread.join()",
    "with a daemon": "import threading, time\nthreading.Thread(target=time.sleep, args=(60,), daemon=True).start()\nprint('made')",
    "with a warning": "import warnings\nwarnings.warn('old', DeprecationWarning)\nwarnings.warn('new')",
    "where the text is wrong": "print('made'",
}


def without_names(text: str) -> str:
    """Without what is another one in each run: the folder of the run, its ports, and the words that those are in."""
    text = re.sub(r"itc_trace_\w{8}", "itc_trace_FOLDER", text)
    text = re.sub(r'(\\?"(?:port|parts)\\?": )(?:\d+|\[\d+, \d+\])', r"\1PORT", text)
    return re.sub(r"0x[0-9a-f]+", "ADDRESS", text)


class ForkServers(ProgramCase):
    def assert_same(self, *words: str) -> tuple[int, str, str]:
        one, other = run_traced(*words), run_forked(*words)
        first, second = ((ended.returncode, without_names(ended.stdout), without_names(ended.stderr)) for ended in (one, other))
        self.assertEqual(first, second)
        return second

    def test_the_program_sees_what_it_sees_in_a_process_of_its_own(self) -> None:
        program = self.program(textwrap.dedent(LOOKS))
        own, forked = run_traced(program), run_forked(program)
        self.assertEqual((own.returncode, forked.returncode), (0, 0), own.stderr + forked.stderr)
        seen, due = (json.loads(without_names(ended.stdout)) for ended in (forked, own))
        for name, value in due.items():
            with self.subTest(seen=name):
                self.assertEqual(seen[name], value)

    def test_the_program_ends_as_in_a_process_of_its_own(self) -> None:
        for how, text in ENDS.items():
            with self.subTest(ends=how):
                self.assert_same(self.program(text))

    def test_a_program_that_is_not_there_is_told_of(self) -> None:
        status, _, told = self.assert_same("no_such_program.py")
        self.assertEqual(status, 2, told)

    def test_a_variable_of_the_environment_is_that_of_one_program(self) -> None:
        program = self.program("import os\nprint(os.environ.get('LEFT'))")
        told = [run_forked(program, **further).stdout for further in ({}, {"LEFT": "1"}, {"LEFT": "2"}, {})]
        self.assertEqual(told, ["None\n", "1\n", "2\n", "None\n"])

    def test_programs_that_follow_each_other_know_nothing_of_each_other(self) -> None:
        text = "import builtins, os, threading\nprint(hasattr(builtins, 'left'), 'LEFT' in os.environ)\nbuiltins.left = 1\nos.environ['LEFT'] = '1'"
        program = self.program(text)
        for _ in range(2):
            self.assertEqual(self.assert_same(program)[1], "False False\n")


if __name__ == "__main__":
    unittest.main()
