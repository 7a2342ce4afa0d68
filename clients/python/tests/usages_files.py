"""What the usages of `tests/usages` name: files, good and bad ones, and servers that are none."""

from __future__ import annotations

import contextlib
import http.server
import os
import shutil
import socket
import threading
from collections.abc import Iterator
from pathlib import Path

from itc_trace import Collector

from .support import PACKAGE, kept_port

RACING = """import threading
stock = {"left": 2}
def sell():
    stock["left"] -= 1
threads = [threading.Thread(target=sell) for _ in range(2)]
for thread in threads:
    thread.start()
for thread in threads:
    thread.join()
"""
EXPORT = (
    '{"events":4096,"messages":2048,"tasks":512,"tenant":"x","version":2}\n'
    '{"event":1,"kind":"local","name":"-","preds":[],"stamp":"[1;1]","task":"root"}\n'
)
KEPT = PACKAGE / "tests" / "usages"
FILES = {
    "shop.py": RACING, "fine.py": 'print("ran")\n', "empty": "", "garbage": "][ garbage :::\n", "word": "labels", "g.export": EXPORT,
    "benign": "stock['left'] shop.py:4\n", "page.html": "<!DOCTYPE html>\n", "system.toml": '[process.a]\ncommand = ["true"]\ntraced = false\n',
}
SYSTEMS = {
    'no_table': 'x = 1\n',
    'process_is_a_number': 'process = 1\n',
    'process_is_a_list': 'process = ["a"]\n',
    'no_process': '[process]\n',
    'no_command': '[process.a]\n',
    'empty_command': '[process.a]\ncommand = []\n',
    'command_is_a_text': '[process.a]\ncommand = "true"\n',
    'command_has_a_number': '[process.a]\ncommand = ["true", 1]\n',
    'unknown_key': '[process.a]\ncommand = ["true"]\ncomand = 1\n',
    'unknown_key_at_the_top': 'exprot = "x"\n[process.a]\ncommand = ["true"]\n',
    'after_nobody': '[process.a]\ncommand = ["true"]\nafter = ["b"]\n',
    'after_itself': '[process.a]\ncommand = ["true"]\nafter = ["a"]\n',
    'after_each_other': '[process.a]\ncommand = ["true"]\nafter = ["b"]\n[process.b]\ncommand = ["true"]\nafter = ["a"]\n',
    'after_is_a_text': '[process.a]\ncommand = ["true"]\nafter = "b"\n[process.b]\ncommand = ["true"]\n',
    'port_is_a_text': '[process.a]\ncommand = ["true"]\nport = "7"\n',
    'port_0': '[process.a]\ncommand = ["true"]\nport = 0\n',
    'port_65536': '[process.a]\ncommand = ["true"]\nport = 65536\n',
    'ready_is_a_number': '[process.a]\ncommand = ["true"]\nready = 1\n',
    'ready_and_port': '[process.a]\ncommand = ["true"]\nready = "x"\nport = 7000\n',
    'traced_is_a_text': '[process.a]\ncommand = ["true"]\ntraced = "no"\n',
    'watch_is_a_text': '[process.a]\ncommand = ["true"]\nwatch = "x"\n',
    'watch_and_nothing': '[process.a]\ncommand = ["true"]\nwatch = ["x"]\nwatch_nothing = true\n',
    'environment_has_a_number': '[process.a]\ncommand = ["true"]\nenvironment = {A = 1}\n',
    'environment_is_a_text': '[process.a]\ncommand = ["true"]\nenvironment = "A=1"\n',
    'environment_is_empty': '[process.a]\ncommand = ["nope_such"]\nenvironment = {}\n',
    'folder_is_not_there': '[process.a]\ncommand = ["true"]\nfolder = "nope"\n',
    'command_is_not_there': '[process.a]\ncommand = ["nope_such"]\ntraced = false\n',
    'service_is_a_text': '[process.a]\ncommand = ["true"]\nservice = "yes"\n',
    'tenant_with_a_space': 'tenant = "a b"\n[process.a]\ncommand = ["true"]\ntraced = false\n',
    'tenant_is_a_number': 'tenant = 1\n[process.a]\ncommand = ["true"]\n',
    'export_is_a_number': 'export = 1\n[process.a]\ncommand = ["true"]\n',
    'process_is_empty_name': '[process.""]\ncommand = ["true"]\ntraced = false\n',
    'process_with_a_space': '[process."a b"]\ncommand = ["true"]\ntraced = false\n',
    'export_is_empty': 'export = ""\n[process.a]\ncommand = ["true"]\ntraced = false\n',
    'picture_is_a_folder': 'picture = "../folder"\n[process.a]\ncommand = ["true"]\ntraced = false\n',
    'twice': '[process.a]\ncommand = ["true"]\n[process.a]\ncommand = ["true"]\n',
    'ready_is_empty': '[process.a]\ncommand = ["true"]\nready = ""\ntraced = false\n',
    'port_is_true': '[process.a]\ncommand = ["true"]\nport = true\n',
    'command_is_a_folder': '[process.a]\ncommand = ["/"]\ntraced = false\n',
    'command_is_no_program': '[process.a]\ncommand = ["/etc/passwd"]\ntraced = false\n',
    'export_is_the_file': 'export = "export_is_the_file.toml"\n[process.a]\ncommand = ["true"]\ntraced = false\n',
    'zero_byte_in_command': '[process.a]\ncommand = ["a\\u0000b"]\ntraced = false\n',
}
"""Files of a system, each with a fault."""


def write_files(folder: Path) -> None:
    for name in ("folder", "toml"):
        (folder / name).mkdir()
    for name, text in FILES.items():
        (folder / name).write_text(text)
    for name, text in SYSTEMS.items():
        (folder / "toml" / f"{name}.toml").write_text(text)
    (folder / "random").write_bytes(bytes(range(255, 0, -1)) * 4)
    (folder / "loop").symlink_to("loop")
    os.mkfifo(folder / "pipe")


def write_trace(folder: Path) -> None:
    """A trace with a race that was kept once, its journal, pieces of both, and a report.

    A fresh one would have other rows, in another order, from run to run.
    """
    for name in ("kept.export", "kept.export.journal"):
        shutil.copy(KEPT / name, folder)
    shutil.copy(KEPT.parent / "reports" / "kept.json", folder / "report.json")
    for name, whole, begin, end in (
        ("cut.export", "kept.export", 0, 5), ("cut.journal", "kept.export.journal", 0, 4),
        ("headless.journal", "kept.export.journal", 2, None),
    ):
        lines = (folder / whole).read_text().splitlines(keepends=True)
        (folder / name).write_text("".join(lines[begin:end]))


class _Quiet(http.server.BaseHTTPRequestHandler):
    def log_message(self, *_: object) -> None:
        pass


@contextlib.contextmanager
def ports() -> Iterator[dict[str, str]]:
    """A port where nobody listens, and those of servers: of another kind, one that ends each connection, and a collector's."""
    with (
        kept_port() as free, http.server.HTTPServer(("127.0.0.1", 0), _Quiet) as web, socket.create_server(("127.0.0.1", 0)) as ending,
        Collector("trace") as collector,
    ):
        threading.Thread(target=web.serve_forever, daemon=True).start()
        threading.Thread(target=_end_each, args=(ending,), daemon=True).start()
        try:
            yield {
                "FREE": str(free), "HTTP": str(web.server_address[1]), "SILENT_END": str(ending.getsockname()[1]),
                "SERVER": str(collector.port), "LONG": "n" * 300,
            }
        finally:
            web.shutdown()


def _end_each(door: socket.socket) -> None:
    with contextlib.suppress(OSError):
        while True:
            connection, _ = door.accept()
            connection.recv(64)
            connection.close()
