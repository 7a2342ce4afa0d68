"""The processes of a shop: a store that has its stock in a file and sells over HTTP, a seller, and an audit of the file.

With `fixed` the audit asks the store first whether the day is over, and the store stays open until it has.

Usage: day.py store ADDRESS_FILE STOCK | day.py seller ADDRESS_FILE [fixed] | day.py audit ADDRESS_FILE STOCK [fixed]
"""

import sys
import time
from collections.abc import Callable, Iterable
from pathlib import Path
from typing import Any
from wsgiref.simple_server import WSGIRequestHandler, make_server

import itc_trace

SALES, WAIT = 3, 20


class Store:
    """Sells, and tells whether the day is over, until somebody has it closed."""

    def __init__(self, stock: Path) -> None:
        self._stock = stock
        self.is_over = False
        self.is_open = True

    def sell(self) -> None:
        itc_trace.touch("stock file", across=True)
        left = int(self._stock.read_text())
        itc_trace.touch("stock file", write=True, across=True)
        self._stock.write_text(str(left - 1))

    def __call__(self, environ: dict[str, Any], start_response: Callable[..., Any]) -> Iterable[bytes]:
        path = environ["PATH_INFO"]
        if path == "/sell":
            self.sell()
        self.is_over = self.is_over or path == "/over"
        self.is_open = path != "/close"
        start_response("200 OK", [("Content-Type", "text/plain")])
        return [b"over" if self.is_over else b"open"]


class Quiet(WSGIRequestHandler):
    """Writes no lines about requests."""

    def log_message(self, *_: Any) -> None:
        pass


def keep_store(address: Path, stock: Path) -> None:
    stock.write_text("10")
    store = Store(stock)
    with make_server("127.0.0.1", 0, itc_trace.Middleware(store), handler_class=Quiet) as server:
        address.with_suffix(".new").write_text(f"http://127.0.0.1:{server.server_port}")
        address.with_suffix(".new").rename(address)
        while store.is_open:
            server.handle_request()


def find(address: Path) -> str:
    until = time.monotonic() + WAIT
    while not address.exists() and time.monotonic() < until:
        time.sleep(0.02)
    return address.read_text()


def ask(address: str, path: str) -> bytes:
    with itc_trace.opener().open(address + path, timeout=WAIT) as response:
        told: bytes = response.read()
        return told


def sell(address: str, closes: bool) -> None:
    for _ in range(SALES):
        ask(address, "/sell")
    ask(address, "/over")
    if closes:
        ask(address, "/close")


def audit(address: str, stock: Path, asks: bool) -> None:
    while asks and ask(address, "/") != b"over":
        time.sleep(0.02)
    itc_trace.touch("stock file", across=True)
    print("left:", stock.read_text() if stock.exists() else "unknown")
    if asks:
        ask(address, "/close")


def main() -> None:
    role, address = sys.argv[1], Path(sys.argv[2])
    if role == "store":
        keep_store(address, Path(sys.argv[3]))
    elif role == "seller":
        sell(find(address), closes="fixed" not in sys.argv)
    else:
        audit(find(address), Path(sys.argv[3]), asks="fixed" in sys.argv)


main()
