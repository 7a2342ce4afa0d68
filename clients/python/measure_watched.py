"""Measures what watching costs: programs that nobody changed, untraced, with nothing watched, and watched by both forms of hooks, by turns.

Usage: python3 measure_watched.py [NAME..]

It writes a row of a table for each program, with the median processor time of each way in multiples of the untraced program's. It takes
some minutes. A program whose packages are not here is skipped.
"""

import importlib.util
import os
import statistics
import subprocess
import sys
import tempfile
from pathlib import Path

TRIES = 5
PURE = "watched by hooks in Python"
STATUSES = (0, 66, 67)
"""Of a program that did well, whatever was found in it."""
TIMED = """
import time as _time
_start = _time.process_time()
main()
print(_time.process_time() - _start)
"""

IN_THREADS = """
def in_threads(*functions):
    threads = [threading.Thread(target=function) for function in functions]
    for thread in threads:
        thread.start()
    for thread in threads:
        thread.join()
"""

PROGRAMS = {
    "lock": "import threading" + IN_THREADS + """
lock, stock = threading.Lock(), {"left": 5000}
def sell():
    for _ in range(2500):
        with lock:
            stock["left"] -= 1
def main():
    in_threads(sell, sell)
""",
    "queue": "import queue, threading" + IN_THREADS + """
items = queue.Queue()
def make():
    for number in range(3000):
        items.put({"number": number})
    items.put(None)
def use():
    while (item := items.get()) is not None:
        item["number"] + 1
def main():
    in_threads(make, use)
""",
    "asyncio": """
import asyncio
class Account:
    def __init__(self):
        self.money = 0
async def pay(account, lock):
    for _ in range(10):
        async with lock:
            account.money += 1
            await asyncio.sleep(0)
async def pay_all():
    account, lock = Account(), asyncio.Lock()
    await asyncio.gather(*(pay(account, lock) for _ in range(100)))
def main():
    asyncio.run(pay_all())
""",
    "objects": "import threading" + IN_THREADS + """
class Point:
    def __init__(self, x, y):
        self.x = x
        self.y = y
    def move(self, x, y):
        self.x += x
        self.y += y
    def norm(self):
        return self.x * self.x + self.y * self.y
def work():
    point, total = Point(1, 2), 0
    for _ in range(50000):
        point.move(1, -1)
        total += point.norm()
def main():
    in_threads(work, work)
""",
    "difflib": """
import difflib, random
chance = random.Random(1)
one = ["".join(chance.choice("abcdef") for _ in range(10)) for _ in range(300)]
other = [line if chance.random() > 0.3 else line[:5] + "zz" for line in one]
def main():
    for _ in range(10):
        list(difflib.unified_diff(one, other))
        list(difflib.ndiff(one[:40], other[:40]))
""",
    "flask": "import http.client, logging, threading" + IN_THREADS + """
from flask import Flask, render_template_string
from werkzeug.serving import make_server
logging.getLogger("werkzeug").setLevel(logging.ERROR)
app = Flask(__name__)
@app.route("/<name>")
def hello(name):
    return render_template_string("hello {{ name }}", name=name)
server = make_server("127.0.0.1", 0, app, threaded=True)
def ask():
    for number in range(20):
        connection = http.client.HTTPConnection("127.0.0.1", server.server_port)
        connection.request("GET", f"/{number}")
        assert connection.getresponse().read()
        connection.close()
def main():
    thread = threading.Thread(target=server.serve_forever)
    thread.start()
    in_threads(*[ask] * 8)
    server.shutdown()
    thread.join()
""",
}
WATCHED = {"difflib": ["difflib"], "flask": ["flask", "werkzeug", "jinja2", "blinker", "itsdangerous", "click"]}


HEAD = ("A program", "Untraced", "Nothing watched", "Watched", "Watched, hooks in Python")


def seconds(words: list[str], is_pure: bool) -> float:
    folder = os.path.dirname(os.path.abspath(__file__))
    environment = {**os.environ, "PYTHONPATH": folder, "ITC_TRACE_PURE": "1" if is_pure else ""}
    ran = subprocess.run([sys.executable, *words], capture_output=True, text=True, env=environment, check=False)
    if ran.returncode not in STATUSES or not ran.stdout:
        sys.exit(f"{' '.join(words)} has ended with status {ran.returncode}:\n{ran.stderr}")
    return float(ran.stdout.split()[-1])


def ways_of(name: str, program: str) -> dict[str, list[str]]:
    """The words of a run of each way."""
    watched = [word for package in WATCHED.get(name, []) for word in ("--watch", package)]
    traced = ["-m", "itc_trace", "run", "--quiet"]
    watching = [*traced, *watched, program]
    return {"untraced": [program], "nothing watched": [*traced, "--watch-nothing", program], "watched": watching, PURE: watching}


def row_of(name: str, program: str) -> tuple[str, ...]:
    """The program's row. The first run of each way is not counted: it compiles what is not compiled yet."""
    ways = ways_of(name, program)
    times: dict[str, list[float]] = {way: [] for way in ways}
    for _ in range(1 + TRIES):
        for way, words in ways.items():
            times[way].append(seconds(words, way == PURE))
    untraced, *others = (statistics.median(each[1:]) for each in times.values())
    return name, f"{untraced * 1000:.1f} ms", *(f"{middle / untraced:.1f}" for middle in others)


def write_row(words: tuple[str, ...]) -> None:
    print(f"| {' | '.join(words)} |", flush=True)


if __name__ == "__main__":
    write_row(HEAD)
    write_row(("---",) * len(HEAD))
    with tempfile.TemporaryDirectory() as folder:
        for name in sys.argv[1:] or PROGRAMS:
            missing = [package for package in WATCHED.get(name, []) if importlib.util.find_spec(package) is None]
            if missing:
                print(f"skipped: {name}: there is no {missing[0]} here", file=sys.stderr)
                continue
            path = Path(folder, f"{name}_watched.py")
            path.write_text(PROGRAMS[name] + TIMED)
            write_row(row_of(name, str(path)))
