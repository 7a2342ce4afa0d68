"""Two threads sell from one stock, without a lock and with one. The collector tells whether that is a race.

Usage: python3 example.py PORT TENANT
"""
import sys
import threading
from contextlib import contextmanager, nullcontext

from itc_trace import Session


class TracedLock:
    """A lock whose release is a message to whoever acquires it next."""

    def __init__(self, session, name):
        self._session = session
        self._name = name
        self._lock = threading.Lock()
        self._releases = 0

    @contextmanager
    def held(self, task):
        with self._lock:
            if self._releases > 0:
                self._session.recv(task, f"{self._name}_{self._releases}")
            yield
            self._releases += 1
            self._session.send(task, f"{self._name}_{self._releases}")


def sell(session, task, stock, events, lock):
    with nullcontext() if lock is None else lock.held(task):
        left = stock["left"]
        read = session.local(task)
        stock["left"] = left - 1
        write = session.local(task)
    session.end(task)
    events[task] = (read, write)


def run(session, names, lock):
    """Has the threads of these names sell at once. Gives the events at which each read and wrote the stock."""
    stock = {"left": 2}
    events = {}
    threads = []
    for name in names:
        session.spawn("root", name)
        threads.append(threading.Thread(target=sell, args=(session, name, stock, events, lock)))
        threads[-1].start()
    for name, thread in zip(names, threads):
        thread.join()
        session.join("root", name)
    return events


def is_race(asking, events, names):
    """Whether nothing orders the write of the one and the read of the other."""
    (_, write), (read, _) = events[names[0]], events[names[1]]
    return asking.order(write, read) == "concurrent"


def main():
    port, tenant = int(sys.argv[1]), sys.argv[2]
    with Session(tenant, port) as session, Session(tenant, port, "view") as asking:
        for title, names, lock in (
            ("without a lock", ("alice", "bob"), None),
            ("with a lock", ("carol", "dave"), TracedLock(session, "stock")),
        ):
            events = run(session, names, lock)
            print(f"{title}: {'a race' if is_race(asking, events, names) else 'no race'}")
        print("events: %d, tasks: %d, messages: %d" % asking.count())


if __name__ == "__main__":
    main()
