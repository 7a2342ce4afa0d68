"""Makes every call of the client: see clients/test.

Usage: python3 check.py PORT TENANT PORT_OF_CUT_REPLIES
"""
import sys
import threading

from itc_trace import Refused, Session

TASKS, EVENTS = 4, 25


def code(call, *words):
    """The code with which the call is refused, or "closed" where there is no whole reply."""
    try:
        return f"answered {call(*words)}"
    except Refused as refused:
        return str(refused.code)
    except ConnectionError:
        return "closed"


def work(session, task, found):
    """Reports for one task, beside others; tells whether each reply was to its own request, and came in order."""
    events = [session.local(task) for _ in range(EVENTS)]
    found.append(events == sorted(events) and all(session.event(event)[1] == task for event in events))


def main():
    port, tenant, cut = int(sys.argv[1]), sys.argv[2], int(sys.argv[3])
    session, asking = Session(tenant, port), Session(tenant, port, "view")
    print(session.local("root"), session.spawn("root", "a"), session.local("a"), session.local("root"), session.send("a", "m"),
          session.recv("root", "m"), session.end("a"), session.join("root", "a"))
    print(asking.order(4, 5), asking.order(6, 5), asking.past(5), asking.concurrent(5), asking.past(1), asking.cut(6))
    print(*asking.event(6), asking.stamp(6), *asking.task("a"), *asking.message("m"), *asking.count())
    print(code(session.local, "nobody"), code(session.local, "a"), code(session.send, "root", "m"), code(asking.local, "root"),
          code(session.past, 9), code(session.local, "\u00e4"), code(session.local, "root\nlocal root"), code(Session, tenant, port),
          code(Session, "nobody", port))
    found, threads = [], []
    for number in range(TASKS):
        session.spawn("root", f"t{number}")
        threads.append(threading.Thread(target=work, args=(session, f"t{number}", found)))
    for thread in threads:
        thread.start()
    for thread in threads:
        thread.join()
    print(found.count(True), asking.count()[0])
    print(code(session.request, "quit"), code(Session(tenant, cut).local, "root"))


main()
