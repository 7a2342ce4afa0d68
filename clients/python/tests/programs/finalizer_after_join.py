"""A finalizer reads an object's log when the last reference goes, after all threads were joined.

due: none
thing: trace
"""

import threading
import weakref

from itc_trace import shared

trace = shared([], "trace")


class Machine:
    def __init__(self):
        self.lock = threading.Lock()

    def run(self):
        with self.lock:
            trace.append("run")


def report(lines):
    print(len(lines))


machine = Machine()
weakref.finalize(machine, report, trace)
threads = [threading.Thread(target=machine.run) for _ in range(2)]
for thread in threads:
    thread.start()
for thread in threads:
    thread.join()
del machine, threads, thread
