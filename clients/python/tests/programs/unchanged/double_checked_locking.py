"""The famous double-checked locking: the first check holds no lock.

due: race
thing: _engine
"""

import threading

_lock = threading.Lock()
_engine = None


class Engine:
    pass


def engine():
    global _engine
    if _engine is None:  # race: read
        with _lock:
            if _engine is None:  # also: read
                _engine = Engine()  # race: write
    return _engine  # also: read


threads = [threading.Thread(target=engine) for _ in range(3)]
for thread in threads:
    thread.start()
for thread in threads:
    thread.join()
print(engine() is engine())
