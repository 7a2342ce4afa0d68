"""Containers that the library has written in Python are changed by one thread and looked at by another.

due: race
thing: settings or history or layers or known or alive
"""

import threading
import weakref
from collections import ChainMap, UserDict, UserList


class Session:
    pass


session = Session()
settings, history, layers = UserDict(), UserList(), ChainMap({}, {"x": 0})
known, alive = weakref.WeakValueDictionary(), weakref.WeakSet()


def change():
    settings["x"] = 1  # race: write
    history.append("x")  # race: write
    layers["x"] = 1  # race: write
    known["x"] = session  # race: write
    alive.add(session)  # race: write


def look():
    print(settings.get("x") in (None, 1))  # race: read
    print(len(history) < 2)  # race: read
    print(layers["x"] < 2)  # race: read
    print("x" in known)  # race: read
    print(len(list(alive)) < 2)  # race: read


threads = [threading.Thread(target=change), threading.Thread(target=look)]
for thread in threads:
    thread.start()
for thread in threads:
    thread.join()
