"""A `SimpleNamespace` serves as the state of a program.

due: race
thing: state mode or SimpleNamespace.mode
"""

import threading
import types

state = types.SimpleNamespace(mode="day", since=0)


def switch():
    state.mode = "night"  # race: write


def is_dark():
    return state.mode == "night"  # race: read


threads = [threading.Thread(target=switch), threading.Thread(target=is_dark)]
for thread in threads:
    thread.start()
for thread in threads:
    thread.join()
print(is_dark())
