"""A frozen dataclass is put in the place of another one by `object.__setattr__`, while its text is made.

due: race
thing: State.score
"""

import threading
from dataclasses import dataclass


@dataclass(frozen=True)
class State:
    score: int = 0
    name: str = "x"


state = State()


def change():
    object.__setattr__(state, "score", 1)  # race: write


def show():
    return f"{state!r}"  # race: read


threads = [threading.Thread(target=change), threading.Thread(target=show)]
for thread in threads:
    thread.start()
for thread in threads:
    thread.join()
print(state)
