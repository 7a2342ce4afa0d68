"""Threads read module constants, an enum and a frozen dataclass.

due: none
"""

import enum
import threading
from dataclasses import dataclass

VOWELS = frozenset("aeiou")
WEIGHTS = {"a": 1, "e": 2}


class Mode(enum.Enum):
    FAST = 1
    SLOW = 2


@dataclass(frozen=True)
class Task:
    word: str
    mode: Mode = Mode.FAST


task = Task("area")
scores = []


def score():
    total = sum(WEIGHTS.get(letter, 0) for letter in task.word if letter in VOWELS)
    scores.append(total * task.mode.value)


threads = [threading.Thread(target=score) for _ in range(3)]
for thread in threads:
    thread.start()
for thread in threads:
    thread.join()
print(scores)
