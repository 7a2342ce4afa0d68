"""A dataclass shows itself by a method of its own, which takes its lock. So does a class that gives its state.

due: none
"""

import copy
import threading
from dataclasses import dataclass, field


@dataclass
class Settings:
    level: int = 1
    lock: threading.Lock = field(default_factory=threading.Lock, repr=False, compare=False)

    def __repr__(self):
        with self.lock:
            return f"level {self.level > 0}"

    def raise_level(self):
        with self.lock:
            self.level += 1


class Counts:
    def __init__(self):
        self.counts = {"a": 1}
        self.lock = threading.Lock()

    def __copy__(self):
        with self.lock:
            return dict(self.counts)

    def count(self):
        with self.lock:
            self.counts["a"] += 1


settings, counts = Settings(), Counts()


def change():
    settings.raise_level()
    counts.count()


def look():
    print(settings, f"{settings}", [settings])
    copy.copy(counts)


threads = [threading.Thread(target=change), threading.Thread(target=look)]
for thread in threads:
    thread.start()
for thread in threads:
    thread.join()
