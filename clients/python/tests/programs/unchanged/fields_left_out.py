"""A dataclass leaves its count out of its text and out of comparisons, and the count is changed under a lock.

due: none
"""

import threading
from dataclasses import asdict, dataclass, field


@dataclass
class Page:
    name: str
    hits: int = field(default=0, repr=False, compare=False)

    def __post_init__(self):
        self.seen = 0


page, other, lock, told = Page("home"), Page("help"), threading.Lock(), []


def hit():
    with lock:
        page.hits += 1
        page.seen += 1


def show():
    told.append(f"{page}")
    told.append(page == other)
    told.append([page] == [other])
    told.append(repr([page]))


def keep():
    with lock:
        told.append(asdict(page)["name"])


threads = [threading.Thread(target=work) for work in (hit, show, keep)]
for thread in threads:
    thread.start()
for thread in threads:
    thread.join()
print(len(told), page.hits)
