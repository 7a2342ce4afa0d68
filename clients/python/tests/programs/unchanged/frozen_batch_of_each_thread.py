"""Each thread has a frozen batch with a list of its own.

due: none
"""

import threading
from dataclasses import dataclass, field


@dataclass(frozen=True)
class Batch:
    name: str
    rows: list = field(default_factory=list)


def run(*works):
    threads = [threading.Thread(target=work) for work in works]
    for thread in threads:
        thread.start()
    for thread in threads:
        thread.join()


def work():
    batch = Batch("one")
    batch.rows.append(batch.name)
    print(len(batch.rows))


run(work, work)
