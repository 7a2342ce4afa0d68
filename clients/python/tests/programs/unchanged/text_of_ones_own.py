"""A dataclass has a text of its own with its name alone, and its count is changed under a lock.

due: none
"""

import threading
from dataclasses import dataclass


@dataclass
class Page:
    name: str
    hits: int = 0

    def __str__(self):
        return f"page {self.name}"


page, lock, texts = Page("home"), threading.Lock(), []


def hit():
    with lock:
        page.hits += 1


def show():
    texts.append(f"{page}")
    texts.append(str(page))


threads = [threading.Thread(target=work) for work in (hit, show, hit)]
for thread in threads:
    thread.start()
for thread in threads:
    thread.join()
print(texts, page.hits)
