"""A lock is passed from function to function, and the innermost one holds it for all.

due: none
thing: document
"""

import threading

from itc_trace import shared

document = shared({"words": 0}, "document")


def save(guard, words):
    with guard:
        _store(words)


def _store(words):
    document["words"] = document["words"] + words


def edit(saver, guard, words):
    saver(guard, words)


guard = threading.Lock()
threads = [threading.Thread(target=edit, args=(save, guard, words)) for words in (3, 4)]
for thread in threads:
    thread.start()
for thread in threads:
    thread.join()
print(document["words"])
