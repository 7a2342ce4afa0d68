"""Each subscriber has a queue of its own, but all are given the same message, and one edits it.

due: race
thing: message
"""

import queue
import threading


class Topic:
    def __init__(self):
        self._lock = threading.Lock()
        self._queues = []

    def subscribe(self):
        mine = queue.Queue()
        with self._lock:
            self._queues.append(mine)
        return mine

    def publish(self, message):
        with self._lock:
            queues = list(self._queues)
        for one in queues:
            one.put(message)


def censor(inbox):
    message = inbox.get()
    message["text"] = message["text"].replace("secret", "***")  # race: write


def archive(inbox, rows):
    message = inbox.get()
    rows.append(message["text"])  # race: read


topic = Topic()
kept = []
threads = [
    threading.Thread(target=censor, args=(topic.subscribe(),)),
    threading.Thread(target=archive, args=(topic.subscribe(), kept)),
]
for thread in threads:
    thread.start()
message = {"text": "the secret is out"}
topic.publish(message)
for thread in threads:
    thread.join()
print(len(kept))
