"""A publisher copies the list of subscribers under a lock, and fills their queues without it.

due: none
"""

import queue
import threading


class Broker:
    def __init__(self):
        self._lock = threading.Lock()
        self._subscribers = {}

    def subscribe(self, name):
        with self._lock:
            self._subscribers[name] = inbox = queue.Queue()
        return inbox

    def leave(self, name):
        with self._lock:
            del self._subscribers[name]

    def publish(self, text):
        with self._lock:
            inboxes = list(self._subscribers.values())
        for inbox in inboxes:
            inbox.put(text)


broker = Broker()
first = broker.subscribe("first")


def come_and_go():
    broker.subscribe("second")
    broker.publish("from second")
    broker.leave("second")


threads = [threading.Thread(target=broker.publish, args=("news",)), threading.Thread(target=come_and_go)]
for thread in threads:
    thread.start()
for thread in threads:
    thread.join()
print(sorted([first.get(), first.get()]))
