"""A handler takes an event apart by a pattern, while its sender still changes it.

due: race
thing: Event.payload
"""

import threading


class Event:
    __match_args__ = ("kind", "payload")

    def __init__(self, kind, payload):
        self.kind, self.payload = kind, payload


def handle(event):
    match event:
        case Event("sale", int(amount)) if amount > 0:  # race: read
            return amount
        case Event(kind="refund"):
            return 0
    return None


event = Event("sale", 3)


def change():
    event.payload = 4  # race: write


threads = [threading.Thread(target=handle, args=(event,)), threading.Thread(target=change)]
for thread in threads:
    thread.start()
for thread in threads:
    thread.join()
print(handle(event))
