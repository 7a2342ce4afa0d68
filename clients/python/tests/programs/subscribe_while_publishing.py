"""A bus calls its subscribers while another thread subscribes.

due: race
thing: bus
"""

import threading

from itc_trace import shared


class Bus:
    def __init__(self):
        self.subscribers = shared([], "bus")

    def subscribe(self, handler):
        self.subscribers.append(handler)  # race: write

    def publish(self, event):
        for handler in list(self.subscribers):  # race: read
            handler(event)


bus = Bus()
bus.subscribe(print)
threads = [threading.Thread(target=bus.subscribe, args=(str,)), threading.Thread(target=bus.publish, args=("event",))]
for thread in threads:
    thread.start()
for thread in threads:
    thread.join()
