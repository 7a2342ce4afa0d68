"""A publisher goes through the queues of its subscribers, while another thread subscribes.

due: race
thing: subscribers
"""

import queue
import threading


class Broker:
    def __init__(self):
        self.subscribers = []

    def subscribe(self):
        inbox = queue.Queue()
        self.subscribers.append(inbox)  # race: write
        return inbox

    def publish(self, text):
        for inbox in self.subscribers:  # race: read
            inbox.put(text)


broker = Broker()
first = broker.subscribe()
publishing = threading.Thread(target=broker.publish, args=("news",))
subscribing = threading.Thread(target=broker.subscribe)
publishing.start()
subscribing.start()
print(first.get())
publishing.join()
subscribing.join()
