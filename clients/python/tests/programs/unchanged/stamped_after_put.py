"""A message is stamped after it was put into the queue.

due: race
thing: Message.sent
"""

import queue
import threading
from dataclasses import dataclass


@dataclass
class Message:
    text: str
    sent: bool = False


outbox = queue.Queue()


def produce():
    message = Message("hello")
    outbox.put(message)
    message.sent = True  # race: write


def deliver():
    message = outbox.get()
    print(message.text, message.sent in (True, False))  # race: read


threads = [threading.Thread(target=produce), threading.Thread(target=deliver)]
for thread in threads:
    thread.start()
for thread in threads:
    thread.join()
