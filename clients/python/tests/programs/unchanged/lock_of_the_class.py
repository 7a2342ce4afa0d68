"""A class counts its instances under a lock of the class.

due: none
"""

import threading


class Ticket:
    _lock = threading.Lock()
    _last = 0

    def __init__(self):
        with Ticket._lock:
            Ticket._last += 1
            self.number = Ticket._last


tickets = []


def draw():
    tickets.append(Ticket())


threads = [threading.Thread(target=draw) for _ in range(4)]
for thread in threads:
    thread.start()
for thread in threads:
    thread.join()
print(sorted(ticket.number for ticket in tickets))
