"""A queue for one item keeps two printers apart.

due: none
"""

import queue
import threading


class Printer:
    def __init__(self):
        self.slot = queue.Queue(1)
        self.pages = 0

    def print(self, count):
        self.slot.put(count)
        self.pages += count
        self.slot.get()


printer = Printer()
threads = [threading.Thread(target=printer.print, args=(count,)) for count in (1, 2, 3)]
for thread in threads:
    thread.start()
for thread in threads:
    thread.join()
print(printer.pages)
