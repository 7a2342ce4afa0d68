"""A queue of one's own looks into itself under its lock, while others look too, and one of them changes what it counts.

due: none
"""
import queue
import threading


class Looked(queue.Queue):
    def __init__(self):
        super().__init__()
        self.looks = 0

    def __contains__(self, item):
        with self.mutex:
            self.looks += 1
            return item in self.queue


jobs = Looked()
jobs.put(1)
threads = [threading.Thread(target=jobs.__contains__, args=(number,)) for number in (1, 2)]
for thread in threads:
    thread.start()
for thread in threads:
    thread.join()
print(jobs.looks)
