"""A subclass of Queue counts under the queue's lock, and the count is read without it.

due: race
thing: Counted.puts
"""

import queue
import threading


class Counted(queue.Queue):
    def _init(self, maxsize):
        super()._init(maxsize)
        self.puts = 0

    def _put(self, item):
        super()._put(item)
        self.puts += 1  # race: write


jobs = Counted()
filling = threading.Thread(target=jobs.put, args=(1,))
filling.start()
print(jobs.puts in (0, 1))  # race: read
filling.join()
