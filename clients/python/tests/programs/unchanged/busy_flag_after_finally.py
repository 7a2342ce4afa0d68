"""A flag is cleared behind the block that has the lock.

due: race
thing: Job.busy
"""

import threading


class Job:
    def __init__(self):
        self.busy = False
        self.lock = threading.Lock()

    def work(self):
        self.lock.acquire()
        try:
            self.busy = True
        finally:
            self.lock.release()
        self.busy = False  # race: write

    def ask(self):
        with self.lock:
            return self.busy  # race: read


job = Job()

def run(*works):
    threads = [threading.Thread(target=work) for work in works]
    for thread in threads:
        thread.start()
    for thread in threads:
        thread.join()


run(job.work, job.ask)
