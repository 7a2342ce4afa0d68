"""The caller waits for all jobs, and then looks at what they changed.

due: none
"""

import concurrent.futures
import threading


class Progress:
    def __init__(self):
        self.lock = threading.Lock()
        self.done = 0
        self.names = set()

    def finish(self, name):
        with self.lock:
            self.done += 1
            self.names.add(name)


progress = Progress()
pool = concurrent.futures.ThreadPoolExecutor(3)
jobs = [pool.submit(progress.finish, name) for name in ("a", "b", "c")]
concurrent.futures.wait(jobs)
print(progress.done, len(progress.names))
pool.shutdown()
