"""The results of a pool are counted before the pool is done.

due: race
thing: Batch.finished
"""

from concurrent.futures import ThreadPoolExecutor


class Batch:
    def __init__(self, names):
        self.names = names
        self.finished = False

    def process(self):
        self.finished = all(name.isalpha() for name in self.names)  # race: write


batch = Batch(["one", "two"])
with ThreadPoolExecutor(max_workers=2) as pool:
    future = pool.submit(batch.process)
    print(batch.finished in (True, False))  # race: read
    future.result()
print(batch.finished)
