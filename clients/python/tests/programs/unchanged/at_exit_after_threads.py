"""A handler at exit reads what threads wrote that were joined.

due: none
"""

import atexit
import threading


class Statistics:
    def __init__(self):
        self.requests = 0
        self.lock = threading.Lock()

    def count(self):
        with self.lock:
            self.requests += 1

    def show(self):
        print(self.requests)


def main():
    statistics = Statistics()
    atexit.register(statistics.show)
    threads = [threading.Thread(target=statistics.count) for _ in range(3)]
    for thread in threads:
        thread.start()
    for thread in threads:
        thread.join()


main()
