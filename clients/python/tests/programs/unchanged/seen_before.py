"""Crawlers look whether an address was seen, and then enter it.

due: race
thing: Crawler.seen or seen['/index'] or seen
"""

import threading


class Crawler:
    def __init__(self):
        self.seen = set()

    def visit(self, address):
        if address in self.seen:  # race: read
            return False
        self.seen.add(address)  # race: write
        return True


crawler = Crawler()
threads = [threading.Thread(target=crawler.visit, args=("/index",)) for _ in range(2)]
for thread in threads:
    thread.start()
for thread in threads:
    thread.join()
print(crawler.seen)
