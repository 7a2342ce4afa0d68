"""A subclass of Thread counts its runs in the class.

due: race
thing: Crawler.finished
"""

import threading


class Crawler(threading.Thread):
    finished = 0

    def __init__(self, page):
        super().__init__(name=f"crawler-{page}")
        self.page = page

    def run(self):
        self.links = len(self.page)
        Crawler.finished += 1  # race: read, write


crawlers = [Crawler(page) for page in ("one", "two")]
for crawler in crawlers:
    crawler.start()
for crawler in crawlers:
    crawler.join()
print(sum(crawler.links for crawler in crawlers))
