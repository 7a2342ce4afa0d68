"""A subclass of Thread keeps its result, which is read after it was joined.

due: none
"""

import threading


class Crawler(threading.Thread):
    def __init__(self, page):
        super().__init__()
        self.page = page
        self.links = []

    def run(self):
        for letter in self.page:
            self.links.append(letter)
        self.links.sort()

    def result(self):
        self.join()
        return self.links


crawlers = [Crawler(page) for page in ("one", "two")]
for crawler in crawlers:
    crawler.start()
print([crawler.result() for crawler in crawlers])
