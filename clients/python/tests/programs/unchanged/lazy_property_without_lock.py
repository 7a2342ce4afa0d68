"""A property makes its value when it is first asked for, without a lock.

due: race
thing: Page._words
"""

import threading


class Page:
    def __init__(self, text):
        self.text = text
        self._words = None

    @property
    def words(self):
        if self._words is None:  # race: read
            self._words = self.text.split()  # race: write
        return self._words  # also: read


page = Page("to be")
threads = [threading.Thread(target=lambda: page.words) for _ in range(2)]
for thread in threads:
    thread.start()
for thread in threads:
    thread.join()
print(page.words)
