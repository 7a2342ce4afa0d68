"""Counts the views of a page in several threads.

due: race
thing: Page.views
"""

from threading import Thread


class Page:
    def __init__(self, title):
        self.title = title
        self.views = 0

    def view(self):
        self.views += 1  # race: read, write
        return self.title


page = Page("home")
readers = [Thread(target=page.view) for _ in range(4)]
for reader in readers:
    reader.start()
for reader in readers:
    reader.join()
print(page.views <= 4)
