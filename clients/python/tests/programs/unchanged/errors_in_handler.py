"""Errors are counted where they are caught.

due: race
thing: Importer.errors
"""

import threading


class Importer:
    def __init__(self):
        self.errors = 0

    def load(self, text):
        try:
            return int(text)
        except ValueError:
            self.errors += 1  # race: read, write
            return None


importer = Importer()
threads = [threading.Thread(target=importer.load, args=(text,)) for text in ("x", "y", "3")]
for thread in threads:
    thread.start()
for thread in threads:
    thread.join()
print(importer.errors <= 2)
