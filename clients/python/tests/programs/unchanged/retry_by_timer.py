"""A timer tries again and counts, while the caller reads how often it was tried.

due: race
thing: Upload.attempts
"""

import threading


class Upload:
    def __init__(self):
        self.attempts = 0
        self.finished = threading.Event()

    def attempt(self):
        self.attempts += 1  # race: write
        if self.attempts < 3:  # also: read
            threading.Timer(0.001, self.attempt).start()
        else:
            self.finished.set()


upload = Upload()
upload.attempt()
print(upload.attempts > 0)  # race: read
upload.finished.wait()
