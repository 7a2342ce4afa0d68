"""Each timer starts the next one, and the caller waits for an event that the last one sets.

due: none
"""

import threading


class Upload:
    def __init__(self):
        self.attempts = 0
        self.finished = threading.Event()

    def attempt(self):
        self.attempts += 1
        if self.attempts < 3:
            threading.Timer(0.001, self.attempt).start()
        else:
            self.finished.set()


upload = Upload()
upload.attempt()
upload.finished.wait()
print(upload.attempts)
