"""A worker says that it is ready before it has written its result.

due: race
thing: Download.content
"""

import threading


class Download:
    def __init__(self):
        self.ready = threading.Event()
        self.content = None

    def run(self):
        self.ready.set()
        self.content = b"data"  # race: write


download = Download()
thread = threading.Thread(target=download.run)
thread.start()
download.ready.wait()
print(download.content in (None, b"data"))  # race: read
thread.join()
