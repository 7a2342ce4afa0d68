"""The event is set before the data is there.

due: race
thing: Download.content
"""

import threading


class Download:
    def __init__(self):
        self.content = None
        self.arrived = threading.Event()

    def run(self):
        self.arrived.set()
        self.content = b"page"  # race: write


download = Download()
running = threading.Thread(target=download.run)
running.start()
download.arrived.wait()
print(download.content in (None, b"page"))  # race: read
running.join()
