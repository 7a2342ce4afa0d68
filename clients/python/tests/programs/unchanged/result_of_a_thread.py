"""A subclass of `Thread` keeps its result, which is read after the join.

due: none
"""

from threading import Thread


class Download(Thread):
    def __init__(self, address):
        super().__init__(name=f"download {address}")
        self.address = address
        self.content = None
        self.error = None

    def run(self):
        try:
            self.content = self.address.encode()
        except UnicodeError as error:
            self.error = error


downloads = [Download(address) for address in ("a", "bb")]
for download in downloads:
    download.start()
for download in downloads:
    download.join()
print([len(download.content) for download in downloads if download.error is None])
