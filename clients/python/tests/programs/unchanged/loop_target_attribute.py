"""A loop's target is an attribute of a shared object, which another thread shows.

due: race
thing: Scan.position
"""

import threading


class Scan:
    def __init__(self):
        self.position = -1

    def run(self):
        for self.position in range(3):  # race: write
            pass

    def show(self):
        return f"at {self.position!r}"  # race: read


scan = Scan()
threads = [threading.Thread(target=scan.run), threading.Thread(target=scan.show)]
for thread in threads:
    thread.start()
for thread in threads:
    thread.join()
print(scan.show())
