"""A producer collects lines, and a shipper sends them as one text. The producer does not wait for it.

due: race
thing: lines
"""

import threading


class Shipper:
    def __init__(self):
        self.lines = []
        self.sent = []

    def produce(self):
        for number in range(5):
            self.lines.append(f"line {number}")  # race: write

    def ship(self):
        self.sent.append("\n".join(self.lines))  # race: read


shipper = Shipper()
threads = [threading.Thread(target=shipper.produce), threading.Thread(target=shipper.ship)]
for thread in threads:
    thread.start()
for thread in threads:
    thread.join()
print(len(shipper.sent))
