"""A producer collects lines, and a shipper takes all of them under a lock.

due: none
"""

import threading


class Shipper:
    def __init__(self):
        self.lines = []
        self.sent = []
        self.lock = threading.Lock()

    def produce(self):
        for number in range(5):
            with self.lock:
                self.lines.append(f"line {number}")

    def ship(self):
        with self.lock:
            batch, self.lines = self.lines, []
        self.sent.append("\n".join(batch))


shipper = Shipper()
threads = [threading.Thread(target=shipper.produce), threading.Thread(target=shipper.ship)]
for thread in threads:
    thread.start()
for thread in threads:
    thread.join()
shipper.ship()
print(sum(text.count("line") for text in shipper.sent))
