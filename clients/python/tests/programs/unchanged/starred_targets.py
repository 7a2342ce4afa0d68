"""A line is taken apart into fields, one of them starred, while another thread reads that one.

due: race
thing: Command.words
"""

import threading


class Command:
    def __init__(self):
        self.name, self.words = "", []

    def parse(self, line):
        self.name, *self.words = line.split()  # race: write

    def count(self):
        return len(self.words)  # race: read


command = Command()
threads = [threading.Thread(target=command.parse, args=("copy a b",)), threading.Thread(target=command.count)]
for thread in threads:
    thread.start()
for thread in threads:
    thread.join()
print(command.count())
