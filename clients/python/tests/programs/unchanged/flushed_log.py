"""A log is flushed by taking its list away, while a writer adds to the old one.

due: race
thing: Log.lines
"""

import threading


class Log:
    def __init__(self):
        self.lines = []

    def write(self, line):
        self.lines.append(line)  # race: read

    def flush(self):
        self.lines = []  # race: write


log = Log()
threads = [threading.Thread(target=log.write, args=("x",)), threading.Thread(target=log.flush)]
for thread in threads:
    thread.start()
for thread in threads:
    thread.join()
print(len(log.lines) <= 1)
