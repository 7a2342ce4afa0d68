"""Each logger has its own lock, but all write the line number of one class.

due: race
thing: Logger.line
"""

import threading


class Logger:
    line = 0

    def __init__(self, name):
        self.name = name
        self.lock = threading.Lock()

    def log(self):
        with self.lock:
            Logger.line = Logger.line + 1  # race: read, write


loggers = [Logger("app"), Logger("db")]
threads = [threading.Thread(target=logger.log) for logger in loggers]
for thread in threads:
    thread.start()
for thread in threads:
    thread.join()
print(Logger.line <= 2)
