"""A rate limiter of a class with slots checks and takes in two steps.

due: race
thing: Limiter.tokens
"""

import threading


class Limiter:
    __slots__ = ("tokens", "rate")

    def __init__(self, tokens):
        self.tokens = tokens
        self.rate = 1

    def allow(self):
        if self.tokens >= self.rate:  # race: read
            self.tokens -= self.rate  # race: read, write
            return True
        return False


limiter = Limiter(2)
threads = [threading.Thread(target=limiter.allow) for _ in range(3)]
for thread in threads:
    thread.start()
for thread in threads:
    thread.join()
print(limiter.tokens < 2)
