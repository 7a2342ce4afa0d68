"""A rate limiter takes tokens, and checks and takes in two steps.

due: race
thing: bucket
"""

import threading

from itc_trace import shared


class Bucket:
    def __init__(self, tokens):
        self.tokens = tokens

    def allow(self):
        if self.tokens > 0:  # race: read
            self.tokens -= 1  # race: read, write
            return True
        return False


bucket = shared(Bucket(1), "bucket")
allowed = []
threads = [threading.Thread(target=lambda: allowed.append(bucket.allow())) for _ in range(3)]
for thread in threads:
    thread.start()
for thread in threads:
    thread.join()
print(any(allowed))
