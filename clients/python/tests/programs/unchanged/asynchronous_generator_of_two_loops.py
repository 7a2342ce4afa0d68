"""Two threads with a loop each run an asynchronous generator that counts what it has sent.

due: race
thing: Feed.sent
"""

import asyncio
import threading


class Feed:
    def __init__(self):
        self.sent = 0

    async def numbers(self):
        for number in range(3):
            self.sent += 1  # race: read, write
            yield number


feed = Feed()

def run(*works):
    threads = [threading.Thread(target=work) for work in works]
    for thread in threads:
        thread.start()
    for thread in threads:
        thread.join()


async def read():
    return [one async for one in feed.numbers()]


run(lambda: asyncio.run(read()), lambda: asyncio.run(read()))
