"""An asyncio lock does not keep threads of different loops apart: each makes its own.

due: race
thing: seats
"""

import asyncio
import threading

from itc_trace import shared


class Hall:
    def __init__(self):
        self.seats = shared({"free": 5}, "seats")

    async def book(self):
        async with asyncio.Lock():
            self.seats["free"] -= 1  # race: read, write


hall = Hall()
threads = [threading.Thread(target=asyncio.run, args=(hall.book(),)) for _ in range(2)]
for thread in threads:
    thread.start()
for thread in threads:
    thread.join()
print(hall.seats["free"] in (3, 4))
