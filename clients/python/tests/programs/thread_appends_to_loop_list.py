"""A thread adds to a list of the loop by itself, and not by way of the loop.

due: race
thing: inbox
"""

import asyncio
import threading

from itc_trace import shared


async def main():
    inbox = shared([], "inbox")
    reader = threading.Thread(target=lambda: inbox.append("hello"))  # race: write
    reader.start()
    while not inbox:  # race: read
        await asyncio.sleep(0.005)
    reader.join()
    print(inbox.pop())


asyncio.run(main())
