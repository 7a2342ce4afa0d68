"""A thread releases an asyncio semaphore by way of the loop, and a task goes on behind it.

due: none
thing: upload
"""

import asyncio
import threading

from itc_trace import shared


async def main():
    loop, uploaded = asyncio.get_running_loop(), asyncio.Semaphore(0)
    upload = shared({"bytes": 0}, "upload")

    def send():
        upload["bytes"] = 4096
        loop.call_soon_threadsafe(uploaded.release)

    sender = threading.Thread(target=send)
    sender.start()
    await uploaded.acquire()
    upload["bytes"] += 1
    sender.join()
    print(upload["bytes"])


asyncio.run(main())
