"""A thread hands an item to an asyncio queue by way of the loop.

due: none
thing: message
"""

import asyncio
import threading

from itc_trace import shared


async def main():
    loop, inbox = asyncio.get_running_loop(), asyncio.Queue()

    def send():
        message = shared({}, "message")
        message["text"] = "hello"
        loop.call_soon_threadsafe(inbox.put_nowait, message)

    sender = threading.Thread(target=send)
    sender.start()
    message = await inbox.get()
    message["read"] = True
    await asyncio.to_thread(sender.join)
    print(message["text"])


asyncio.run(main())
