"""A coroutine gives work to a thread and reads the outcome once it has awaited it.

due: none
thing: image
"""

import asyncio

from itc_trace import shared


def resize(image):
    image["width"] //= 2


async def main():
    image = shared({"width": 100}, "image")
    await asyncio.to_thread(resize, image)
    image["width"] += 1
    await asyncio.get_running_loop().run_in_executor(None, resize, image)
    print(image["width"])


asyncio.run(main())
