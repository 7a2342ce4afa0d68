"""A coroutine gives an object to a thread, and takes it up once it has awaited the thread.

due: none
"""

import asyncio


class Image:
    def __init__(self, width):
        self.width = width
        self.steps = []

    def halve(self):
        self.width //= 2
        self.steps.append("halve")


async def main():
    image = Image(100)
    await asyncio.to_thread(image.halve)
    image.steps.append("look")
    await asyncio.get_running_loop().run_in_executor(None, image.halve)
    print(image.width, image.steps)


asyncio.run(main())
