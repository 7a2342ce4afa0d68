"""The loop shows the progress of a function that a thread runs.

due: race
thing: Conversion.percent
"""

import asyncio
import time


class Conversion:
    def __init__(self):
        self.percent = 0

    def run(self):
        for percent in (50, 100):
            time.sleep(0.005)
            self.percent = percent  # race: write


async def main():
    conversion = Conversion()
    running = asyncio.create_task(asyncio.to_thread(conversion.run))
    await asyncio.sleep(0.002)
    print(conversion.percent in (0, 50, 100))  # race: read
    await running
    print(conversion.percent)


asyncio.run(main())
