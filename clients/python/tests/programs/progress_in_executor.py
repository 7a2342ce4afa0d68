"""A coroutine reads the progress of a function that runs in an executor.

due: race
thing: progress
"""

import asyncio
import time

from itc_trace import shared

progress = shared({"percent": 0}, "progress")


def convert():
    for percent in (50, 100):
        time.sleep(0.01)
        progress["percent"] = percent  # race: write


async def main():
    converting = asyncio.get_running_loop().run_in_executor(None, convert)
    await asyncio.sleep(0.015)
    print(progress["percent"] in (0, 50, 100))  # race: read
    await converting
    print(progress["percent"])


asyncio.run(main())
