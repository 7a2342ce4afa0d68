"""A callback of a loop and a thread change the same dict.

due: race
thing: meter
"""

import asyncio
import threading

from itc_trace import shared

meter = shared({"value": 0}, "meter")


def tick():
    meter["value"] += 1  # race: read, write


def reset():
    meter["value"] = 0  # race: write


async def main():
    loop = asyncio.get_running_loop()
    resetting = threading.Thread(target=reset)
    resetting.start()
    loop.call_later(0.01, tick)
    await asyncio.sleep(0.03)
    resetting.join()


asyncio.run(main())
print(meter["value"] in (0, 1))
