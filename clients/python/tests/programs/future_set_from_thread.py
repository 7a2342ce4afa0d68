"""A thread sets the result of an asyncio future by way of the loop.

due: none
thing: reading
"""

import asyncio
import threading

from itc_trace import shared


async def main():
    loop = asyncio.get_running_loop()
    ready = loop.create_future()
    reading = shared({}, "reading")

    def measure():
        reading["degrees"] = 21
        loop.call_soon_threadsafe(ready.set_result, "ready")

    sensor = threading.Thread(target=measure)
    sensor.start()
    await ready
    reading["degrees"] += 1
    sensor.join()
    print(reading["degrees"])


asyncio.run(main())
