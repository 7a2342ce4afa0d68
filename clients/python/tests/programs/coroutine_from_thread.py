"""A thread has a coroutine run by a loop that another thread runs, and takes its result.

due: none
thing: session
"""

import asyncio
import threading

from itc_trace import shared

loop = asyncio.new_event_loop()
runner = threading.Thread(target=loop.run_forever)
runner.start()
session = shared({}, "session")


async def log_in(name):
    session["user"] = name
    await asyncio.sleep(0)
    return session["user"]


session["user"] = None
print(asyncio.run_coroutine_threadsafe(log_in("ann"), loop).result())
session["user"] = "nobody"
loop.call_soon_threadsafe(loop.stop)
runner.join()
loop.close()
