"""Two threads run an asyncio loop each, and their coroutines share a dict.

due: race
thing: presence
"""

import asyncio
import threading

from itc_trace import shared

presence = shared({"online": 0}, "presence")


async def enter():
    await asyncio.sleep(0)
    presence["online"] += 1  # race: read, write


threads = [threading.Thread(target=lambda: asyncio.run(enter())) for _ in range(2)]
for thread in threads:
    thread.start()
for thread in threads:
    thread.join()
print(presence["online"] in (1, 2))
