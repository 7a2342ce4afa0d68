"""A callback of an asyncio task reads what the task left behind.

due: none
thing: outcome
"""

import asyncio

from itc_trace import shared

outcome = shared({}, "outcome")


async def work():
    await asyncio.sleep(0.001)
    outcome["status"] = "done"


async def main():
    ended = asyncio.Event()

    def finish(task):
        outcome["seen"] = outcome["status"]
        ended.set()

    asyncio.create_task(work()).add_done_callback(finish)
    await ended.wait()
    print(outcome["seen"])


asyncio.run(main())
