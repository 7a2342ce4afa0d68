"""A starter opens the gate by an event, and runners hand a baton on by a condition.

due: none
thing: baton
"""

import asyncio

from itc_trace import shared


async def run(number, gate, turn, baton):
    await gate.wait()
    async with turn:
        await turn.wait_for(lambda: baton["holder"] == number)
        await asyncio.sleep(0)
        baton["holder"] = number + 1
        turn.notify_all()


async def main():
    gate, turn = asyncio.Event(), asyncio.Condition()
    baton = shared({"holder": -1}, "baton")
    async with asyncio.TaskGroup() as group:
        for number in range(3):
            group.create_task(run(number, gate, turn, baton))
        baton["holder"] = 0
        gate.set()
    print(baton["holder"])


asyncio.run(main())
