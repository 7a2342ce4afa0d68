"""The main task takes the results of those tasks alone that are done.

due: none
thing: result
"""

import asyncio

from itc_trace import shared


async def fetch(number):
    result = shared({}, f"result {number}")
    await asyncio.sleep(0.002 * number)
    result["number"] = number
    return result


async def main():
    pending = {asyncio.create_task(fetch(number)) for number in range(3)}
    total = 0
    while pending:
        done, pending = await asyncio.wait(pending, return_when=asyncio.FIRST_COMPLETED)
        for task in done:
            result = task.result()
            result["seen"] = True
            total += result["number"]
    print(total)


asyncio.run(main())
