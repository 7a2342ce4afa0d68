"""Each asyncio task sets a context variable to a dict of its own.

due: none
thing: request
"""

import asyncio
import contextvars

from itc_trace import shared

request = contextvars.ContextVar("request")


async def audit():
    request.get()["audited"] = True


async def handle(number):
    request.set(shared({}, f"request {number}"))
    request.get()["number"] = number
    await asyncio.sleep(0)
    await audit()
    return request.get()["number"]


async def main():
    print(await asyncio.gather(*(handle(number) for number in range(3))))


asyncio.run(main())
