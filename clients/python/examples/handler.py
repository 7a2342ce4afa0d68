"""Handlers of requests take from an account. Between the read and the write each waits, and another one may read meanwhile.

Usage: handler.py [fixed]
"""

import asyncio
import sys
from contextlib import AbstractAsyncContextManager, nullcontext

import itc_trace

account = itc_trace.shared({"money": 100}, "account")


async def pay(lock: AbstractAsyncContextManager[None]) -> None:
    async with lock:
        money = account["money"]
        await asyncio.sleep(0.001)
        account["money"] = money - 10


async def main() -> None:
    lock = asyncio.Lock() if "fixed" in sys.argv else nullcontext()
    await asyncio.gather(*(pay(lock) for _ in range(3)))
    print("money:", account["money"])


asyncio.run(main())
