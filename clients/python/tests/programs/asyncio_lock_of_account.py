"""Handlers await between read and write, and hold an asyncio lock meanwhile.

due: none
thing: account
"""

import asyncio

from itc_trace import shared


class Account:
    def __init__(self):
        self.lock = asyncio.Lock()
        self.book = shared({"money": 100}, "account")

    async def withdraw(self, amount):
        async with self.lock:
            money = self.book["money"]
            await asyncio.sleep(0.001)
            self.book["money"] = money - amount


async def main():
    account = Account()
    await asyncio.gather(*(account.withdraw(amount) for amount in (10, 20, 30)))
    print(account.book["money"])


asyncio.run(main())
