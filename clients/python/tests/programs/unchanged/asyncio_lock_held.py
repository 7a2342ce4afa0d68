"""A payment waits between read and write, and holds a lock of the account.

due: none
"""

import asyncio


class Account:
    def __init__(self):
        self.lock = asyncio.Lock()
        self.balance = 100

    async def pay(self, amount):
        async with self.lock:
            balance = self.balance
            await asyncio.sleep(0.001)
            self.balance = balance - amount


async def main():
    account = Account()
    await asyncio.gather(account.pay(10), account.pay(20), account.pay(30))
    print(account.balance)


asyncio.run(main())
