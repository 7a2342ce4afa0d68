"""Two asyncio tasks take money from one account, and each awaits between read and write.

due: race
thing: account
"""

import asyncio

from itc_trace import shared


class Account:
    def __init__(self, money):
        self.money = money

    async def withdraw(self, amount):
        money = self.money  # race: read
        await asyncio.sleep(0.01)
        self.money = money - amount  # race: write


async def main():
    account = shared(Account(100), "account")
    await asyncio.gather(account.withdraw(30), account.withdraw(50))
    print(account.money > 0)


asyncio.run(main())
