"""A payment waits for the bank between reading and writing the balance.

due: race
thing: Account.balance
"""

import asyncio


class Account:
    def __init__(self):
        self.balance = 100

    async def pay(self, amount):
        balance = self.balance  # race: read
        await asyncio.sleep(0.01)
        self.balance = balance - amount  # race: write


async def main():
    account = Account()
    await asyncio.gather(account.pay(10), account.pay(20))
    print(account.balance)


asyncio.run(main())
