"""Two clerks pay into an account that is a dataclass without a lock.

due: race
thing: account
"""

import threading
from dataclasses import dataclass, field

from itc_trace import shared


@dataclass
class Account:
    owner: str
    balance: int = 0
    notes: list = field(default_factory=list)

    def deposit(self, amount):
        balance = self.balance  # race: read
        self.balance = balance + amount  # race: write


account = shared(Account("ann"), "account")
clerks = [threading.Thread(target=account.deposit, args=(amount,)) for amount in (10, 20)]
for clerk in clerks:
    clerk.start()
for clerk in clerks:
    clerk.join()
print(account.balance in (10, 20, 30))
