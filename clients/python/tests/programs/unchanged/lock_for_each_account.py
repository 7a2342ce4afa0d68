"""A transfer takes the lock of each account around the touch of that account.

due: none
"""

import threading
from dataclasses import dataclass, field


@dataclass
class Account:
    owner: str
    balance: int = 100
    lock: threading.Lock = field(default_factory=threading.Lock)

    def change(self, amount):
        with self.lock:
            self.balance += amount


def transfer(source, target, amount):
    source.change(-amount)
    target.change(amount)


accounts = [Account(owner) for owner in ("ann", "bea", "cy")]
threads = [
    threading.Thread(target=transfer, args=(accounts[number], accounts[(number + 1) % 3], 10)) for number in range(3)
]
for thread in threads:
    thread.start()
for thread in threads:
    thread.join()
print([account.balance for account in accounts])
