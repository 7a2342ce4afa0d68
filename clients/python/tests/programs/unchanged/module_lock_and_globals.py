"""Functions of a module share its variables under the module's lock.

due: none
uses: _accounts.py
"""

import threading

import _accounts
from _accounts import deposit

threads = [threading.Thread(target=deposit, args=("ann", amount)) for amount in (1, 2)]
threads += [threading.Thread(target=_accounts.total) for _ in range(2)]
for thread in threads:
    thread.start()
for thread in threads:
    thread.join()
print(_accounts.total(), _accounts.changes)
