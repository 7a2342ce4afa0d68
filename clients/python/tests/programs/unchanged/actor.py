"""One thread owns all accounts, and the others send it what to do.

due: none
"""

import queue
import threading


class Bank:
    def __init__(self):
        self.accounts = {}
        self.inbox = queue.SimpleQueue()
        self.thread = threading.Thread(target=self._run)
        self.thread.start()

    def _run(self):
        while (message := self.inbox.get()) is not None:
            name, amount, answer = message
            self.accounts[name] = self.accounts.get(name, 0) + amount
            answer.put(self.accounts[name])

    def deposit(self, name, amount):
        answer = queue.SimpleQueue()
        self.inbox.put((name, amount, answer))
        return answer.get()

    def close(self):
        self.inbox.put(None)
        self.thread.join()


bank = Bank()
threads = [threading.Thread(target=bank.deposit, args=("ann", amount)) for amount in (1, 2, 3)]
for thread in threads:
    thread.start()
for thread in threads:
    thread.join()
bank.close()
print(bank.accounts)
