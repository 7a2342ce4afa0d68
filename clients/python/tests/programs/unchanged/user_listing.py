"""One thread lists the users while another registers one.

due: race
thing: users
"""

import threading


class Directory:
    def __init__(self):
        self.users = {"root": 0}

    def register(self, name):
        self.users[name] = len(name)  # race: write

    def listing(self):
        return sorted(self.users)  # race: read


directory = Directory()
threads = [threading.Thread(target=directory.register, args=("ann",)), threading.Thread(target=directory.listing)]
for thread in threads:
    thread.start()
for thread in threads:
    thread.join()
print(directory.listing())
