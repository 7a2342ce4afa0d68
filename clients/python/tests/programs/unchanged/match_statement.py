"""A machine changes its state by a match statement, and two threads send it on.

due: race
thing: Machine.state
"""

import threading


class Machine:
    def __init__(self):
        self.state = "red"

    def step(self):
        match self.state:  # race: read
            case "red":
                self.state = "green"  # race: write
            case "green":
                self.state = "yellow"  # also: write
            case _:
                self.state = "red"  # also: write


machine = Machine()
threads = [threading.Thread(target=machine.step) for _ in range(2)]
for thread in threads:
    thread.start()
for thread in threads:
    thread.join()
print(machine.state in ("green", "yellow"))
