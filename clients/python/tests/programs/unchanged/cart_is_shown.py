"""A thread puts lines into a cart, and another one shows the cart, whose text has all of its lines.

due: race
thing: Cart.lines or cart.lines
"""

import threading
from dataclasses import dataclass, field


@dataclass
class Cart:
    owner: str
    lines: list = field(default_factory=list)


cart = Cart("ada")


def add():
    cart.lines.append("tea")  # race: write


def show():
    print(f"{cart}")  # race: read


threads = [threading.Thread(target=add), threading.Thread(target=show)]
for thread in threads:
    thread.start()
for thread in threads:
    thread.join()
