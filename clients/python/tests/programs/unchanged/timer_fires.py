"""A timer renews a token, and a client uses it meanwhile.

due: race
thing: Token.value
"""

import threading


class Token:
    def __init__(self, value):
        self.value = value

    def renew(self):
        self.value = self.value + "x"  # race: write


token = Token("a")
timer = threading.Timer(0.001, token.renew)
timer.start()
header = f"Bearer {token.value}"  # race: read
timer.join()
print(header.startswith("Bearer a"))
