"""Handlers are lambdas that change a dict of the class around them.

due: race
thing: ['volume']
"""

import threading


class Radio:
    def __init__(self):
        self.settings = {"volume": 1}
        self.handlers = {
            "up": lambda: self.settings.__setitem__("volume", self.settings["volume"] + 1),  # race: read, write
            "mute": lambda: self.settings.update(volume=0),  # also: write
        }

    def press(self, button):
        self.handlers[button]()


radio = Radio()
threads = [threading.Thread(target=radio.press, args=("up",)) for _ in range(2)]
for thread in threads:
    thread.start()
for thread in threads:
    thread.join()
print(radio.settings["volume"] > 1)
