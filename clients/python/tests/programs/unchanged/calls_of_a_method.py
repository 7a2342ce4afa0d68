"""A method counts its calls in a field of its own.

due: race
thing: Mailer.send.calls
"""

import threading


class Mailer:
    def send(self, text):
        Mailer.send.calls += 1  # race: read, write
        return text


Mailer.send.calls = 0
threads = [threading.Thread(target=Mailer().send, args=(text,)) for text in ("one", "two")]
for thread in threads:
    thread.start()
for thread in threads:
    thread.join()
print(Mailer.send.calls <= 2)
