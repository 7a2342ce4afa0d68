"""A pattern takes the rest of a mapping, while another thread adds a key.

due: race
thing: request
"""

import threading

request = {"verb": "get", "path": "/"}


def handle():
    match request:
        case {"verb": "get", **rest}:  # race: read
            return len(rest)
        case _:
            return None


def sign():
    request["signature"] = "x"  # race: write


threads = [threading.Thread(target=handle), threading.Thread(target=sign)]
for thread in threads:
    thread.start()
for thread in threads:
    thread.join()
print(len(request))
