"""One thread deletes a session while another looks whether it is there.

due: race
thing: sessions['ann']
"""

import threading

sessions = {"ann": 1, "bea": 2}


def log_out(name):
    del sessions[name]  # race: write


def is_in(name):
    return name in sessions  # race: read


threads = [threading.Thread(target=log_out, args=("ann",)), threading.Thread(target=is_in, args=("ann",))]
for thread in threads:
    thread.start()
for thread in threads:
    thread.join()
print(sessions)
