"""A function starts a thread, and binds the only value of a variable that the thread looks at behind that.

due: race
thing: settings
"""

import threading
import time


def serve():
    def answer():
        time.sleep(0.1)
        return settings["port"]  # race: read

    thread = threading.Thread(target=answer)
    thread.start()
    settings = {"port": 7117}  # race: write
    thread.join()


serve()
