"""A future that the program makes itself hands a result from one thread to another.

due: none
thing: picture
"""

import threading
from concurrent.futures import Future

from itc_trace import shared

promise = Future()


def paint():
    picture = shared([], "picture")
    picture.append("sun")
    promise.set_result(picture)


painter = threading.Thread(target=paint)
painter.start()
picture = promise.result()
picture.append("moon")
painter.join()
print(picture)
