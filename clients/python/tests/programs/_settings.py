"""What `import_in_two_threads` imports: the module takes a moment to be set up."""

import time

from itc_trace import touch

touch("settings", write=True)
time.sleep(0.05)
values = {"debug": False}
touch("settings", write=True)


def read():
    touch("settings")
    return values["debug"]
