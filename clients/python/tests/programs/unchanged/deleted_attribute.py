"""A session's user is deleted while another thread asks for it.

due: race
thing: Session.user
"""

import threading


class Session:
    def __init__(self, user):
        self.user = user

    def log_out(self):
        del self.user  # race: write

    def greet(self):
        try:
            return f"hello {self.user}"  # race: read
        except AttributeError:
            return "hello"


session = Session("ann")
threads = [threading.Thread(target=session.log_out), threading.Thread(target=session.greet)]
for thread in threads:
    thread.start()
for thread in threads:
    thread.join()
print(session.greet())
