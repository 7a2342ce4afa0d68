"""A thread prepares an object and starts a second one, which goes on with it.

due: none
"""

import threading


class Job:
    def __init__(self):
        self.steps = []
        self.state = "new"


def second(job):
    job.steps.append("second")
    job.state = "done"


def first(job, started):
    job.steps.append("first")
    job.state = "running"
    thread = threading.Thread(target=second, args=(job,))
    thread.start()
    started.append(thread)


job, started = Job(), []
thread = threading.Thread(target=first, args=(job, started))
thread.start()
thread.join()
started[0].join()
print(job.steps, job.state)
