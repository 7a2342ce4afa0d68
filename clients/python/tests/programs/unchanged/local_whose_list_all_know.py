"""Each thread of a pool keeps a list in a `threading.local`. The caller knows these lists, too, and looks before the jobs are over.

due: race
thing: rows
"""

import threading
from concurrent.futures import ThreadPoolExecutor

local, all_rows, meeting = threading.local(), [], threading.Barrier(2)


def begin():
    rows = local.rows = []
    all_rows.append(rows)
    meeting.wait()


def work(number):
    local.rows.append(number)  # race: write


with ThreadPoolExecutor(2, initializer=begin) as pool:
    jobs = [pool.submit(work, number) for number in range(12)]
    for job in jobs[:4]:
        job.result()
    print(sum([len(rows) for rows in all_rows]) >= 0)  # race: read
