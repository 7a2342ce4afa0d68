"""Jobs fill objects of their own, which the caller takes as they are completed.

due: none
"""

from concurrent.futures import ThreadPoolExecutor, as_completed


class Page:
    def __init__(self, address):
        self.address = address
        self.size = None

    def load(self):
        self.size = len(self.address)
        return self


pages = [Page(address) for address in ("a", "bb", "ccc")]
with ThreadPoolExecutor(2) as pool:
    jobs = {pool.submit(page.load): page for page in pages}
    total = 0
    for job in as_completed(jobs):
        total += jobs[job].size
        job.result().size = 0
print(total)
