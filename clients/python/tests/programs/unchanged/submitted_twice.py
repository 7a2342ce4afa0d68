"""The same method is given to a pool twice, for the same object.

due: race
thing: Matrix.sum
"""

from concurrent.futures import ThreadPoolExecutor


class Matrix:
    def __init__(self, rows):
        self.rows = rows
        self.sum = 0

    def add(self, number):
        self.sum += sum(self.rows[number])  # race: read, write


matrix = Matrix([[1, 2], [3, 4]])
with ThreadPoolExecutor(2) as pool:
    list(pool.map(matrix.add, range(2)))
print(matrix.sum in (3, 7, 10))
