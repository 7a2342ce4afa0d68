"""Two threads set different fields of one object.

due: none
"""

import threading


class Comparison:
    def __init__(self, text):
        self.text = text
        self.letters = 0
        self.words = 0

    def count_letters(self):
        for letter in self.text:
            self.letters += letter.isalpha()

    def count_words(self):
        self.words = len(self.text.split())


comparison = Comparison("to be or not to be")
threads = [threading.Thread(target=comparison.count_letters), threading.Thread(target=comparison.count_words)]
for thread in threads:
    thread.start()
for thread in threads:
    thread.join()
print(comparison.letters, comparison.words)
