"""Memory that processes share by `SharedMemory`: its bytes, its name, and views of it that go where no hook is."""

from __future__ import annotations

import json
import os
import random
import re
import unittest

from itc_trace import Verdict
from itc_trace.model import byte_ranges
from itc_trace.model.conflicts import CONFLICTING

from .support import ProgramCase, run_python, run_traced

METHODS = ("fork", "forkserver", "spawn")
FORMS = ("", "1")
"""The variable by which the hooks are those in C, or those in Python."""
BYTES = """
import multiprocessing, struct, sys, threading
from multiprocessing.shared_memory import SharedMemory

def write(name, own, lock):
    block = SharedMemory(name)
    buf = block.buf
    block.buf[own] = own
    block.buf[4] += 1
    with lock:
        block.buf[5] += 1
    block.buf[8:16] = b"%08d" % own
    first, last = 16 + 4 * own, 20 + 4 * own
    buf[first:last] = b"abcd"
    buf[slice(40 + own, 41 + own)] = b"x"
    buf[slice(44, 45)] = b"x"
    struct.pack_into("<i", block.buf, 24 + 4 * own, own)
    struct.pack_into("<i", block.buf, -48, own)
    with block.buf[52:64] as view:
        whole = view.cast("i")
        whole[own] = own
        whole[2] = own
        del whole
    buf[64 + own:72:2] = bytes(4)
    del buf
    block.close()

def read(block, own):
    assert bytes(block.buf[72:80]) == b"01234567"
    assert struct.unpack("<i", block.buf[72:76]) and struct.unpack_from("<i", block.buf, 76)
    assert block.buf[80:84] == bytes(4) and len(block.buf) == 96
    block.buf[84 + own] = block.buf[86]
    assert block.buf[87:89].tobytes() and int.from_bytes(block.buf[87:89], "little") + 1
    block.buf[88 + own] = 1

def work(block):
    block.buf[95] = 1

method = sys.argv[1]
if __name__ == "__main__":
    context = multiprocessing.get_context(method)
    block, lock = SharedMemory(create=True, size=96), context.Lock()
    block.buf[72:80] = b"01234567"
    for target, words in ((write, (block.name,)), (read, (block,))):
        children = [context.Process(target=target, args=(*words, own, *((lock,) * (target is write)))) for own in range(2)]
        for child in children:
            child.start()
        for child in children:
            child.join()
    threads = [threading.Thread(target=work, args=(block,)) for _ in range(2)]
    for thread in threads:
        thread.start()
    for thread in threads:
        thread.join()
    print(bytes(block.buf[:2]), block.buf[16:24].tobytes(), block.buf[72:80].hex(), block.size, block.buf.nbytes)
    block.close()
    block.unlink()
"""
RACING = {
    "[4]": {"read", "write"}, "[8:16]": {"rewrite"}, "[44]": {"write"}, "[48:52]": {"rewrite"}, "[60:64]": {"rewrite"},
    "[88]": {"read", "write"}, "[95]": {"write"},
}
"""The bytes of that program that race, and by which kinds."""
THREADS = """
import array, random, struct, sys, threading, zlib
from multiprocessing.shared_memory import SharedMemory
from struct import pack_into as pack
class Kept: pass
kept = Kept()
def library(view):
    return zlib.crc32(view)
def first(block):
    FIRST
SECONDS
if __name__ == "__main__":
    for second in (NAMES,):
        block = SharedMemory(create=True, size=32)
        threads = [threading.Thread(target=target, args=(block,)) for target in (first, second)]
        for thread in threads:
            thread.start()
            if sys.argv[1] == "in order":
                thread.join()
        for thread in threads:
            thread.join()
        block.unlink()
"""
LOOKS = (
    "bytes(block.buf)", "block.buf[3]", "block.buf[-29]", "list(block.buf[2:4])", "block.buf.tobytes()", "block.buf == b''",
    "view = block.buf; view[3]; del view", "struct.unpack_from('i', block.buf)", "tuple(block.buf[3:])", "block.buf.toreadonly()[3]",
    "block.buf[0:8].cast('i')[0]", "max(block.buf[3:5])", "pack('b', block.buf, 3, 1)", "block.buf[::3].tolist()", "block.buf[1:][2]",
    "getattr(block, 'buf')[3]",
)
"""What touches the byte 3."""
OTHER_LOOKS = (
    "bytes(block.buf[4:])", "block.buf[2]", "len(block.buf)", "struct.unpack_from('i', block.buf, 4)", "block.buf[::2].tobytes()",
    "block.buf.nbytes", "block.buf.cast('i')[1]", "pack('b', block.buf, 4, 1)", "block.buf[3:3] = b''", "bytes(block.buf[3:4][1:])",
)
ODD = (
    "library(block.buf)", "kept.view = block.buf; del kept.view", "zlib.crc32(block.buf)", "[one for one in block.buf]", "3 in block.buf",
    "view = block.buf; library(view); del view", "view = block.buf[1:3]; library(view); del view", "random.shuffle(block.buf[:2])",
    "any(block.buf)", "array.array('b').frombytes(block.buf)", "first, *rest = block.buf", "struct.Struct('b').pack_into(block.buf, 3, 1)",
    "memoryview(block.buf)[3]", "place = slice(3, 4); library(block.buf[place])", "print(bytes(block.buf.cast('b', (4, 8))))",
    "(lambda: library(block.buf))()", "open('/dev/null', 'wb').write(block.buf)",
)
"""What touches the byte, or may, and is not seen."""
NAMES = """
import multiprocessing
from multiprocessing.shared_memory import SharedMemory
def open_it(name):
    SharedMemory(name).close()
if __name__ == "__main__":
    block = SharedMemory(create=True, size=1)
    child = multiprocessing.Process(target=open_it, args=(block.name,))
    child.start()
    BEFORE
    block.unlink()
    child.join()
"""
CLOSED = """
import threading
from multiprocessing.shared_memory import SharedMemory
def look():
    try:
        block.buf[0]
    except TypeError:
        pass
if __name__ == "__main__":
    block = SharedMemory(create=True, size=1)
    other = SharedMemory(block.name)
    thread = threading.Thread(target=look)
    thread.start()
    BEFORE
    CLOSE
    thread.join()
    block.unlink()
"""
IN_A_BLOCK = """
import threading, itc_trace
from multiprocessing.shared_memory import SharedMemory
before = SharedMemory(create=True, size=4)
def early():
    before.buf[0] = 1
def late():
    after.buf[0] = 1
with itc_trace.tracing() as traced:
    after = SharedMemory(create=True, size=4)
    for target in (early, late):
        threads = [threading.Thread(target=target) for _ in range(2)]
        for thread in threads:
            thread.start()
        for thread in threads:
            thread.join()
for one in traced.races():
    print(one.thing)
for told in traced.races().passed_over:
    print(*told)
before.unlink()
after.unlink()
"""
FOREIGN = """
import multiprocessing, subprocess, sys
from multiprocessing.shared_memory import SharedMemory
MAKE = "from multiprocessing import shared_memory, resource_tracker as r; s = shared_memory.SharedMemory(create=True, size=1); r.unregister(s._name, 'shared_memory'); print(s.name)"
def work(name):
    block = SharedMemory(name)
    block.buf[0] = 1
if __name__ == "__main__":
    made = subprocess.run([sys.executable, "-c", MAKE], capture_output=True, text=True, check=True).stdout.strip()
    block = SharedMemory(made)
    child = multiprocessing.Process(target=work, args=(made,))
    child.start()
    block.buf[0] = 2
    child.join()
    block.unlink()
"""
OF_LIST = """
import multiprocessing
from multiprocessing.shared_memory import ShareableList, SharedMemory
def work(name):
    block = SharedMemory(name)
    block.buf[0] = 1
if __name__ == "__main__":
    rows = ShareableList([1])
    child = multiprocessing.Process(target=work, args=(rows.shm.name,))
    child.start()
    rows[0] = 2
    child.join()
    rows.shm.unlink()
"""


class Ranges(unittest.TestCase):
    def test_two_touches_conflict_if_they_have_a_byte_in_common_and_one_is_a_change(self) -> None:
        chance, size = random.Random(1), 75
        for _ in range(4000):
            spans = [sorted(chance.sample(range(size + 1), 2)) for _ in range(2)]
            changes = [chance.random() < 0.5 for _ in range(2)]
            one, other = [
                byte_ranges.touches(*span, size, is_change) for span, is_change in zip(spans, changes, strict=True)
            ]
            meets = any(a.element == b.element and b.kind in CONFLICTING[a.kind] for a in one for b in other)
            has_common = spans[0][0] < spans[1][1] and spans[1][0] < spans[0][1]
            self.assertEqual(meets, has_common and any(changes), (spans, changes))

    def test_an_aligned_number_is_one_thing(self) -> None:
        one, other = [
            {two.element for two in byte_ranges.touches(first, first + 4, 4096, True) if two.kind == "rewrite"}
            for first in (8, 9)
        ]
        self.assertEqual((one, other), ({"[8:12]"}, {"[10:12]"}))
        self.assertEqual(byte_ranges.touches(3, 3, 4096, True), ())


@unittest.skipUnless(hasattr(os, "fork"), "there is no fork here")
class Blocks(ProgramCase):
    def test_a_byte_is_a_thing(self) -> None:
        for method in METHODS:
            for form in FORMS:
                with self.subTest(method=method, form=form):
                    program = self.program(BYTES)
                    ran, plain = run_traced(program, method, ITC_TRACE_PURE=form), run_python(program, method)
                    self.assertEqual((ran.returncode, ran.stdout), (Verdict.RACES, plain.stdout), ran.stderr)
                    found: dict[str, set[str]] = {}
                    for name, kinds in re.findall(r"race on SharedMemory(\S+), made at program\.py:\d+\n((?: +\w+ +at .*\n)+)", ran.stderr):
                        found.setdefault(name, set()).update(re.findall(r"^ +(\w+) +at", kinds, re.MULTILINE))
                    self.assertEqual(found, RACING, ran.stderr)
                    self.assertNotIn("incomplete", ran.stderr)
                    self.assertNotIn("not looked into", ran.stderr)

    def threads(self, first: str, seconds: tuple[str, ...]) -> str:
        """A program in which a thread does the first to a block of its own, and another one each of the others."""
        names = [f"second_{number}" for number in range(len(seconds))]
        functions = "\n".join(f"def {name}(block):\n    {second}" for name, second in zip(names, seconds, strict=True))
        return self.program(THREADS.replace("FIRST", first).replace("SECONDS", functions).replace("NAMES", ", ".join(names)))

    def test_what_looks_at_a_byte_races_with_its_write_and_comes_after_it_behind_a_join(self) -> None:
        program = self.threads("block.buf[3] = 1", (*LOOKS, *OTHER_LOOKS))
        for form in FORMS:
            with self.subTest(form=form):
                ran = run_traced(program, "beside", ITC_TRACE_PURE=form)
                self.assertEqual(ran.returncode, Verdict.RACES, ran.stderr)
                numbers = {number or "1" for number in re.findall(r"race on SharedMemory\S+, made at program\.py:\d+(?:, number (\d+))?\n", ran.stderr)}
                self.assertEqual(numbers, {str(number) for number in range(1, len(LOOKS) + 1)}, ran.stderr)
                self.assertNotRegex(ran.stderr, "not looked into|Traceback")
                ran = run_traced(program, "in order", ITC_TRACE_PURE=form)
                self.assertEqual(ran.returncode, Verdict.NO_RACE, ran.stderr)
                self.assertNotRegex(ran.stderr, "not looked into|Traceback")

    def test_a_view_that_goes_where_no_hook_is_earns_a_star(self) -> None:
        program = self.threads("block.buf[31]", ODD)
        for form in FORMS:
            with self.subTest(form=form):
                report = f"{program}.json"
                ran = run_traced("--json", report, program, "beside", ITC_TRACE_PURE=form)
                self.assertEqual(ran.returncode, Verdict.NO_RACE, ran.stderr)
                self.assertNotIn("Traceback", ran.stderr)
                with open(report, encoding="utf-8") as file:
                    told = {one["place"] for one in json.load(file)["passed_over"] if "SharedMemory" in one["what"]}
                with open(program, encoding="utf-8") as file:
                    lines = [number for number, line in enumerate(file, 1) if line.strip() in ODD]
                self.assertLessEqual({f"program.py:{line}" for line in lines}, told)
                self.assertNotIn("program.py:11", told)

    def test_the_name_is_a_thing_that_is_unlinked(self) -> None:
        ran = run_traced(self.program(NAMES.replace("BEFORE", "child.join()")))
        self.assertEqual(ran.returncode, Verdict.NO_RACE, ran.stderr)
        ran = run_traced(self.program(NAMES.replace("BEFORE", "__import__('time').sleep(0.5)")))
        self.assertEqual(ran.returncode, Verdict.RACES, ran.stderr)
        self.assertRegex(ran.stderr, r"race on the name of SharedMemory, made at program\.py:7\n +(read|write) +at .*\n +(read|write) +at ")

    def test_whoever_closes_a_block_races_with_whoever_looks_into_it(self) -> None:
        for before, close, verdict in (
            ("thread.join()", "block.close()", Verdict.NO_RACE), ("pass", "block.close()", Verdict.RACES), ("pass", "other.close()", Verdict.NO_RACE),
        ):
            with self.subTest(before=before, close=close):
                ran = run_traced(self.program(CLOSED.replace("BEFORE", before).replace("CLOSE", close)))
                self.assertEqual(ran.returncode, verdict, ran.stderr)
                if verdict is Verdict.RACES:
                    self.assertIn("race on SharedMemory.buf, opened at ", ran.stderr)

    def test_memory_that_was_made_before_a_block_of_tracing_has_a_star(self) -> None:
        ran = run_python(self.program(IN_A_BLOCK))
        self.assertIn("SharedMemory[0], made at program.py:10\n", ran.stdout, ran.stderr)
        self.assertIn("a view of SharedMemory as it is handed on program.py:6\n", ran.stdout)
        self.assertNotIn("program.py:8", ran.stdout)

    def test_memory_that_nobody_traced_has_made_is_no_all_clear(self) -> None:
        ran = run_traced(self.program(FOREIGN))
        self.assertEqual(ran.returncode, Verdict.INCOMPLETE, ran.stderr)
        self.assertRegex(ran.stderr, r"not all seen: SharedMemory that nobody traced has made was used at .*program\.py:10\b")

    def test_the_memory_of_a_list_by_its_name_is_no_all_clear(self) -> None:
        ran = run_traced(self.program(OF_LIST))
        self.assertEqual(ran.returncode, Verdict.INCOMPLETE, ran.stderr)
        self.assertIn("not all seen: the memory of a ShareableList was used at", ran.stderr)


if __name__ == "__main__":
    unittest.main()
