"""Small programs that print what they do print the same traced as untraced, with both kinds of hooks."""

from __future__ import annotations

import re
import sys
import unittest
from pathlib import Path

from itc_trace.watch.helper import quick

from .same import FORMS, outcome
from .support import PACKAGE

EXPRESSIONS = """
f().update(bad())
f().append(bad())
f().append(good())
f().x += bad()
f().x += good()
f()[good()] += bad()
f()[good()] += good()
f()["a"] += bad()
f()[bad()]
f()[good()]
f()[bad()] = 3
f()[good()] = 3
f()[good()], f()[good()] = bad(), 2
f()[good()], f()[good()] = 1, good()
del f()[bad()]
del f()[good()]
(f() if good() else f())[bad()]
(f() if good() else f())[good()]
(f() or f())[bad()]
(lambda: f())()[bad()]
(kept := f())[bad()]
f().get(bad())
f().get(good(), 3)
f().get(good(), *[3])
f().get(good(), bad(), *[3], **{})
f().get(*[good()], d=bad())
f().append(*[], bad())
f().append(*[], good())
f().append((lambda: bad())())
f().append([bad() for _ in range(2)])
good() in f()
bad() not in f()
f() in [bad()]
f() in [f(), good()]
f() == bad()
f().__setattr__("y" + str(good()), bad())
f().__setattr__("y" + str(good()), good())
f().update(f().items)
f().update(bad(), *f().items)
f().update(*f().items, good(), **{"a": good()})
f().update(f().items, a=bad(), **{"b": f()})
f().update(1, 2, 3, 4, 5, 6, 7, 8, 9, 10, 11, 12, 13, 14, 15, 16, 17, 18, 19, 20, 21, 22, 23, 24, 25, 26, 27, 28, 29, 30, good())
f().items.append(f().update(bad()))
f().update(f().get(f().get(bad())))
[f()][good() - 3]
{3: f()}[good()]
{3: f()}.pop(good())
{3: f()}.get(bad())
{3: f()}.setdefault(good(), bad())
[*[f()], bad()]
[].append(f())
[f()].extend([bad()])
[[f()]].extend(x for x in [bad()])
list.__getitem__([f()], bad())
list.__getitem__([f()], good() - 3)
list.append([f()], bad())
"".join([str(good()), "x"]).join([str(good())] * 2)
"{}".format(f().get(bad()))
f"{f().get(bad())}"
assert f().get(bad())
print(f().get(good()), bad())
with f() as f().x, f()[good()]: bad()
for f()[good()] in [1, 2]: pass
for f().x in [bad()]: pass
[f()[good()] for f().x in [1]]
[0 for f()[good()] in [1]]
"""
"""Each is run with an object that tells when it goes, and so with what fails within."""

OBJECTS = """
class R:
    def __init__(self, **k):
        self.items, self.x = [], 1
    def __del__(self):
        print("closed")
    def append(self, one):
        self.items.append(one)
    def update(self, *words, **named):
        pass
    def get(self, k, d=None, *words):
        return 7
    def __getitem__(self, k):
        return k
    def __setitem__(self, k, v):
        pass
    def __delitem__(self, k):
        pass
    def __contains__(self, k):
        return True
    def __enter__(self):
        return self
    def __exit__(self, *words):
        print("left")
    def __iter__(self):
        return iter([1])
def bad():
    raise ValueError("bad")
def good():
    return 3
def f():
    return R()
"""


def of_expression(line: str) -> str:
    """The expression in a function, in a generator, in a coroutine, in a class, and in the module itself."""
    attempt = f"try:\n    {line}\nexcept ValueError as fault:\n    print('caught', fault)\nprint('after')\n"
    within = attempt.replace("\n", "\n    ")
    return OBJECTS + f"""
def plainly():
    {within}
plainly()
def generating():
    yield 1
    {within}
    yield 2
print(*generating())
import asyncio
async def waiting():
    await asyncio.sleep(0)
    {within}
asyncio.run(waiting())
class Within:
    {within}
print(sorted(name for name in vars(Within) if "itc" in name))
{attempt}
print(sorted(name for name in globals() if "itc" in name))
"""


def of_file(name: str) -> dict[str, str]:
    """The programs of a file, each behind a line with its name. Some are for the hooks in C alone."""
    parts = re.split(r"^== (.*)\n", Path(PACKAGE, "tests", "programs", name).read_text(), flags=re.MULTILINE)
    return dict(zip(parts[1::2], parts[2::2]))


def of_this_python(programs: dict[str, str]) -> dict[str, str]:
    """Without those that are of a later Python. Their names say so, as `from 3.12`."""
    found = {name: LATER.search(name) for name in programs}
    return {
        LATER.sub("", name): text for name, text in programs.items()
        if (later := found[name]) is None or sys.version_info >= (int(later[1]), int(later[2]))
    }


LATER = re.compile(r" from (\d+)\.(\d+)$")
IN_C = " in C"
FILES = [f"{name}.txt" for name in ("same", "forms", "kinds", "more", "further", "wider", "deeper")]
PROGRAMS = {
    **{f"expression{number}": of_expression(line) for number, line in enumerate(EXPRESSIONS.strip().splitlines())},
    **{name: text for file in FILES for name, text in of_this_python(of_file(file)).items()},
}


class SameOutput(unittest.TestCase):
    maxDiff = None

    def test_programs_print_the_same_traced_as_untraced(self) -> None:
        programs = {name.removesuffix(IN_C): text for name, text in PROGRAMS.items()}
        plain = outcome(programs, None)
        self.assertEqual((list(plain.written), plain.status), (list(programs), 0), plain.said)
        for form in FORMS if quick is not None else ["in Python"]:
            chosen = {name.removesuffix(IN_C): text for name, text in PROGRAMS.items() if not name.endswith(IN_C) or form == "in C"}
            traced = outcome(chosen, form)
            self.assertRegex(traced.said, r"itc_trace: no race in this run.*: [1-9]\d* places of [1-9]\d* things?")
            for name, text in chosen.items():
                with self.subTest(hooks=form, program=name):
                    self.assertEqual(traced.written.get(name), plain.written[name], text)
            self.assertNotIn(str(PACKAGE), "".join(traced.written.values()), "a frame of the package")

    def test_no_program_stands_in_for_another_one(self) -> None:
        names = [name for file in FILES for name in of_file(file)]
        self.assertEqual(sorted({name for name in names if names.count(name) > 1}), [])

    def test_futures_and_frames_go_at_once_with_nothing_watched(self) -> None:
        chosen = {"references_to_frames": PROGRAMS["references_to_frames"]}
        self.assertEqual(outcome(chosen, "in C", "--watch-nothing").written, outcome(chosen, None).written)


if __name__ == "__main__":
    unittest.main()
