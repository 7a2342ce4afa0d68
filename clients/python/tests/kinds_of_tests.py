
# The first statement is not on the first line.
"""Tests of many kinds, each of which has a race: in itself, in what is set up for it or in what ends it."""
import asyncio, contextlib, functools, threading, unittest
import pytest
pytestmark = pytest.mark.races
class Box: n = 0
def race(box):
    def add(): box.n += 1
    ts = [threading.Thread(target=add) for _ in range(2)]
    for t in ts: t.start()
    for t in ts: t.join()
def deco(f):
    @functools.wraps(f)
    def g(*a, **k): return f(*a, **k)
    return g
def test_function(): race(Box())
@pytest.mark.parametrize("n", [1, 2])
def test_parametrized(n): race(Box())
@deco
def test_decorated(): race(Box())
class TestClass:
    def setup_method(self, m): self.box = Box()
    def test_method(self): race(self.box)
    @staticmethod
    def test_static(): race(Box())
    @classmethod
    def test_of_class(cls): race(Box())
    class TestInner:
        def test_inner(self): race(Box())
class TestTeardown:
    def test_it(self): self.box = Box()
    def teardown_method(self): race(self.box)
@pytest.fixture
def racing(): race(Box()); return 1
@pytest.fixture
def racing_end(): yield 1; race(Box())
@pytest.fixture(autouse=False)
def of_other(racing): return racing
@pytest.fixture
def maker(request): request.addfinalizer(lambda: race(Box())); return 1
@pytest.fixture
def context():
    with contextlib.ExitStack() as stack: stack.callback(race, Box()); yield 1
def test_fixture(racing): pass
def test_fixture_end(racing_end): pass
def test_fixture_of_fixture(of_other): pass
def test_finalizer(maker): pass
def test_context(context): pass
@pytest.mark.usefixtures("racing")
def test_usefixtures(): pass
def test_by_name(request): request.getfixturevalue("racing")
@pytest.fixture(params=[1, 2])
def each(request): race(Box()); return request.param
def test_each(each): pass
class Case(unittest.TestCase):
    def setUp(self): self.box = Box()
    def test_case(self): race(self.box)
    def test_sub(self):
        for i in range(2):
            with self.subTest(i=i): race(Box())
    def test_cleanup(self): self.addCleanup(race, Box())
    def test_case_that_raises(self):
        with self.assertRaises(ValueError): race(Box()); raise ValueError
class Torn(unittest.TestCase):
    def tearDown(self): race(Box())
    def test_torn(self): pass
class Async(unittest.IsolatedAsyncioTestCase):
    async def asyncSetUp(self): self.box = Box()
    async def test_threads(self): await asyncio.gather(*(asyncio.to_thread(self.add) for _ in range(2)))
    def add(self): self.box.n += 1
    async def test_tasks(self):
        async def add():
            n = self.box.n; await asyncio.sleep(0); self.box.n = n + 1
        await asyncio.gather(add(), add())
def test_raises():
    with pytest.raises(ValueError): race(Box()); raise ValueError
def test_tmp(tmp_path, capsys, monkeypatch, caplog): monkeypatch.setattr(Box, "n", 0); race(Box())
def test_partial(): functools.partial(race, Box())()
def test_closure():
    n = 0
    def add():
        nonlocal n
        n += 1
    ts = [threading.Thread(target=add) for _ in range(2)]
    [t.start() for t in ts]; [t.join() for t in ts]
