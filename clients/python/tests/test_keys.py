"""Keys that are equal are one key to the package, those that are not are two, and one that only the program's code can compare is named.

Each row has a key, one that is equal to it, and one that is not. The expressions are evaluated anew each time.
"""

from __future__ import annotations

import textwrap
import unittest
from typing import Any

from itc_trace.watch.keys import UNKNOWN, value_of

SETUP = """
import array, ast, asyncio, collections, contextvars, dataclasses, datetime, decimal, enum, fractions, functools, http, ipaddress
import itertools, logging, operator, os, pathlib, queue, re, signal, socket, statistics, string, sys, threading, time, types, typing
import urllib.parse, uuid, weakref, zoneinfo, collections.abc
from dataclasses import dataclass, field
from datetime import timedelta, timezone
class State(enum.Enum): A = 1; B = 2
class Level(enum.IntEnum): LOW = 1; HIGH = 2
class Name(str, enum.Enum): A = "a"; B = "b"
class Mode(enum.Flag): R = 1; W = 2
class Shape(tuple, enum.Enum): A = (1, 2); B = (1, 3)
class Kind(enum.StrEnum): A = "a"; B = "b"
class Rights(enum.IntFlag): R = 1; W = 2
class Maker:
    @classmethod
    def make(cls): pass
class Below(Maker): pass
T, U = typing.TypeVar("T"), typing.TypeVar("U")
variable, variables = contextvars.ContextVar("a"), contextvars.ContextVar("a")
getter, getters, fault, faults = operator.itemgetter(0), operator.itemgetter(0), ValueError(1), ValueError(1)
class Plain: pass
class Meta(type): pass
class Made(metaclass=Meta): pass
class Text(str): pass
class Number(int): pass
class Part(float): pass
class Octets(bytes): pass
class Row(tuple): pass
class Names(frozenset): pass
class Day(datetime.date):
    def __repr__(self): raise ValueError
class Moment(datetime.datetime): pass
class Money(decimal.Decimal): pass
class Worker(threading.Thread): pass
Point = collections.namedtuple("Point", "x y")
class Typed(typing.NamedTuple):
    x: int
    y: str = "y"
@dataclass(frozen=True)
class Frozen:
    x: int
    y: object = None
@dataclass(frozen=True)
class Partly:
    x: int
    y: int = field(default=0, compare=False)
@dataclass(frozen=True, slots=True)
class Slots:
    x: int
    kind: typing.ClassVar[int] = 3
@dataclass(frozen=True)
class Given:
    x: int
    scale: dataclasses.InitVar[int] = 1
class Lower(Frozen): pass
@dataclass(eq=False)
class ByIdentity:
    x: int
@dataclass(unsafe_hash=True)
class Hashed:
    x: int
class Equal:
    def __eq__(self, other): return True
    def __hash__(self): return 1
class EqualText(str):
    def __eq__(self, other): return True
    def __hash__(self): return 1
class OwnHash(str):
    def __hash__(self): return 1
class EqualState(enum.Enum):
    A = 1
    def __eq__(self, other): return True
    def __hash__(self): return 1
class EqualDay(datetime.date):
    def __eq__(self, other): return True
    def __hash__(self): return 1
class Zone(datetime.tzinfo):
    def utcoffset(self, when): return timedelta(0)
    def dst(self, when): return None
    def tzname(self, when): return "z"
class EqualMeta(type):
    def __eq__(self, other): return True
    def __hash__(self): return 1
class OfMeta(metaclass=EqualMeta): pass
class Server:
    def __init__(self): self.items = []
    def handle(self): pass
    def close(self): pass
class EqualServer(Server):
    def __eq__(self, other): return True
    def __hash__(self): return 1
one, two, server, other, equal = Plain(), Plain(), Server(), Server(), EqualServer()
def work(): pass
def rest(): pass
lock, locks = threading.Lock(), threading.Lock()
thread, threads = Worker(), threading.Thread()
near, far = zoneinfo.ZoneInfo("UTC"), timezone(timedelta(hours=1))
part, parts = functools.partial(work), functools.partial(work)
letters, rows = (one for one in "ab"), iter([1])
"""
KNOWN = """
"a" | "a" | "b"
1 | True | 2
1 | 1.0 | 1.5
None | None | ...
b"a" | b"a" | "a"
(1, "a") | (1, "a") | ("a", 1)
State.A | State.A | State.B
State.A | State(1) | 1
(State.A, "x") | (State.A, "x") | (State.B, "x")
((State.A, 1), 2) | ((State.A, 1), 2) | ((State.A, 2), 2)
frozenset({State.A, 1}) | frozenset({1, State.A}) | frozenset({State.B, 1})
Level.LOW | 1 | Level.HIGH
(Level.LOW, 2) | (1, 2) | (2, 2)
Name.A | "a" | Name.B
(Name.A, 1) | ("a", 1) | ("b", 1)
Mode.R \\| Mode.W | Mode.W \\| Mode.R | Mode.R
Shape.A | (1, 2) | Shape.B
Plain | Plain | Made
Made | Made | Meta
(Plain, "x") | (Plain, "x") | (Made, "x")
work | work | rest
(work, 1) | (work, 1) | (rest, 1)
len | len | max
str.upper | str.upper | str.lower
one | one | two
(one, two) | (one, two) | (two, one)
server.handle | server.handle | server.close
server.handle | server.handle | other.handle
(server.handle, 1) | (server.handle, 1) | (other.handle, 1)
equal.handle | equal.handle | server.handle
server.items.append | server.items.append | other.items.append
sys | sys | enum
Text("a") | "a" | Text("b")
Number(3) | 3 | Number(4)
Part(0.5) | 0.5 | Part(1.5)
Octets(b"a") | b"a" | Octets(b"b")
Row((1, 2)) | (1, 2) | Row((2, 1))
Row((State.A, 2)) | (State.A, 2) | Row((State.B, 2))
Names("ab") | frozenset("ba") | Names("c")
Point(1, 2) | (1, 2) | Point(2, 1)
Point(State.A, 2) | Point(State.A, 2) | Point(State.B, 2)
Typed(1) | Typed(1, "y") | Typed(1, "z")
Frozen(1) | Frozen(1) | Frozen(2)
Frozen(1, State.A) | Frozen(1, State.A) | Frozen(1, State.B)
Frozen(1) | Frozen(1) | Lower(1)
Lower(1) | Lower(1) | Lower(2)
Partly(1, 2) | Partly(1, 3) | Partly(2, 2)
Slots(1) | Slots(1) | Slots(2)
Given(1, 2) | Given(1, 3) | Given(2, 2)
Hashed(1) | Hashed(1) | Hashed(2)
(Hashed(1), "x") | (Hashed(1), "x") | (Hashed(2), "x")
datetime.date(2026, 1, 2) | datetime.date(2026, 1, 2) | datetime.date(2026, 1, 3)
datetime.datetime(2026, 1, 2) | datetime.datetime(2026, 1, 2) | datetime.datetime(2026, 1, 3)
datetime.datetime(2026, 1, 2, 1, tzinfo=far) | datetime.datetime(2026, 1, 2, tzinfo=timezone.utc) | datetime.datetime(2026, 1, 2, tzinfo=far)
datetime.datetime(2026, 1, 2, tzinfo=near) | datetime.datetime(2026, 1, 2, tzinfo=timezone.utc) | datetime.datetime(2026, 1, 3, tzinfo=near)
timedelta(hours=1) | timedelta(minutes=60) | timedelta(hours=2)
near | zoneinfo.ZoneInfo("UTC") | far
Day(2026, 1, 2) | datetime.date(2026, 1, 2) | Day(2026, 1, 3)
Moment(2026, 1, 2) | datetime.datetime(2026, 1, 2) | Moment(2026, 1, 3)
decimal.Decimal("1") | 1 | decimal.Decimal("1.5")
Money("1") | decimal.Decimal(1) | Money(2)
fractions.Fraction(1, 2) | 0.5 | fractions.Fraction(1, 3)
uuid.UUID(int=1) | uuid.UUID(int=1) | uuid.UUID(int=2)
pathlib.PurePosixPath("a/b") | pathlib.PurePosixPath("a", "b") | pathlib.PurePosixPath("a")
ipaddress.ip_address("10.0.0.1") | ipaddress.ip_address("10.0.0.1") | ipaddress.ip_address("10.0.0.2")
range(3) | range(0, 3) | range(4)
1j | 1j | 2j
re.compile("a") | re.compile("a") | re.compile("b")
ByIdentity | ByIdentity | Hashed
part | part | parts
lock | lock | locks
thread | thread | threads
threading.main_thread() | threading.main_thread() | thread
logging.getLogger("a") | logging.getLogger("a") | logging.getLogger("b")
letters | letters | rows
http.HTTPStatus.OK | 200 | http.HTTPStatus.NOT_FOUND
signal.SIGTERM | 15 | signal.SIGINT
socket.AF_INET | int(socket.AF_INET) | socket.AF_INET6
Kind.A | "a" | Kind.B
Rights.R | 1 | Rights.W
Rights.R \\| Rights.W | 3 | 1
list[int] | list[int] | list[str]
dict[str, int] | dict[str, int] | dict[int, str]
(list[int], "x") | (list[int], "x") | (list[str], "x")
list[Plain] | list[Plain] | list[Made]
list[list[int]] | list[list[int]] | list[list[str]]
int \\| None | None \\| int | int \\| str
typing.Optional[int] | int \\| None | typing.Optional[str]
typing.Union[int, str] | typing.Union[str, int] | typing.Union[int, bytes]
typing.List[int] | typing.List[int] | typing.List[str]
typing.Dict[str, Plain] | typing.Dict[str, Plain] | typing.Dict[str, Made]
collections.abc.Callable[[int], str] | collections.abc.Callable[[int], str] | collections.abc.Callable[[str], str]
typing.Tuple[int, ...] | typing.Tuple[int, ...] | typing.Tuple[str, ...]
typing.Any | typing.Any | typing.NoReturn
T | T | U
list[T] | list[T] | list[U]
variable | variable | variables
getter | getter | getters
fault | fault | faults
ipaddress.ip_interface("10.0.0.1/24") | ipaddress.ip_interface("10.0.0.1/24") | ipaddress.ip_interface("10.0.0.2/24")
ipaddress.ip_network("10.0.0.0/24") | ipaddress.ip_network("10.0.0.0/24") | ipaddress.ip_network("10.0.1.0/24")
statistics.NormalDist(0, 1) | statistics.NormalDist(0.0, 1.0) | statistics.NormalDist(1, 1)
collections.UserString("a") | "a" | collections.UserString("b")
urllib.parse.urlsplit("a://b/c") | urllib.parse.urlsplit("a://b/c") | urllib.parse.urlsplit("a://b/d")
time.struct_time(range(9)) | tuple(range(9)) | time.struct_time(range(1, 10))
os.terminal_size((1, 2)) | (1, 2) | os.terminal_size((2, 1))
sys.version_info | tuple(sys.version_info) | (1,)
datetime.time(1, 2) | datetime.time(1, 2) | datetime.time(1, 3)
timezone.utc | timezone(timedelta(0)) | far
b"" | bytes() | b"a"
0.0 | -0.0 | 0.5
frozenset() | frozenset(()) | frozenset((1,))
frozenset({frozenset({1})}) | frozenset({frozenset({1})}) | frozenset({frozenset({2})})
((), ((),)) | ((), ((),)) | ((), ())
(1, (2.0, "a")) | (1.0, (2, "a")) | (1, (2, "b"))
Ellipsis | ... | NotImplemented
type | type | object
Server.handle | Server.handle | Server.close
Maker.make | Maker.make | Below.make
"".join | "".join | "a".join
one.__str__ | one.__str__ | two.__str__
pathlib.Path("a") | pathlib.PosixPath("a") | pathlib.Path("b")
re.compile("a", re.I) | re.compile("a", re.I) | re.compile("a")
fractions.Fraction(2, 1) | 2 | fractions.Fraction(1, 2)
"""
NOT_KNOWN = """
Equal()
(1, Equal())
frozenset({Equal()})
Frozen(1, Equal())
Point(Equal(), 1)
EqualText("a")
OwnHash("a")
EqualState.A
EqualDay(2026, 1, 2)
OfMeta
datetime.datetime(2026, 1, 2, tzinfo=Zone())
weakref.ref(one)
list[Equal()]
typing.Union[OfMeta, int]
"""


def evaluated(text: str, names: dict[str, Any]) -> Any:
    return eval(text.strip().replace("\\|", "|"), names)


class Keys(unittest.TestCase):
    def setUp(self) -> None:
        self.names: dict[str, Any] = {"__name__": __name__}
        exec(compile(textwrap.dedent(SETUP), "setup.py", "exec", dont_inherit=True), self.names)

    def test_equal_keys_are_one_key_and_others_are_not(self) -> None:
        rows = KNOWN.strip().splitlines()
        self.assertGreater(len(rows), 110)
        for row in rows:
            with self.subTest(row=row):
                one, same, other = (evaluated(text, self.names) for text in row.replace("\\|", "\0").replace(" | ", "\1").replace("\0", "|").split("\1"))
                self.assertTrue(one == same and hash(one) == hash(same) and one != other, "the row is wrong")
                values = [value_of(key) for key in (one, same, other)]
                self.assertNotIn(UNKNOWN, [value for value in values if value is UNKNOWN])
                self.assertEqual(values[0], values[1])
                self.assertEqual(hash(values[0]), hash(values[1]))
                self.assertNotEqual(values[0], values[2])

    def test_keys_that_only_the_program_can_compare_are_not_known(self) -> None:
        for row in NOT_KNOWN.strip().splitlines():
            with self.subTest(row=row):
                self.assertIs(value_of(evaluated(row, self.names)), UNKNOWN)


if __name__ == "__main__":
    unittest.main()
