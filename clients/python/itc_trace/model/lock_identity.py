"""What is known of a lock: its kind, and the line of the program that made it."""

from __future__ import annotations

import dis
import itertools
from types import CodeType, FrameType

from .answers import Behind
from .file_names import name_of_file
from .frames import is_internal, line_of

_VARIABLES = ("NAME", "GLOBAL", "FAST", "DEREF")
_STORES = {f"STORE_{one}" for one in _VARIABLES}
_OF_VALUES = ("LOAD_", "PUSH_NULL", "COPY", "NOP", "PRECALL", "CALL", "KW_NAMES", "SWAP")
"""So begin instructions that leave a value alone which lies below their own."""
_BESIDE = ("BUILD_LIST", "BUILD_TUPLE", "BUILD_SET")
"""Those that take so many values as they say."""
_STORES_AT_ONCE = {"STORE_FAST_LOAD_FAST": 1, "STORE_FAST_STORE_FAST": 2}
"""Instructions that store so many values from the top, and may do more."""
_LOADS = {f"LOAD_{one}" for one in (*_VARIABLES, "ATTR")}

_numbers: dict[tuple[str, int, int], itertools.count[int]] = {}
_serials = itertools.count(1)

QUEUE = "Queue"
REQUEST, ANSWER, POLL = "the request at ", "an answer", "is_alive at "
"""So begin the names of orders that are told of as locks, and are none."""


class LockIdentity:
    """One lock. A task that holds it has it in `Line.held`, and the token of a release has it as what it stands for.

    A release is a signal if another task acquired the lock. From then on `signal` of the lock says so, and the lock
    keeps nobody out.

    The lock of a condition guards what the waiting ones look at. So to acquire it is an order as meant as a wake-up,
    where touches are compared. So it is with two locks that are crossed, as in a read-write lock that is built of
    them: one is released while the other one is still held, which was acquired after it.

    A lock that is held while its task waits for one that it started encloses what that one does, though that one does
    not hold it.
    """

    __slots__ = (
        "serial", "kind", "code", "instruction", "number", "signal", "is_of_condition", "is_inside", "encloses_tasks",
        "taken_by", "taken_at", "is_nested", "is_crossed", "outlived", "is_tried", "across", "times", "block", "_name",
        "_hint", "_giving", "_taking", "_found_as", "_found_in",
    )

    def __init__(self, kind: str, frame: FrameType | None) -> None:
        frame = _maker(frame)
        self.serial = next(_serials)
        self.kind = kind
        self.code: CodeType | None = None
        self.instruction = 0
        self.number = 1
        self.is_of_condition = False
        self.is_inside = False
        """Whether code of the library acquires it for the program, as that of a condition does."""
        self.taken_by: CodeType | None = None
        self.taken_at = 0
        """Where it was acquired last: the code, and the instruction in that."""
        self.begin(0)
        self.across = ""
        """What several processes know it by, if they share it."""
        self.times = 0
        """How often this process has acquired it, if processes share it."""
        self._name = self._hint = self._giving = self._taking = self._found_as = self._found_in = ""
        if frame is not None:
            code = self.code = frame.f_code
            self.instruction = frame.f_lasti
            key = (code.co_filename, code.co_firstlineno, self.instruction)
            self.number = next(_numbers.setdefault(key, itertools.count(1)))

    def begin(self, block: int) -> None:
        """In a block of tracing nothing is known of what was done with the lock in an earlier one."""
        self.block = block
        self.signal: Signal | None = None
        self.encloses_tasks = False
        self.is_nested = False
        """Whether it was acquired with another one held, or another one while it was held."""
        self.is_crossed = False
        """Whether it was released while one was held that was acquired later, or is such a later one."""
        self.outlived: tuple[LockIdentity, ...] = ()
        """The locks that its task has acquired before it, and released since."""
        self.is_tried = False
        """Whether somebody has acquired it without waiting for it, or not for ever."""

    def is_found(self, variable: str, file: str) -> None:
        """Nobody knows who made it, but where the program has it."""
        self._found_as, self._found_in = variable, file

    @property
    def lock(self) -> LockIdentity | None:
        """The lock, where nothing else is meant by its hand-over."""
        return None if self.encloses_tasks else self

    @property
    def is_luck(self) -> bool:
        """Whether only luck puts those in order who acquire it."""
        return not (self.is_of_condition or self.is_crossed)

    @property
    def place(self) -> str:
        """The file and line that made it."""
        if self.code is not None:
            return f"{name_of_file(self.code.co_filename)}:{self.line}"
        return self._found_in or "?"

    @property
    def line(self) -> int:
        return 0 if self.code is None else line_of(self.code, self.instruction)

    @property
    def variable(self) -> str:
        """The one that it was given to first. It may have none."""
        return self._found_as if self.code is None else variable_of_result(self.code, self.instruction) or ""

    @property
    def name(self) -> str:
        """As `lock L (shop.py:12)`, or `stock_lock (shop.py:12)`. A later one of the same line has its number."""
        if not self._name:
            variable = self.variable
            noun = "semaphore" if self.kind.endswith("Semaphore") else "queue" if self.is_queue else "lock"
            words = [] if variable and noun in variable.lower() else [noun]
            words += [variable] if variable else []
            words += [str(self.number)] if self.number > 1 else []
            self._name = f"{' '.join(words)} ({self.place})"
        return self._name

    @property
    def hint(self) -> str:
        """As `lock12`."""
        if not self._hint:
            self._hint = f"{'permit' if self.kind.endswith('Semaphore') else 'lock'}{self.line or ''}"
        return self._hint

    @property
    def is_queue(self) -> bool:
        """Whether it stands for the items of a queue, for which tasks wait with locks held."""
        return self.kind == QUEUE

    @property
    def giving(self) -> str:
        if not self._giving:
            self._giving = f"{'put into' if self.is_queue else 'release'} {self.name}"
        return self._giving

    @property
    def taking(self) -> str:
        if not self._taking:
            self._taking = f"{'wait for' if self.is_queue else 'acquire'} {self.name}"
        return self._taking

    def become_signal(self) -> Signal:
        if self.signal is None:
            self.signal = Signal(self)
        return self.signal


class Asking:
    """The requests that a process makes at one place of its program, and answers itself, or such answers, or polls.

    Whoever answers comes after who asked, and the other way round. But what they so know of other answers is luck: the
    program happened to ask one after another. So it is told of as a lock is, which tasks happen to acquire one after
    another.
    """

    __slots__ = ("serial", "name", "hint", "giving", "taking")

    def __init__(self, name: str, hint: str, giving: str, taking: str) -> None:
        self.serial = next(_serials)
        self.name = name
        self.hint = hint
        self.giving = giving
        self.taking = taking

    is_luck = True

    @property
    def lock(self) -> Asking:
        return self

    @staticmethod
    def request(place: str) -> Asking:
        return Asking(f"{REQUEST}{place}", "request", "ask", "answer")

    @staticmethod
    def answer() -> Asking:
        return Asking(ANSWER, "answer", "answer", "take answer")

    @staticmethod
    def poll(place: str) -> Asking:
        """Code of the library asks whether a thread is over, to forget it then."""
        return Asking(f"{POLL}{place}", "end", "end", "see the end")


class Poll:
    """A question of the program, at one place, whether something is over. A yes gives an order.

    What only a yes leads to is in this order in each run. What the task does else is so by luck.
    """

    __slots__ = ("name", "behind")

    def __init__(self, name: str, behind: Behind) -> None:
        self.name = name
        """As `is_set`."""
        self.behind = behind


LockOrAsking = LockIdentity | Asking
"""What may put tasks in order by luck alone."""


class Signal:
    """What the release of a lock stands for that another task acquired: an order of its own."""

    __slots__ = ("identity",)

    hint = "signal"
    lock = None

    def __init__(self, identity: LockIdentity) -> None:
        self.identity = identity

    @property
    def giving(self) -> str:
        return self.identity.giving

    @property
    def taking(self) -> str:
        return self.identity.taking


def _maker(frame: FrameType | None) -> FrameType | None:
    """The innermost frame of the program, and not of code that has no file, if there is one."""
    first = None
    while frame is not None:
        if not is_internal(frame):
            if not frame.f_code.co_filename.startswith("<"):
                return frame
            first = first or frame
        frame = frame.f_back
    return first


def variable_of_result(code: CodeType, instruction: int) -> str | None:
    """The name of the variable or attribute that is given the result of the instruction at once."""
    instructions = (one for one in dis.get_instructions(code) if one.opname not in ("CACHE", "COPY"))
    # A call may stand at the end of its caches.
    following = next((one for one in instructions if one.offset > instruction), None)
    if following is not None and following.opname in _STORES:
        return str(following.argval)
    while following is not None and following.opname in _LOADS:
        following = next(instructions, None)
        if following is not None and following.opname == "STORE_ATTR":
            return str(following.argval)
    return _variable_of_several(code, instruction)


def _variable_of_several(code: CodeType, instruction: int) -> str | None:
    """The same where one statement gives several variables their values, as in `one, other = Lock(), Lock()`."""
    above, size = 0, 0
    """So many values lie above the result, or so many are in a tuple with it."""
    for one in dis.get_instructions(code):
        if one.offset <= instruction or one.opname == "CACHE":
            continue
        arg = one.arg or 0
        if size:  # Nothing but the variables may take the tuple.
            if one.opname != "UNPACK_SEQUENCE" or arg != size:
                return None
            size = 0
        elif one.opname in _STORES and not above:
            return str(one.argval)
        elif above < _STORES_AT_ONCE.get(one.opname, 0):
            return str(one.argval[above])
        elif one.opname == "SWAP" and above in (0, arg - 1):
            above = arg - 1 - above
        elif one.opname == "BUILD_TUPLE" and above < arg:
            above, size = arg - 1 - above, arg
        elif one.opname.startswith((*_OF_VALUES, "STORE_")) or one.opname.startswith(_BESIDE) and arg <= above:
            above += dis.stack_effect(one.opcode, one.arg if one.opcode >= dis.HAVE_ARGUMENT else None)
        else:
            return None
        if above < 0:
            return None
    return None
