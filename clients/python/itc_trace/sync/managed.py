"""What the server of a manager keeps, as a process knows it that has a proxy of it.

The call of a proxy is a request and an answer. That the server answers one after another is luck, and no order. What
the library's own types do is known where it is asked for. So locks and their like give the order of their namesakes of
`multiprocessing`, and a table of the server is a thing that is touched at the line which calls its proxy.
"""

from __future__ import annotations

import _thread
import os
import threading
from _thread import get_ident
from collections.abc import Callable
from types import FrameType
from typing import Any, NamedTuple
from weakref import WeakValueDictionary

from ..model.digests import blake2b
from ..model.conflicts import KEYS, LENGTH
from ..model.frames import place_of
from ..model.lines import BARRIER, EVENT, NOTIFY, Line, Token, state
from ..model.lock_identity import LockIdentity, variable_of_result
from ..model.stretches import SharedThing
from ..record import following
from ..record.messages import Sending, incoming_at
from ..record.noting import line_of_now, mark, take, touch_at
from ..record.shared_names import LONGEST_NAME, OF_LOCK, SharedNames
from ..record.shared_names import OF_PROGRAM as PERMITS_OF_PROGRAM
from .locks import became_signal, gave, took
from .queues import MOST_PLACES
from .served_queue import BY, By
from .shared_locks import about_to_acquire, has_taken, is_giving
from .shared_permits import MOST_PARTIES, SharedMeetings, SharedPermits
from .values import user

Ask = Callable[[str, tuple[Any, ...], dict[str, Any]], Any]
"""Has a method called in the server, with these words, and gives what the server answers."""
Touches = Callable[["KeptData", Ask, str, tuple[Any, ...]], list[tuple[str, str]]]
"""Gives what a method touches, with these words: elements, or all of it if that is empty, and the kinds."""
Key = tuple[Any, str]
"""The address of a server, and its name for what it keeps."""

CONDITION = "Condition"
LOCKS = frozenset(("Lock", "RLock", CONDITION))
PERMITS = frozenset(("Semaphore", "BoundedSemaphore"))
DATA = frozenset(("dict", "list", "Namespace", "Value", "Array"))
QUEUE, EVENT_KIND, BARRIER_KIND = "Queue", "Event", "Barrier"
OF_PROGRAM = "program"
"""What code of the program serves: its process is traced."""
FOLLOWED = LOCKS | PERMITS | DATA | {QUEUE, EVENT_KIND, BARRIER_KIND, OF_PROGRAM}
DIGEST_BYTES = 8
OF_MANAGER = "of a Manager"


class Told(NamedTuple):
    """What processes tell each other of what a server keeps."""

    kind: str
    variable: str
    """The one that it was given to first. It may have none."""
    place: str
    """The line that made it, and which process did, if it was a child."""
    number: int
    """The how manieth of this variable and place it is."""
    size: int
    """The permits of a semaphore, the parties of a barrier, or the places of a queue."""

    def text(self) -> str:
        return "|".join(map(str, self))

    @staticmethod
    def read(text: str) -> Told | None:
        kind, *words = text.split("|")
        if kind not in FOLLOWED or len(words) != 4:
            return None
        return Told(kind, words[0], words[1], int(words[2]), int(words[3]))

    def name(self, element: str = "") -> str:
        """As `stock['left'], a dict of a Manager made at shop.py:7`. A later one of the same line has its number."""
        number = f", number {self.number}" if self.number > 1 else ""
        article = "an" if self.kind == "Array" else "a"
        if self.variable:
            return f"{self.variable}{element}, {article} {self.kind} {OF_MANAGER} made at {self.place}{number}"
        return f"{article} {self.kind} {OF_MANAGER} made at {self.place}{number}" + f", {element}" * bool(element)


# What is kept, by its kind


class Kept:
    """What a server keeps."""

    is_silent = True
    """Whether a request brings no message of its own."""

    def __init__(self, told: Told) -> None:
        self.told = told

    def call(self, ask: Ask, name: str, words: tuple[Any, ...], named: dict[str, Any]) -> Any:
        """A proxy of this process calls a method."""
        return ask(name, words, named)


class KeptLock(Kept):
    """A lock or a condition.

    Of one that its owner may acquire again only what happens outermost counts.
    """

    def __init__(self, told: Told, slot: int, of_wake_ups: int | None) -> None:
        super().__init__(told)
        self._slot = slot
        self._of_wake_ups = of_wake_ups
        """Where the message lies of whoever has notified last those that wait."""
        self._notified: Token | None = None
        self._is_recursive = told.kind != "Lock"
        self._owner = self._depth = 0
        self._itc_token: Token | None = None
        self._itc_holder: Line | None = None
        self._itc_identity = identity_of(told, slot)

    def call(self, ask: Ask, name: str, words: tuple[Any, ...], named: dict[str, Any]) -> Any:
        if name == "acquire":
            about_to_acquire(self._itc_identity)
            is_acquired = ask(name, words, named)
            if is_acquired:
                self._was_acquired(_has_waited(words))
            return is_acquired
        if name == "release":
            self._is_released()
        elif name == "wait":
            return self._wait(ask, words)
        elif name in ("notify", "notify_all"):
            self._notified = mark(NOTIFY)
            is_giving(self._of_wake_ups)
        return ask(name, words, named)

    def _was_acquired(self, has_waited: bool, depth: int = 1) -> None:
        self._depth = self._depth + depth if self._is_mine() else depth
        self._owner = get_ident()
        if self._depth == depth or not self._is_recursive:
            self._itc_identity.times += 1
            has_taken(self._slot, self._itc_identity)
            took(self, has_waited)

    def _is_mine(self) -> bool:
        return self._depth > 0 and self._owner == get_ident()

    def _is_released(self) -> None:
        if not self._is_recursive:
            self._let_go()
        elif self._is_mine():
            self._depth -= 1
            if self._depth == 0:
                self._let_go()

    def _let_go(self) -> None:
        self._depth = 0
        holder = self._itc_holder
        if holder is None or holder.tracer is not state.tracer:
            became_signal(self._itc_identity)  # It was acquired by another process.
        gave(self)
        is_giving(self._slot, self._itc_identity)

    def _wait(self, ask: Ask, words: tuple[Any, ...]) -> Any:
        """Whoever waits at a condition releases it meanwhile."""
        depth = self._depth if self._is_mine() else 0
        if depth:
            self._let_go()
        is_awake = False
        try:
            is_awake = ask("wait", words, {})
            return is_awake
        finally:
            if depth:
                self._was_acquired(True, depth)
            if is_awake and not has_taken(self._of_wake_ups):
                take(self._notified)


def identity_of(told: Told, slot: int) -> LockIdentity:
    """A lock is the same one to all processes, by its name too."""
    identity = LockIdentity(f"multiprocessing.{told.kind}", None)
    identity.is_found(told.variable, told.place)
    identity.number = told.number
    identity.across = f"across{slot}"
    identity.is_inside = True
    identity.is_of_condition = told.kind not in ("Lock", "RLock")
    return identity


def _has_waited(words: tuple[Any, ...]) -> bool:
    """Whether whoever acquires a lock by these words waits for it, as long as it takes."""
    return len(words) < 2 and (not words or bool(words[0]))


class KeptPermits(Kept):
    """A semaphore."""

    def __init__(self, told: Told, permits: SharedPermits) -> None:
        super().__init__(told)
        self._permits = permits

    def call(self, ask: Ask, name: str, words: tuple[Any, ...], named: dict[str, Any]) -> Any:
        if name == "release":
            self._permits.give(lambda: ask(name, words, named))
            return None
        told = ask(name, words, named)
        if name == "acquire" and told:
            self._permits.was_acquired(_has_waited(words))
        return told


class KeptEvent(Kept):
    """An event. A call that finds it set gives no order, so nobody sets or clears it while another one looks."""

    def __init__(self, told: Told, slot: int, names: SharedNames) -> None:
        super().__init__(told)
        self._slot = slot
        self._names = names
        self._token: Token | None = None

    def call(self, ask: Ask, name: str, words: tuple[Any, ...], named: dict[str, Any]) -> Any:
        if name in ("set", "clear"):
            with self._names.alone():
                if name == "set" and not ask("is_set", (), {}):
                    self._token = mark(EVENT)
                    is_giving(self._slot)
                return ask(name, words, named)
        told = ask(name, words, named)
        if name in ("wait", "is_set") and told and not has_taken(self._slot):
            take(self._token)
        return told


class KeptBarrier(Kept):
    """A barrier without an action. Whoever has waited at one that breaks does not know who else has."""

    def __init__(self, told: Told, meetings: SharedMeetings) -> None:
        super().__init__(told)
        self._meetings = meetings
        self._arrived: dict[int, Token | None] = {}
        """Where tasks of this process have arrived."""

    def call(self, ask: Ask, name: str, words: tuple[Any, ...], named: dict[str, Any]) -> Any:
        if name in ("abort", "reset"):
            following.is_not_followed("a Barrier that is broken")
        if name != "wait":
            return ask(name, words, named)
        token = mark(BARRIER)
        number = self._meetings.arrive()
        self._arrived[number] = token
        for one in [one for one in self._arrived if one < number - 2 * MOST_PARTIES]:
            del self._arrived[one]
        try:
            told = ask(name, words, named)
        except threading.BrokenBarrierError:
            following.is_not_followed("a Barrier that is broken")
            raise
        first = number - number % self.told.size
        for one in range(first, first + self.told.size):
            take(self._arrived.get(one))
        self._meetings.leave(number)
        return told


_PUTS, _GETS = frozenset(("put", "put_nowait")), frozenset(("get", "get_nowait"))


class KeptQueue(Kept):
    """A queue, which hands messages on beside its items."""

    def call(self, ask: Ask, name: str, words: tuple[Any, ...], named: dict[str, Any]) -> Any:
        if name not in _PUTS | _GETS | {"task_done", "join"}:
            return ask(name, words, named)
        told = ask(name, words, {**named, BY: self._by(name)})
        if name in _GETS:
            item, message = told
            _receive(message)
            return item
        for message in told if name == "join" else [told] if name in _PUTS else []:
            _receive(message)
        return None

    def _by(self, name: str) -> By:
        tracer = state.tracer
        task = f"{'' if tracer is None else tracer.prefix}{line_of_now().number}"
        makes_room = name in _GETS and 0 < self.told.size <= MOST_PLACES
        sending = Sending.begin(user()) if makes_room or name in _PUTS or name == "task_done" else None
        return By(task, "" if sending is None else sending.name() or "")


def _receive(message: str) -> None:
    if message:
        incoming_at(message, user())


class KeptData(Kept):
    """A table, a list or the like: a thing that is touched where a proxy is called."""

    def call(self, ask: Ask, name: str, words: tuple[Any, ...], named: dict[str, Any]) -> Any:
        for element, kind in _touches[0](self, ask, name, words):
            self.touch(element, kind)
        try:
            told = ask(name, words, named)
        except IndexError:
            self.touch("", LENGTH)  # Whoever comes to the end of a list has seen its length.
            raise
        if name == "__iter__":
            told.__dict__[KEPT] = KeptSteps(self)
        return told

    def touch(self, element: str, kind: str) -> None:
        touch_at(SharedThing(self.told.name(element)), kind, *place_of(user()))


class KeptSteps(Kept):
    """A loop through the keys of a table, which looks at them at each step."""

    def __init__(self, data: KeptData) -> None:
        super().__init__(data.told)
        self._data = data

    def call(self, ask: Ask, name: str, words: tuple[Any, ...], named: dict[str, Any]) -> Any:
        self._data.touch("", KEYS)
        return ask(name, words, named)


def _no_touches(_: KeptData, __: Ask, ___: str, ____: tuple[Any, ...]) -> list[tuple[str, str]]:
    return []


_touches: list[Touches] = [_no_touches]


def touch_with(touches: Touches) -> None:
    """From here on this says what the methods of tables, lists and the like touch."""
    _touches[0] = touches


class KeptByProgram(Kept):
    """What code of the program serves, in a process that is traced. Requests and answers are messages.

    A thread of the server serves a thread of this process. If several tasks of that one ask, the server seems to put
    them in order.
    """

    is_silent = False

    def call(self, ask: Ask, name: str, words: tuple[Any, ...], named: dict[str, Any]) -> Any:
        asking = os.getpid(), line_of_now().number
        if _own.__dict__.setdefault("asking", asking) != asking:
            if _own.asking[0] == asking[0]:
                following.is_not_followed(f"a proxy {OF_MANAGER}, by several tasks of a thread,")
            _own.asking = asking
        return ask(name, words, named)


_own = threading.local()


# What a process knows

KEPT = "_itc_kept"
"""The field of a proxy that has what it stands for."""
_known: WeakValueDictionary[Key, Kept] = WeakValueDictionary()
_numbers: dict[tuple[str, str, str], int] = {}
_making = vars(_thread)["RLock"]()
if hasattr(os, "register_at_fork"):
    os.register_at_fork(after_in_child=_making._at_fork_reinit)


def _digest(key: Key) -> str:
    return blake2b(repr(key).encode("utf-8", "replace"), digest_size=DIGEST_BYTES).hexdigest()


def keep(key: Key, kind: str, size: int, frame: FrameType | None) -> bool:
    """A server keeps something new that this process has asked for there. Says whether other processes are told."""
    names = following.shared_names()
    slot = None if names is None else names.slot_of(f"kept {_digest(key)}")
    if names is None or slot is None:
        return False
    with _making:
        told = _told(kind, size, frame)
    if not _begin(names, key, told):
        return False
    names.put(slot, told.text())
    return True


def _told(kind: str, size: int, frame: FrameType | None) -> Told:
    tracer = state.tracer
    maker = f" by {tracer.prefix.rstrip('_')}" if tracer is not None and tracer.prefix else ""
    variable = "" if frame is None else variable_of_result(frame.f_code, frame.f_lasti) or ""
    file = "?" if frame is None else os.path.basename(frame.f_code.co_filename)
    place = f"{_fitting(file) or '?'}:{0 if frame is None else frame.f_lineno}{maker}"
    key = kind, _fitting(variable), place
    number = _numbers[key] = _numbers.get(key, 0) + 1
    return Told(*key, number, size)


def _fitting(text: str) -> str:
    """A text that others can be told. One that is long or has letters of its own is left out."""
    return text if text.isascii() and "|" not in text and len(text) <= LONGEST_NAME // 4 else ""


def _begin(names: SharedNames, key: Key, told: Told) -> bool:
    """Has what orders processes begin anew. A server gives the name of what is gone to something else."""
    digest = _digest(key)
    if told.kind in LOCKS or told.kind == EVENT_KIND:
        slots = [names.slot_of(f"{what} {digest}") for what in ("given", "woke")[:1 + (told.kind == CONDITION)]]
        for slot in slots:
            if slot is not None:
                names.put(slot, "")
        return None not in slots
    if told.kind in PERMITS:
        of = OF_LOCK if told.size == 1 else PERMITS_OF_PROGRAM
        return names.begin_count(f"sem {digest}", told.size, of) is not None
    if told.kind == BARRIER_KIND:
        return names.begin_count(f"met {digest}", 0) is not None
    return True


def known(key: Key) -> Kept | None:
    """What a server keeps by this name. None if no process of the program is known to have asked for it."""
    names = following.shared_names()
    slot = None if names is None else names.slot_of(f"kept {_digest(key)}")
    if names is None or slot is None:
        return None
    told = Told.read(names.name_at(slot))
    with _making:
        one = _known.get(key)
        if told is None or one is not None and one.told == told:
            return one if told is not None else None
        made = _made(names, _digest(key), told)
        if made is not None:
            _known[key] = made
        return made


def _made(names: SharedNames, digest: str, told: Told) -> Kept | None:
    kind = told.kind
    if kind in LOCKS or kind == EVENT_KIND:
        slot = names.slot_of(f"given {digest}")
        if slot is None:
            return None
        if kind == EVENT_KIND:
            return KeptEvent(told, slot, names)
        return KeptLock(told, slot, names.slot_of(f"woke {digest}") if kind == CONDITION else None)
    if kind in PERMITS or kind == BARRIER_KIND:
        counted = names.find_count(f"{'met' if kind == BARRIER_KIND else 'sem'} {digest}")
        if counted is None:
            return None
        if kind == BARRIER_KIND:
            return KeptBarrier(told, SharedMeetings(counted, told.size))
        permits = SharedPermits(None, counted)
        if permits.one is not None:
            permits.one._itc_identity = identity_of(told, counted.slot)
        return KeptPermits(told, permits)
    if kind == QUEUE:
        return KeptQueue(told)
    return KeptByProgram(told) if kind == OF_PROGRAM else KeptData(told)
