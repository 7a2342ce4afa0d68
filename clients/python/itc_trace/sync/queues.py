"""Traces `queue`: an item is a message from who puts it to who gets it, and room one from who gets to who puts."""

from __future__ import annotations

import _thread
import math
import queue
import threading
import weakref
from collections import Counter, deque
from collections.abc import Callable, Iterable
from types import FrameType, FunctionType
from typing import Any

from ..model.answers import Behind
from ..model.lines import DONE_ITEM, QUEUE, ROOM, Token, What, state
from ..model.lock_identity import Poll
from ..record.nesting import Items as ItemsUnderLocks
from ..record.noting import mark, take, take_asked
from ..model.frames import INTERNAL_NAMES, frame_at, is_internal
from .base import Patches, name_as
from .locks import TracedLock, are_quiet, gave, took, traced_lock

_guard = vars(_thread)["RLock"]()
_own_steps: set[Any] = set()
"""The methods by which the queues of the library put and get."""
_PlainSimpleQueue: Any = queue.SimpleQueue
_stacks: tuple[type, ...] = (queue.LifoQueue,)
"""The classes whose items come back the last one first."""
MOST_PLACES = 16
"""Who puts into a queue of more places comes after nobody: such a queue bounds memory,
and to tell it would take an event an item."""


_CONDITIONS = frozenset({"not_empty", "not_full", "all_tasks_done"})
_LOOK = Poll("mutex", Behind())
"""Whoever acquires the lock of a queue may look at what lies there, or do something else."""
_OF_CONDITIONS = frozenset({"threading", "itc_trace.sync.threads"})
"""The modules whose code acquires the lock of a condition for whoever calls."""
_INSIDE = ("_init", "_put", "_get", "_qsize")
"""Methods that a queue calls while it holds its own lock."""


def put(patches: Patches) -> None:
    patches.wrap(queue.Queue, "__init__", _begin)
    patches.wrap(queue.Queue, "put", _put)
    patches.wrap(queue.Queue, "get", _get)
    for kind in (queue.Queue, queue.LifoQueue, queue.PriorityQueue):
        patches.wrap(kind, "_put", _put_inside)
        patches.wrap(kind, "_get", _get_inside)
        _own_steps.update((vars(kind)["_put"], vars(kind)["_get"]))
    patches.wrap(queue.Queue, "task_done", _task_done)
    patches.wrap(queue.Queue, "join", _join)
    if hasattr(queue.Queue, "shutdown"):
        patches.wrap(queue.Queue, "shutdown", _shutdown)
    patches.replace(queue, "SimpleQueue", TracedSimpleQueue)
    for name in ("_itc_items", "_itc_room", "_itc_waits"):
        patches.put(queue.Queue, name, None)


def _begin(original: Any) -> Any:
    def __init__(self: Any, maxsize: int = 0) -> None:
        original(self, maxsize)
        frame = frame_at(1)
        if not is_internal(frame):
            self._itc_waits = ItemsUnderLocks(frame)
        if not is_plain(self):
            _trace_lock(self, traced_lock(frame))
        elif not is_internal(frame):
            _trace_lock(self, mutex_of(self, frame))

    return __init__


def is_plain(one: Any) -> bool:
    """Whether no code of the program runs while the queue holds its lock."""
    kind = type(one)
    are_own = all(getattr(getattr(kind, name), "__module__", "") == "queue" for name in _INSIDE)
    return are_own and not _waits_by_itself(kind)


def _waits_by_itself(kind: type) -> bool:
    """Whether a method of the program's own class may wait at the conditions of the queue, or notify those who wait."""
    own = [function for one in kind.__mro__ if one.__module__ != "queue" for function in vars(one).values()]
    return any(
        not _CONDITIONS.isdisjoint(function.__code__.co_names) for function in own if type(function) is FunctionType
    )


class _Mutex(TracedLock):
    """The lock of a queue, as the program has it, also by the queue's conditions.

    What the library does while it holds the lock gives no order by that. If the program acquires it, it comes after who
    has put what lies there: by luck, but for what it looks at. What the program itself puts there or takes out is known
    as it releases the lock.
    """

    __slots__ = ("_itc_queue", "_itc_unfinished")

    _itc_queue: Any
    _itc_unfinished: int

    def acquire(self, blocking: bool = True, timeout: float = -1) -> bool:
        if not self._lock.acquire(blocking, timeout):
            return False
        if state.note is not None and _is_by_program(frame_at(1)):
            self._is_taken(blocking and timeout < 0)
        return True

    def __enter__(self) -> bool:
        self._lock.acquire()
        if state.note is not None and _is_by_program(frame_at(1)):
            self._is_taken(True)
        return True

    def release(self) -> None:
        if state.note is not None and _is_by_program(frame_at(1)):
            self._is_given()
        self._lock.release()

    def __exit__(self, *_: object) -> None:
        if state.note is not None and _is_by_program(frame_at(1)):
            self._is_given()
        self._lock.release()

    def _is_taken(self, has_waited: bool) -> None:
        took(self, has_waited)
        one = self._itc_queue()
        if one is not None:
            self._itc_unfinished = one.unfinished_tasks
            for token in items_of(one).last():
                take_asked(token, _LOOK, 3)

    def _is_given(self) -> None:
        one = self._itc_queue()
        if one is not None and self._lock.locked():
            items_of(one).become(_lying_in(one), lambda: mark(QUEUE, 4))
            if one.unfinished_tasks != self._itc_unfinished:
                note_done(one)
        gave(self)


name_as(_Mutex, "lock", "_thread")
are_quiet(_Mutex)


def mutex_of(one: Any, frame: FrameType | None) -> Any:
    """What stands before the lock of the queue."""
    made = traced_lock(frame, _Mutex, one.mutex)
    made._itc_queue, made._itc_unfinished = weakref.ref(one), 0
    made._itc_identity.is_inside = True
    return made


def _is_by_program(frame: FrameType | None) -> bool:
    """Whether the program acquires or releases the lock, by itself or by a condition of the queue."""
    while frame is not None and frame.f_globals.get("__name__") in _OF_CONDITIONS:
        frame = frame.f_back
    return not is_internal(frame)


def _trace_lock(one: Any, lock: Any) -> None:
    """Gives the queue a traced lock."""
    one.mutex = lock
    for name in _CONDITIONS:
        setattr(one, name, threading.Condition(lock))


class Items:
    """The tokens of what lies in a queue, by the identity of the items.

    A thing that lies there several times has several.
    """

    __slots__ = ("_tokens", "_is_stack")

    def __init__(self, is_stack: bool, there: Iterable[object]) -> None:
        """What lies there already was put while nothing was traced."""
        self._tokens: dict[int, Token | deque[Token | None] | None] = {}
        self._is_stack = is_stack
        for item in there:
            self.add(item, None)

    def add(self, item: object, token: Token | None) -> None:
        number = id(item)
        with _guard:
            tokens = self._tokens
            if number not in tokens:
                tokens[number] = token
                return
            known = tokens[number]
            if isinstance(known, deque):
                known.append(token)
            else:
                tokens[number] = deque((known, token))

    def remove(self, item: object, from_end: bool = False) -> Token | None:
        """The token of an item that has been taken out. If one thing lies there twice, the queue's order decides."""
        number = id(item)
        with _guard:
            tokens = self._tokens.get(number)
            if not isinstance(tokens, deque):
                self._tokens.pop(number, None)
                return tokens
            token = tokens.pop() if self._is_stack or from_end else tokens.popleft()
            if not tokens:
                del self._tokens[number]
            return token

    def last(self) -> list[Token | None]:
        """The places after which all items were put that lie there. Of each task the last one will do."""
        with _guard:
            several = [tokens[-1] for tokens in self._tokens.values() if isinstance(tokens, deque)]
            single = {token.line: token for token in self._tokens.values() if isinstance(token, Token)}
        return [*single.values(), *several]

    def become(self, lying: list[object], marked: Callable[[], Token | None]) -> None:
        """The program has put items there or taken some out by itself: what lies there now is this."""
        counts = Counter(map(id, lying))
        with _guard:
            known = {
                number: list(tokens) if isinstance(tokens, deque) else [tokens]
                for number, tokens in self._tokens.items()
            }
            token = marked() if any(count > len(known.get(number, ())) for number, count in counts.items()) else None
            self._tokens = {
                number: _one_or_several(_resized(known.get(number, []), count, token, self._is_stack))
                for number, count in counts.items()
            }


def _resized(tokens: list[Token | None], count: int, token: Token | None, is_stack: bool) -> list[Token | None]:
    """So many tokens: those of items that are gone are left out, and new items have this one."""
    if count <= len(tokens):
        return tokens[:count] if is_stack else tokens[len(tokens) - count:]
    return [*tokens, *[token] * (count - len(tokens))]


def _one_or_several(tokens: list[Token | None]) -> Token | deque[Token | None] | None:
    return tokens[0] if len(tokens) == 1 else deque(tokens)


def add_stack(kind: type) -> None:
    """The class is of queues whose items come back the last one first."""
    global _stacks
    _stacks = (*_stacks, kind)


def items_of(one: Any) -> Items:
    items: Items | None = one._itc_items
    if items is None:
        items = one._itc_items = Items(isinstance(one, _stacks), _lying_in(one))
    return items


def _lying_in(one: Any) -> list[object]:
    """What lies in a queue that keeps it as the library does. Whoever asks has the queue."""
    kept = one.__dict__.get("queue", one.__dict__.get("_queue"))
    return list(kept) if type(kept) in (deque, list) else []


def is_followed(one: Any) -> bool:
    """Whether what goes through the queue is noted, or was: what comes and goes meanwhile is no item of then."""
    return state.note is not None or one._itc_items is not None or one._itc_room is not None


class Room:
    """The places of a bounded queue: who puts takes the place that was free first, and comes after who made it free."""

    def __init__(self, places: int) -> None:
        self._free: deque[Token | None] = deque([None] * places)

    def make(self) -> None:
        self._free.append(mark(ROOM))

    def use(self) -> None:
        if self._free:
            take(self._free.popleft())


def has_few_places(one: Any) -> bool:
    return bool(0 < one.maxsize <= MOST_PLACES)


def room_of(one: Any, size: int) -> Room:
    """The room of a bounded queue in which so many items lie."""
    room: Room | None = one._itc_room
    if room is None:
        room = one._itc_room = Room(max(0, math.ceil(one.maxsize) - size))
    return room


def _put_item(one: Any, item: Any, put: Any) -> None:
    """The library puts the item, while nobody else has the queue.

    Else two threads that put one thing might be taken for each other.
    """
    if 0 < one.maxsize <= MOST_PLACES:
        room_of(one, one._qsize()).use()
    waits = one._itc_waits
    if waits is not None and state.note is not None:
        waits.put(frame_at(2))
    items = items_of(one)
    items.add(item, mark(QUEUE, 3))
    try:
        put(one, item)
    except BaseException:
        items.remove(item, from_end=True)
        raise


def _got_item(one: Any, item: Any) -> None:
    """The library has taken the item out, and nobody else has the queue yet."""
    room = room_of(one, one._qsize() + 1) if 0 < one.maxsize <= MOST_PLACES else None
    items = one._itc_items
    token = None if items is None else items.remove(item)
    if token is not None:
        take(token, 3)
    if room is not None:
        room.make()


def _nothing_by_c(*_: Any) -> Any:
    """Without the helper in C all is noted in Python."""
    return None


_note_put: Callable[[Any, Any], bool | None] = _nothing_by_c
_note_got: Callable[[Any, Any], bool | Token | None] = _nothing_by_c
"""They note what most items come to, and give whether that is done. Of one that was taken out they may give the token
that is still to be taken."""
_again: Callable[[What], Token | None] = _nothing_by_c
"""The token of the same place, if the task has done nothing since."""
_is_taken: Callable[[Token], bool | None] = _nothing_by_c
"""Whether the current task comes after the token already."""


def be_quick(quick: Any) -> None:
    """From here on most items are noted in C."""
    global _note_put, _note_got, _again, _is_taken
    methods = quick.know_queues(
        items=Items, what=QUEUE, own_steps=_own_steps, internal=INTERNAL_NAMES, most_places=MOST_PLACES, mutex=_Mutex,
        of_conditions=_OF_CONDITIONS,
    )
    for name, method in methods.items():
        setattr(_Mutex, name, method)
    _note_put, _note_got, _again, _is_taken = quick.note_put, quick.note_got, quick.again, quick.is_taken


def _put_inside(original: Any) -> Any:
    def _put(self: Any, item: Any) -> None:
        if _note_put(self, item):
            try:
                original(self, item)
            except BaseException:
                self._itc_items.remove(item, from_end=True)
                raise
        elif type(self)._put not in _own_steps or not is_followed(self):
            original(self, item)
        else:
            _put_item(self, item, original)

    return _put


def _get_inside(original: Any) -> Any:
    def _get(self: Any) -> Any:
        item = original(self)
        noted = _note_got(self, item)
        if noted is True:
            return item
        if noted:
            take(noted)
        elif type(self)._get in _own_steps and is_followed(self):
            _got_item(self, item)
        return item

    return _get


class _Seen:
    """Stands for a queue that puts or gets by code of the program, while the library calls that."""

    __slots__ = ("_itc_queue",)

    def __init__(self, one: Any) -> None:
        object.__setattr__(self, "_itc_queue", one)

    def __getattr__(self, name: str) -> Any:
        return getattr(self._itc_queue, name)

    def __setattr__(self, name: str, value: Any) -> None:
        setattr(self._itc_queue, name, value)

    def _put(self, item: Any) -> None:
        _put_item(self._itc_queue, item, _put_by_program)

    def _get(self) -> Any:
        item = self._itc_queue._get()
        _got_item(self._itc_queue, item)
        return item


def _put_by_program(one: Any, item: Any) -> None:
    one._put(item)


def _put(original: Any) -> Any:
    def put(self: Any, item: Any, block: bool = True, timeout: float | None = None) -> Any:
        is_own = type(self)._put in _own_steps or not is_followed(self)
        return original(self if is_own else _Seen(self), item, block, timeout)

    return put


def _get(original: Any) -> Any:
    def get(self: Any, block: bool = True, timeout: float | None = None) -> Any:
        waits = self._itc_waits
        if waits is not None and waits.free_in != state.block and block and timeout is None and state.note is not None:
            waits.wait(frame_at(1))
        is_own = type(self)._get in _own_steps or not is_followed(self)
        return original(self if is_own else _Seen(self), block, timeout)

    return get


def _shutdown(original: Any) -> Any:
    """Whoever ends a queue ends all waits for its items."""

    def shutdown(self: Any, immediate: bool = False) -> Any:
        if self._itc_waits is not None:
            self._itc_waits.become_free()
        return original(self, immediate)

    return shutdown


def note_done(one: Any) -> None:
    """Keeps for whoever joins the queue where each task has said last that an item is done."""
    token = mark(DONE_ITEM, 3)
    if token is not None:
        with _guard:
            one.__dict__.setdefault("_itc_done", {})[token.line] = token


def done_of(one: Any) -> list[Token]:
    """The places that whoever has waited for all items comes after."""
    with _guard:
        return list(one.__dict__.get("_itc_done", {}).values())


def take_done(one: Any) -> None:
    for token in done_of(one):
        take(token, 3)


def _task_done(original: Any) -> Any:
    def task_done(self: Any) -> Any:
        note_done(self)
        return original(self)

    return task_done


def _join(original: Any) -> Any:
    """What is done behind the moment in which all was done is none of what it has waited for."""

    def join(self: Any) -> Any:
        if state.note is None:
            return original(self)
        with self.all_tasks_done:
            while self.unfinished_tasks:
                self.all_tasks_done.wait()
            tokens = done_of(self)
        for token in tokens:
            take(token)
        return None

    return join


class _Box:
    """An item on its way through a queue, with its token."""

    __slots__ = ("item", "token")

    def __init__(self, item: Any, token: Token) -> None:
        self.item = item
        self.token = token


class TracedSimpleQueue(_PlainSimpleQueue):  # type: ignore[misc]
    """A simple queue that hands the place of each `put` on with the item."""

    _itc_waits: ItemsUnderLocks

    def __new__(cls) -> Any:
        frame = frame_at(1)
        if is_internal(frame):
            return _PlainSimpleQueue()
        made = _PlainSimpleQueue.__new__(cls)
        made._itc_waits = ItemsUnderLocks(frame)
        return made

    def _mark(self) -> Token | None:
        if state.note is None:
            return None
        if self._itc_waits.free_in != state.block:
            self._itc_waits.put(frame_at(2))
        return _again(QUEUE) or mark(QUEUE, 3)

    def put(self, item: Any, block: bool = True, timeout: float | None = None) -> None:
        token = self._mark()
        _PlainSimpleQueue.put(self, item if token is None else _Box(item, token), block, timeout)

    def get(self, block: bool = True, timeout: float | None = None) -> Any:
        if self._itc_waits.free_in != state.block and block and timeout is None and state.note is not None:
            self._itc_waits.wait(frame_at(1))
        return _opened(_PlainSimpleQueue.get(self, block, timeout))

    def put_nowait(self, item: Any) -> None:
        token = self._mark()
        _PlainSimpleQueue.put_nowait(self, item if token is None else _Box(item, token))

    def get_nowait(self) -> Any:
        return _opened(_PlainSimpleQueue.get_nowait(self))


def plain_simple_queue() -> Any:
    """A queue that gives no order."""
    return _PlainSimpleQueue()


name_as(TracedSimpleQueue, "SimpleQueue", "queue")


def _opened(item: Any) -> Any:
    if type(item) is _Box:
        if not _is_taken(item.token):
            take(item.token, 3)
        return item.item
    return item
