"""Traces the managers of `multiprocessing`, and what they serve.

If a manager serves nothing but types of the library, its process is no task: all that it does is known where a proxy
asks for it. If it serves what code of the program makes, its process is a child that is traced. Then each request to
that is a message, and so is each answer.
"""

from __future__ import annotations

import queue
import threading
from array import array
from collections import deque
from collections.abc import Iterator
from types import ModuleType
from typing import Any

from . import managed, pipes
from ..model.lines import state
from ..record import following
from .base import Patches
from .later import once_imported
from .managed import BARRIER_KIND, FOLLOWED, KEPT, OF_MANAGER, OF_PROGRAM, PERMITS, QUEUE, KeptData
from .served_queue import made_queue
from .shared_permits import MOST_PARTIES

_families: dict[tuple[int, int], str] = {}
"""What the library's own managers serve, by what makes it and by its proxy."""
_ALIKE = {"JoinableQueue": QUEUE}
POOL, ITERATOR = "Pool", "Iterator"
_OF_LIBRARY = frozenset(("queue", "_queue", "threading", "_thread"))
"""Modules whose objects are traced where they are used."""
_CONTAINERS = (dict, list, set, deque, bytearray, array)
IS_SERVING = "_itc_is_serving"


def put(patches: Patches) -> None:
    once_imported("multiprocessing.managers", lambda module: _put_managers(patches, module))


def _put_managers(patches: Patches, module: ModuleType) -> None:
    names = vars(module)
    for kind, entry in names["SyncManager"]._registry.items():
        _families[_key_of(entry)] = _ALIKE.get(kind, kind)
    _families[id(made_queue), id(names["AutoProxy"])] = QUEUE
    patches.wrap(module, "dispatch", _dispatch)
    manager, proxy, server = names["BaseManager"], names["BaseProxy"], names["Server"]
    patches.wrap(manager, "start", _start)
    patches.wrap(manager, "_create", _create)
    for name in ("connect", "get_server"):
        patches.wrap(manager, name, _tells)
    if "SharedMemoryManager" in names:
        patches.wrap(names["SharedMemoryManager"], "get_server", _tells)
    patches.wrap(proxy, "__init__", _begin_proxy)
    patches.wrap(proxy, "_callmethod", _call)
    patches.wrap(server, "accepter", _accept)
    patches.wrap(server, "handle_request", _handle)
    patches.wrap(server, "create", _serve)


def _key_of(entry: Any) -> tuple[int, int]:
    return id(entry[0]), id(entry[3])


def _family_of(entry: Any) -> str | None:
    """The type of the library's own that a manager serves. None if code of the program makes it, or has its proxy."""
    return None if entry is None else _families.get(_key_of(entry))


def _dispatch(original: Any) -> Any:
    """What is asked of the server itself gives no order, but for what code of the program makes there."""

    def dispatch(*words: Any, **named: Any) -> Any:
        with pipes.silence(not getattr(_own, "is_asking_program", False)):
            return original(*words, **named)

    return dispatch


_own = threading.local()


# Managers


def _start(original: Any) -> Any:
    def start(self: Any, initializer: Any = None, initargs: Any = ()) -> None:
        registry = type(self)._registry
        if state.note is None or not following.is_there():
            original(self, initializer, initargs)
            return
        served = {name: (made_queue, *entry[1:]) if _is_queue(entry) else entry for name, entry in registry.items()}
        self.__dict__["_registry"], self.__dict__[IS_SERVING] = served, True
        if initializer is None and None not in map(_family_of, registry.values()):
            with following.starting_server():
                original(self, initializer, initargs)
        else:
            original(self, initializer, initargs)

    return start


def _is_queue(entry: Any) -> bool:
    return entry[0] is queue.Queue and _family_of(entry) == QUEUE


def _tells(original: Any) -> Any:
    """Who else asks a server, or what a server does in this process, is not followed."""

    def method(self: Any) -> Any:
        following.is_not_followed(f"{original.__name__} {OF_MANAGER}")
        return original(self)

    return method


def _create(original: Any) -> Any:
    def create(self: Any, typeid: str, /, *words: Any, **named: Any) -> Any:
        if state.note is None or not following.is_there():
            return original(self, typeid, *words, **named)
        kind = _family_of(type(self)._registry.get(typeid))
        _own.is_asking_program = kind is None
        try:
            token, exposed = original(self, typeid, *words, **named)
        finally:
            _own.is_asking_program = False
        _keep(self, (token.address, token.id), kind, words, named)
        return token, exposed

    return create


def _keep(manager: Any, key: managed.Key, kind: str | None, words: Any, named: Any) -> None:
    """Tells other processes of what the manager's server keeps now."""
    frame = following.frame_of_start(2)
    if kind == POOL:
        following.tell_of_unseen(f"a {POOL} {OF_MANAGER} was made at {following.place_of_start(2)}")
    elif not _is_followed(manager, kind, words, named) or not managed.keep(
        key, kind or OF_PROGRAM, _size_of(kind, words, named), frame
    ):
        following.is_not_followed(f"a {kind or 'proxy'} {OF_MANAGER}")


def _is_followed(manager: Any, kind: str | None, words: Any, named: Any) -> bool:
    if kind == "Condition":
        return not words and not named  # Else it has a lock that is kept by itself, too.
    if kind == BARRIER_KIND:
        has_action = len(words) > 1 and words[1] is not None or named.get("action") is not None
        return not has_action and _size_of(kind, words, named) <= MOST_PARTIES
    if kind == QUEUE:
        return IS_SERVING in manager.__dict__
    return kind is None or kind in FOLLOWED


_SIZES = {**dict.fromkeys(PERMITS, "value"), BARRIER_KIND: "parties", QUEUE: "maxsize"}


def _size_of(kind: str | None, words: Any, named: Any) -> int:
    """How many permits, parties or places it has."""
    told = words[0] if words else named.get(_SIZES.get(kind or "", ""), 1 if kind in PERMITS else 0)
    return told if kind in _SIZES and type(told) is int else 0


# Proxies


def _begin_proxy(original: Any) -> Any:
    def __init__(self: Any, token: Any, *words: Any, **named: Any) -> None:
        original(self, token, *words, **named)
        if state.note is None or not following.is_there() or self._owned_by_manager:
            return
        kept = managed.known((token.address, token.id))
        if kept is not None:
            self.__dict__[KEPT] = kept
        elif token.typeid not in (ITERATOR, POOL):
            following.is_not_followed(type(self).__name__)

    return __init__


def _call(original: Any) -> Any:
    def _callmethod(self: Any, methodname: str, args: Any = (), kwds: Any = {}) -> Any:
        kept = self.__dict__.get(KEPT)
        if kept is None:
            return original(self, methodname, args, kwds)

        def ask(name: str, words: Any, named: Any) -> Any:
            with pipes.silence(kept.is_silent):
                return original(self, name, words, named)

        is_noted = state.note is not None or state.witness is not None and isinstance(kept, KeptData)
        return kept.call(ask, methodname, args, kwds) if is_noted else ask(methodname, args, kwds)

    return _callmethod


# Servers that are traced, as code of the program serves


def _accept(original: Any) -> Any:
    """The threads that answer are tasks as soon as they do something for the program."""

    def accepter(self: Any) -> None:
        if state.note is None:
            original(self)
            return
        start: Any = threading.Thread.start
        for connection in _accepted(self.listener):
            thread = threading.Thread(target=self.handle_request, args=(connection,), daemon=True)
            getattr(start, "__wrapped__", start)(thread)

    return accepter


def _accepted(listener: Any) -> Iterator[Any]:
    while True:
        try:
            connection = listener.accept()
        except OSError:
            continue
        yield connection


class _Answering:
    """A connection to whoever asks. An answer brings a message if the request has brought one."""

    def __init__(self, connection: Any) -> None:
        self._connection = connection
        self._is_asked = False

    def recv(self) -> Any:
        pipes.begin_to_listen()
        told = self._connection.recv()
        self._is_asked = pipes.has_heard()
        return told

    def send(self, answer: Any) -> None:
        with pipes.silence(not self._is_asked):
            self._connection.send(answer)

    def __getattr__(self, name: str) -> Any:
        return getattr(self._connection, name)


def _handle(original: Any) -> Any:
    def handle_request(self: Any, conn: Any) -> Any:
        return original(self, conn if state.note is None else _Answering(conn))

    return handle_request


def _serve(original: Any) -> Any:
    def create(self: Any, c: Any, typeid: str, /, *words: Any, **named: Any) -> Any:
        told = original(self, c, typeid, *words, **named)
        if state.note is not None and _family_of(self.registry[typeid]) is None:
            _tell_of_kept(typeid, type(self.id_to_obj[told[0]][0]))
        return told

    return create


def _tell_of_kept(typeid: str, kind: type) -> None:
    """Code of the library is not looked into, but for what is traced where it is used."""
    module = kind.__module__
    is_seen = module in _OF_LIBRARY or following.watches(module) and not issubclass(kind, _CONTAINERS)
    if not is_seen:
        following.tell_of_unseen(f"{typeid} {OF_MANAGER} is served as a {kind.__name__}")
