"""Traces the Deferreds of Twisted: a callback comes after who added it, and after who has fired the Deferred.

All that is to be known is seen at attributes that Twisted sets: a Deferred is `called` as it is fired, and
`_runningCallbacks` as long as one of its callbacks runs. So no function stands between Twisted and a callback.
"""

from __future__ import annotations

import weakref
from types import CodeType, FunctionType, MethodType, ModuleType
from typing import Any

from ..model.frames import frame_at, is_internal
from ..model.lines import CALLBACK, CALLED, RESULT, Token, state
from ..record.noting import line_of_now, without_own_frame
from . import chains
from .base import Patches, like, name_as
from .futures import FOR_THE_PROGRAM, take_any
from .handed_on import called, handed_at
from .twisted_flows import (
    Call, Flow, Places, Taken, asked_by, come_after, flow_now, gives, guarded, here, is_asked_by_program,
    is_of_program, is_surely_behind, merged, name_of, once_followed, stamp_now,
)

OF_TWISTED = "callback#"
"""The name of callbacks of Twisted itself."""
_names: dict[str, Any] = {}
"""What the module of Deferreds has that is looked for among callbacks."""


def put(patches: Patches) -> None:
    once_followed(patches, "twisted.internet.defer", _put_all)


def _put_all(patches: Patches, module: ModuleType) -> None:
    names = vars(module)
    kind: Any = names["Deferred"]
    _names.update((name, names[name]) for name in ("_CONTINUE", "Failure", "DeferredList"))
    _names["code"] = _code_of_waiting(names)
    _names["Deferred"], _names["passing"] = kind, (names["passthru"], names["_failthru"])
    futures = {name: vars(kind)[name] for name in ("asFuture", "fromFuture")}
    patches.put(kind, "callbacks", property(_callbacks, _set_callbacks))
    patches.put(kind, "called", property(_called, _set_called))
    patches.put(kind, "_runningCallbacks", property(_is_running, _set_running))
    patches.wrap(kind, "unpause", _unpause)
    for name in ("send", "__next__"):
        patches.wrap(kind, name, _send)
    plain = futures["fromFuture"].__func__
    patches.put(kind, "fromFuture", classmethod(like(plain, _from_future(plain))))
    FOR_THE_PROGRAM.add(futures["asFuture"].__code__)


def _code_of_waiting(names: Any) -> CodeType:
    """That of the callback by which a coroutine waits for a Deferred."""
    named = names.get("_gotResultInlineCallbacks")
    inside = [one for one in names["_inlineCallbacks"].__code__.co_consts if type(one) is CodeType]
    code: CodeType = named.__code__ if named is not None else {one.co_name: one for one in inside}["gotResult"]
    return code


# What is known of a Deferred


class Callbacks(list[Any]):
    """The callbacks of a Deferred, with what is known of it: so it is forgotten with the Deferred."""

    __slots__ = ("place", "flow", "has_asked", "item", "call", "gathered")

    place: Places
    """What its present result comes from."""
    flow: Flow | None
    """The task of its callbacks, of which each comes after the one before."""
    has_asked: bool
    """Whether one of the program was added, by which it is known whose flow that is."""
    item: Any
    """The callback that was taken out last."""
    call: Call | bool
    """What runs now of it. True if that is a callback in the line of who runs it."""
    gathered: Places

    @classmethod
    def of(cls, there: Any, before: Callbacks | None) -> Callbacks:
        made = cls(there)
        made.place, made.flow, made.has_asked = (), None, False
        if before is not None:
            made.place, made.flow, made.has_asked = before.place, before.flow, before.has_asked
        made.item, made.call, made.gathered = None, False, ()
        return made

    def append(self, item: Any) -> None:
        list.append(self, item if state.note is None else _added(self, item) or item)

    def pop(self, *words: Any) -> Any:
        item = list.pop(self, *words)
        if item[0][0] is _names["_CONTINUE"]:
            known = known_of(item[0][1][0])
            known.place = merged(known.place, self.place)
        else:
            self.item = item
        return item


name_as(Callbacks, "list", "builtins")


def known_of(deferred: Any) -> Callbacks:
    found = deferred.__dict__.get("callbacks")
    if type(found) is Callbacks:
        return found
    made = deferred.__dict__["callbacks"] = Callbacks.of(found or (), None)
    return made


def _callbacks(self: Any) -> Any:
    try:
        return self.__dict__["callbacks"]
    except KeyError:
        raise AttributeError(f"{type(self).__name__!r} object has no attribute 'callbacks'") from None


def _set_callbacks(self: Any, callbacks: Any) -> None:
    before = self.__dict__.get("callbacks")
    known = before if type(before) is Callbacks else None
    self.__dict__["callbacks"] = Callbacks.of(callbacks, known) if type(callbacks) is list else callbacks


# Adding a callback


class _Added(tuple[Any, ...]):
    """A callback, with where it was added and by whom."""

    place: Places = ()
    adder: weakref.ref[Flow] | None = None
    stamp = 0
    chain: chains.Chain | None = None
    handed: Any = None


name_as(_Added, "tuple", "builtins")


def _is_wait(function: Any) -> bool:
    return type(function) is FunctionType and function.__code__ is _names["code"]


def _waiting_of(function: Any, words: Any) -> Any:
    """What a coroutine and the callback by which it waits have in common: whether it has not begun to wait is first."""
    names = function.__code__.co_freevars
    return function.__closure__[names.index("waiting")].cell_contents if "waiting" in names else words[0]


@guarded
def _added(known: Callbacks, item: Any) -> Any:
    function, fails_to = item[0][0], item[1][0]
    if function is _names["_CONTINUE"] or _is_wait(function):
        return item
    added = _Added(item)
    added.place = gives(CALLBACK)
    added.adder, added.stamp = weakref.ref(flow_now()), stamp_now()
    if (is_of_program(function) or is_of_program(fails_to)) and is_asked_by_program():
        if not known.has_asked and known.flow is None:
            known.flow, added.chain = asked_by()
        known.has_asked = True
        added.handed = handed_at(function, 2) or handed_at(fails_to, 2)
    return added


# Firing


def _called(self: Any) -> Any:
    is_called = self.__dict__.get("called", False)
    if is_called and state.note is not None and not is_internal(frame_at(1)):
        come_after(known_of(self).place)
    return is_called


def _set_called(self: Any, is_called: Any) -> None:
    self.__dict__["called"] = is_called
    if is_called and state.note is not None:
        _fired(self)


@guarded
def _fired(deferred: Any) -> None:
    given, here.given = here.given, None
    call, known = here.call, known_of(deferred)
    if given is not None:
        known.place = given
    elif call is not None and call.status is not None and call.flow is not None and call.status.deferred is deferred:
        known.place = (call.flow,)
    else:
        known.place = merged(known.gathered, gives(RESULT))


def _unpause(original: Any) -> Any:
    """Its callbacks come after who lets them run."""

    def unpause(self: Any) -> None:
        if state.note is not None and self.__dict__.get("paused", 0) == 1:
            known = known_of(self)
            known.place = merged(known.place, gives(RESULT))
        original(self)

    return unpause


# Running callbacks


def _is_running(self: Any) -> Any:
    return self.__dict__.get("_runningCallbacks", False)


def _set_running(self: Any, is_running: Any) -> None:
    self.__dict__["_runningCallbacks"] = is_running
    known = known_of(self)
    if is_running and state.note is not None:
        known.call = _begin_callback(self, known) or False
    elif not is_running:
        known.item = None  # What it refers to lives no longer by that.
        if known.call:
            _end_callback(self, known)


@guarded
def _begin_callback(deferred: Any, known: Callbacks) -> Call | bool:
    """What a callback runs as. A coroutine that waits for the Deferred takes its place, and so does who goes on."""
    item = known.item
    result = deferred.__dict__.get("result")
    function, words = item[isinstance(result, _names["Failure"])][:2]
    if any(function is one for one in _names["passing"]):
        return False
    if _is_wait(function):
        if _waiting_of(function, words)[0]:  # The coroutine has not begun to wait.
            come_after(known.place)
            return False
        call = Call(None, known.place, hands_on=True)
        call.is_wake = True
        call.begin()
        return call
    if type(item) is not _Added:
        item = _Added(item)
    _gather(function, result, known)
    call_or_now = _call_of(item, function, known)
    called(function, (result, *(words or ())), item.handed)
    return call_or_now


def _call_of(item: _Added, function: Any, known: Callbacks) -> Call | bool:
    """If whoever runs the callback surely comes after who added it, the callback is a part of what that one does."""
    call = here.call
    adder = None if item.adder is None else item.adder()
    if (call is None or not call.is_open) and is_surely_behind(adder, item.stamp):
        line = line_of_now()
        if all(isinstance(one, Token) and one.line is line for one in known.place):
            come_after(item.place)
            return True
    is_programs = is_of_program(function)
    if known.flow is None:
        known.flow = Flow(OF_TWISTED)
    if is_programs and known.flow.line is None and known.flow.name == OF_TWISTED:
        known.flow.name = f"{name_of(function)}#"
    made = Call(known.flow, merged(item.place, known.place), hands_on=not is_programs, chain=item.chain)
    made.begin()
    return made


def _gather(function: Any, result: Any, known: Callbacks) -> None:
    """The last one of several Deferreds that are waited for fires their list, which comes after all of them.

    So does the first one, if one alone is waited for. The list comes after no other one then.
    """
    owner = function.__self__ if type(function) is MethodType else None
    if isinstance(owner, _names["DeferredList"]) and function.__name__ == "_cbDeferred":
        of_list, is_failure = known_of(owner), isinstance(result, _names["Failure"])
        is_alone = owner.fireOnOneErrback if is_failure else owner.fireOnOneCallback
        of_list.gathered = known.place if is_alone else merged(of_list.gathered, known.place)


@guarded
def _end_callback(deferred: Any, known: Callbacks) -> None:
    call, known.call = known.call, False
    if isinstance(call, Call):
        behind = () if call.is_wake else gives(CALLED)
        call.end()
        if call.is_wake:
            _know_woken(call)
            return
    else:
        behind = gives(CALLED)
    known.place = behind
    result = deferred.__dict__.get("result")
    if isinstance(result, _names["Deferred"]) and "result" in result.__dict__:
        known.place = merged(behind, known_of(result).place)


def _know_woken(call: Call) -> None:
    """Whoever has surely started the coroutine that was woken in its first wait comes after the step that it took."""
    if call.woken is not None:
        flow, places = call.woken
        starter = None if flow.starter is None else flow.starter()
        if starter is not None and is_surely_behind(starter, flow.returned):
            come_after(places)


# Coroutines that wait, and futures


def _send(original: Any) -> Any:
    """A coroutine that awaits the Deferred, and has its result, comes after that."""

    def send(self: Any, *words: Any) -> Any:
        own = self.__dict__
        if state.note is not None and not own.get("paused", 0) and "result" in own:
            come_after(known_of(self).place)
        try:
            return original(self, *words)
        except BaseException as fault:
            without_own_frame(fault)
            raise

    return send


def _from_future(original: Any) -> Any:
    def fromFuture(cls: Any, future: Any) -> Any:
        made = original(cls, future)
        if state.note is not None:
            known_of(made).gathered = (Taken(lambda: take_any(future)),)
        return made

    return fromFuture
