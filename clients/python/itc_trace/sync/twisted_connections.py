"""Traces what a reactor of Twisted calls for a connection: the handlers of one connection come one after another.

A connection is a task of its own, after who has it made or listens for it. What comes from outside has no sender here.
"""

from __future__ import annotations

from types import MethodType, ModuleType
from typing import Any

from ..model.lines import CALL, CALLED, state
from .base import Patches
from .by_identity import ByIdentity
from .twisted_flows import Call, Flow, Places, gives, here, merged, once_followed

_descriptors: list[type] = []
"""The class of what a reactor reads and writes, once it is there."""
_flows: ByIdentity[Flow] = ByIdentity()
"""The flow of each thing that a reactor reads or writes."""
_OF_REACTOR = frozenset(("_Waker", "_UnixWaker", "_FDWaker", "_SIGCHLDWaker", "_SocketWaker"))
"""The classes by which a reactor wakes itself."""


def put(patches: Patches) -> None:
    for name, make in (
        ("twisted.internet.abstract", _put_descriptors), ("twisted.internet.protocol", _put_protocols),
        ("twisted.internet.selectreactor", _put_select), ("twisted.internet.posixbase", _put_poll),
        ("twisted.internet.asyncioreactor", _put_asyncio), ("twisted.web.http", _put_http),
    ):
        once_followed(patches, name, make)


def _put_descriptors(patches: Patches, module: ModuleType) -> None:
    kind: Any = vars(module)["FileDescriptor"]
    _descriptors.append(kind)
    patches.wrap(kind, "__init__", _begin_descriptor)


def _put_protocols(patches: Patches, module: ModuleType) -> None:
    patches.wrap(vars(module)["BaseProtocol"], "makeConnection", _make_connection)


def _put_select(patches: Patches, module: ModuleType) -> None:
    patches.wrap(vars(module)["SelectReactor"], "_doReadOrWrite", _read_or_write)


def _put_poll(patches: Patches, module: ModuleType) -> None:
    patches.wrap(vars(module)["_PollLikeMixin"], "_doReadOrWrite", _read_or_write)


def _put_asyncio(patches: Patches, module: ModuleType) -> None:
    patches.wrap(vars(module)["AsyncioSelectorReactor"], "_readOrWrite", _read_or_write)


# Connections


def _begin_descriptor(original: Any) -> Any:
    def __init__(self: Any, *words: Any, **named: Any) -> None:
        original(self, *words, **named)
        if state.note is not None:
            self.__dict__["_itc_place"] = gives(CALL)

    return __init__


def _place_of(selectable: Any) -> Places:
    """Who has made it, or what it has to come after since."""
    own = getattr(selectable, "__dict__", {})
    return merged(own.get("_itc_place", ()), own.get("_itc_answered", ()))


def _end_call(call: Call, selectable: Any) -> None:
    """Where nothing of the flow was noted, the next call comes after what this one has come after, too."""
    origin, own = call.origin, getattr(selectable, "__dict__", None)
    call.end()
    if origin and own is not None:
        own["_itc_place"] = origin


def _flow_of(selectable: Any) -> Flow | None:
    """None of what takes no weak references. What it does belongs to the line of its thread."""
    flow = _flows.get(selectable)
    if flow is None:
        protocol = getattr(selectable, "__dict__", {}).get("protocol", selectable)
        flow = Flow(f"{type(protocol).__name__}#")
        try:
            _flows.put(selectable, flow)
        except TypeError:
            return None
    return flow


def flow_of_owner(function: Any) -> Flow | None:
    """The flow of the connection of which Twisted calls this method later, as to tell that the connection is lost."""
    owner = function.__self__ if type(function) is MethodType else None
    for one in (owner, getattr(owner, "__dict__", {}).get("transport")):
        if _descriptors and isinstance(one, _descriptors[0]):
            return _flow_of(one)
    return None


def _read_or_write(original: Any) -> Any:
    def read_or_write(self: Any, selectable: Any, *words: Any) -> Any:
        if state.note is None or type(selectable).__name__ in _OF_REACTOR:
            return original(self, selectable, *words)
        call = Call(_flow_of(selectable), _place_of(selectable), hands_on=True)
        call.begin()
        try:
            return original(self, selectable, *words)
        finally:
            _end_call(call, selectable)

    return read_or_write


def _make_connection(original: Any) -> Any:
    def makeConnection(self: Any, transport: Any) -> Any:
        is_known = bool(_descriptors) and isinstance(transport, _descriptors[0])
        if state.note is None or not is_known:
            return original(self, transport)
        flow = _flow_of(transport)
        if flow is None or here.call is not None and here.call.flow is flow:
            return original(self, transport)
        flow.name = f"{type(self).__name__}#" if flow.line is None else flow.name
        call = Call(flow, gives(CALL), hands_on=True)
        call.begin()
        try:
            return original(self, transport)
        finally:
            _end_call(call, transport)

    return makeConnection


# Requests of one connection


def _put_http(patches: Patches, module: ModuleType) -> None:
    patches.wrap(vars(module)["HTTPChannel"], "requestDone", _request_done)


def _request_done(original: Any) -> Any:
    """The next request of the connection is looked at once the one before is answered."""

    def requestDone(self: Any, request: Any) -> Any:
        own = getattr(getattr(self, "transport", None), "__dict__", None)
        if state.note is not None and own is not None:
            own["_itc_answered"] = gives(CALLED)
        return original(self, request)

    return requestDone
