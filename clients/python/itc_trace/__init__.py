"""A client of itc_trace: reports what a Python program does, and asks how its events are ordered.

`Session` reports and asks by hand. `tracing` and `install` report by themselves what the standard library's threads,
locks, queues, pools and asyncio do; `shared` and `touch` say what is shared; `races` finds what nothing orders.

A name is imported once it is asked for, so that a command does not wait for what it does not use.
"""

from __future__ import annotations

import os
from importlib import import_module
from typing import TYPE_CHECKING, Any

from . import own_path

own_path.look_into_library_first()

if TYPE_CHECKING:
    from .record.collector import Collector, NoCollector
    from .record.noting import touch
    from .analyse.races import Race, Races, find_races
    from .session import Refused, Session
    from .marked.shared import shared
    from .api.tracing import Tracing, install, tracing, uninstall
    from .model.verdict import Cause, Unseen, Verdict
    from .api.web import AsgiMiddleware, Middleware, Opener, incoming, opener, outgoing

__all__ = [
    "AsgiMiddleware", "Cause", "Collector", "Middleware", "NoCollector", "Opener", "Race", "Races", "Refused",
    "Session", "Tracing",
    "Unseen", "Verdict",
    "find_races", "incoming", "install", "opener", "outgoing", "shared", "touch", "tracing", "uninstall",
]
_MODULES = {
    "record.collector": ("Collector", "NoCollector"),
    "record.noting": ("touch",),
    "analyse.races": ("Race", "Races", "find_races"),
    "session": ("Refused", "Session"),
    "marked.shared": ("shared",),
    "api.tracing": ("Tracing", "install", "tracing", "uninstall"),
    "model.verdict": ("Cause", "Unseen", "Verdict"),
    "api.web": ("AsgiMiddleware", "Middleware", "Opener", "incoming", "opener", "outgoing"),
}
"""Where each name is."""
_PLACES = {name: module for module, names in _MODULES.items() for name in names}


def __getattr__(name: str) -> Any:
    if name not in _PLACES:
        raise AttributeError(f"module {__name__!r} has no attribute {name!r}")
    if name in _MODULES["api.tracing"]:
        import_module(".analyse.seeing", __name__)  # By which `races` looks, when the program may be over.
    found = globals()[name] = getattr(import_module(f".{_PLACES[name]}", __name__), name)
    return found


def __dir__() -> list[str]:
    return sorted({*globals(), *__all__})


if os.environ.get("ITC_TRACE_CHILD_OF"):
    from .processes.children import watch_as_child

    watch_as_child()
