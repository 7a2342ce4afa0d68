"""The dictionaries that have the fields of objects, and the variables of modules, where the program has asked for them.

An element of such a dictionary is a field. Only what is asked for is known, so that any other dictionary costs nothing.
"""

from __future__ import annotations

import weakref
from builtins import dict, id, issubclass, iter, next, type
from collections.abc import Callable
from gc import get_referents
from types import MappingProxyType
from typing import Any, NamedTuple

from ..model.lines import state
from .decisions import fields_of, name_of
from .things import OWNERS, Owner, owner_of


class _Unreferred(NamedTuple):
    """An object that cannot be referred to weakly: its identity, the name of its type, and what is known of it."""

    key: int
    kind: str
    owner: Owner

    @property
    def is_there(self) -> bool:
        return OWNERS.get(self.key) is self.owner


class FieldsOf(NamedTuple):
    """Stands for such an object, by the dictionary that has its fields."""

    owner: Owner
    kind: str
    fields: dict[Any, Any]


FIELDS_OF: dict[int, Any] = {}
"""The object of each dictionary, by the identity of that."""
LOOKED_THROUGH_AT = 1024
_unreferred: list[int] = []
"""The dictionaries of objects that cannot be referred to weakly."""


def keep_fields_of(one: Any) -> None:
    """Keeps whose the dictionary is that has the fields of an object, if it has one."""
    fields = _dictionary_of(one)
    key = id(fields)
    known = FIELDS_OF.get(key)
    if fields is None or known is not None and (type(known) is not _Unreferred or known.is_there):
        return
    try:
        FIELDS_OF[key] = weakref.ref(one, _forgetting(key))
    except TypeError:
        if state.note is not None:
            _keep_by_owner(one, key)


def _keep_by_owner(one: Any, key: int) -> None:
    """The same of an object that cannot be referred to weakly. As long as it is known, it is there."""
    if len(_unreferred) % LOOKED_THROUGH_AT == LOOKED_THROUGH_AT - 1:
        _unreferred[:] = [known for known in list(_unreferred) if _is_kept_by_owner(known)]
    FIELDS_OF[key] = _Unreferred(id(one), name_of(type(one)), owner_of(one, ""))
    _unreferred.append(key)


def _is_kept_by_owner(key: int) -> bool:
    """Whether the object of such a dictionary is still there. If not, it is forgotten."""
    known = FIELDS_OF.get(key)
    if type(known) is _Unreferred and not known.is_there:
        FIELDS_OF.pop(key, None)
    return type(known) is _Unreferred and known.is_there


def object_of(fields: Any) -> Any:
    """The object whose fields these are, or what stands for it. None, if it is not known to be one's."""
    key = id(fields)
    reference = FIELDS_OF.get(key)
    if reference is None:
        return None
    if type(reference) is _Unreferred:
        return FieldsOf(reference.owner, reference.kind, fields) if _is_kept_by_owner(key) else None
    one = reference()
    if one is not None and _dictionary_of(one) is fields:
        return one
    FIELDS_OF.pop(key, None)
    return None


def _forgetting(key: int) -> Callable[[Any], None]:
    def forget(reference: Any) -> None:
        if FIELDS_OF.get(key) is reference:
            FIELDS_OF.pop(key, None)

    return forget


def _dictionary_of(one: Any) -> Any:
    fields = fields_of(one)
    if type(fields) is MappingProxyType and issubclass(type(one), type):
        return next(iter(get_referents(fields)), None)
    return fields if type(fields) is dict else None
