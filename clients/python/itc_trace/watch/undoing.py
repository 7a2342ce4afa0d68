"""Which changes surely go with an earlier one of the same function, and so are made from no look in between.

In one loop `if len(busy) < 10: busy.add(key)` is one step. So is what takes the key away again in a later turn: it
happens in any case, and to what its own task has put there. The rows of such a program look the same as those of
`first = not busy`, which acts on it in a later turn. So the source decides, function by function. What is not surely
so counts as made from the last look of its task.
"""

from __future__ import annotations

import ast
from collections import Counter
from collections.abc import Iterable, Iterator
from typing import Any, NamedTuple

from ..model.conflicts import BY_KEY, BY_VALUE, FLAG, GIVEN, GUARDED_KEY, GUARDED_VALUE

PUTTING = frozenset("add append appendleft".split())
TAKING = frozenset("pop popleft".split())
TAKING_VALUES = frozenset("remove discard".split())
DELETION, ELEMENT, FIELD = "deletion", "element", "field"
_FUNCTIONS = (ast.FunctionDef, ast.AsyncFunctionDef)
_OWN_CODE = (*_FUNCTIONS, ast.ClassDef)
_LOOPS = (ast.For, ast.AsyncFor, ast.While)
_WAITING = (ast.Await, ast.AsyncFor, ast.AsyncWith, ast.Yield, ast.YieldFrom)
_OF_OBJECT = frozenset(("self", "cls"))


class _Change(NamedTuple):
    """A change: of what, what it does, by which value, and what it takes out is bound to."""

    owner: str
    field: str
    """The last name of the owner."""
    does: str
    value: str
    names: frozenset[str]
    constant: str = ""
    """What it is set to, if that is always the same."""
    given: str = ""
    is_guarded: bool = False
    """Whether it was made only behind a look at what it changes, in the same turn."""


def mark(tree: ast.Module) -> None:
    """Has each statement that goes with an earlier change say so, as `undoes`."""
    for node in ast.walk(tree):
        if isinstance(node, _FUNCTIONS):
            _Function(node).mark()


class _Function:
    """One function, without those that are defined in it."""

    def __init__(self, node: ast.FunctionDef | ast.AsyncFunctionDef) -> None:
        self._body = node.body
        self._is_waiting_by_word = isinstance(node, ast.AsyncFunctionDef)
        """Whether it waits at an `await` alone. A greenlet may switch in any call."""
        self._arguments = set(_arguments(node.args))
        self._changes = {one: change for one in _inside(self._body) if (change := _change_of(one)) is not None}
        self._bound: Counter[str] = Counter()
        self._remembered: set[str] = set()
        """The fields and variables that something is kept of, which may be looked at in a later turn."""
        self._is_in_any_case = False
        """Whether it goes through what is done at last, whatever was raised by what is kept of a look."""
        self._named: set[str] = set()
        """Those that have another name, too, or whose value is kept."""

    def mark(self) -> None:
        if self._changes:
            self._bound.update(self._arguments)
            self._bound.update(name for node in _inside(self._body) for name in _bound_by(node))
            for node in _inside(self._body):
                for value in self._kept_by(node):
                    (self._named if _is_plain(value) else self._remembered).update(_fields(value))
            self._block(self._body, [])
            self._mark_given()

    def _is_own(self, name: str) -> bool:
        return self._bound[name] > 0 and name not in _OF_OBJECT

    def _is_fixed(self, names: Iterable[str]) -> bool:
        """Whether each has one value as long as the function runs, or in a turn of its loop."""
        return all(self._bound[name] <= 1 for name in names)

    def _kept_by(self, node: Any) -> Iterator[ast.expr]:
        """What a statement or an expression keeps something of."""
        if isinstance(node, (ast.Assign, ast.AnnAssign, ast.AugAssign, ast.NamedExpr)):
            change = self._changes.get(node)
            if node.value is not None and (change is None or change.does not in TAKING):
                yield node.value
        elif isinstance(node, (ast.For, ast.AsyncFor, ast.comprehension)):
            yield node.iter
        elif isinstance(node, ast.withitem) and node.optional_vars:
            yield node.context_expr

    def _is_kept(self, change: _Change) -> bool:
        """Whether what was there is kept, of a container or of what it has for one value."""
        has_one_value = change.does in (FIELD, ELEMENT) and change.field in self._named
        return has_one_value or change.field in self._remembered

    def _waits(self, node: ast.AST) -> bool:
        if node in self._changes:
            return False
        kinds = _WAITING if self._is_waiting_by_word else (*_WAITING, ast.Call)
        return any(isinstance(one, kinds) for one in _with_inside(node))

    def _is_of_now(self, test: ast.expr) -> bool:
        """Whether a test looks at things themselves, and at nothing that was looked at before."""
        return not self._waits(test) and not any(map(self._is_own, _names(test)))

    def _block(self, body: list[Any], before: list[_Change], tests: tuple[ast.expr, ...] = ()) -> list[_Change]:
        """Goes through statements that come one after another. Gives the changes that have surely been made then.

        What was tested in this turn keeps others out.
        """
        made = list(before)
        for node in body:
            change = self._changes.get(node)
            if change is not None:
                self._look_at(node, change._replace(is_guarded=any(_is_asked(change, one) for one in tests)), made)
            elif isinstance(node, ast.If):
                self._inside_if(node, made, tests)
                made = self._kept_behind(node, node.test, made)
            elif isinstance(node, (ast.Try, ast.TryStar)):
                made = self._try(node, made, tests)
            elif isinstance(node, (ast.With, ast.AsyncWith)):
                made = self._block(node.body, made, () if any(map(self._waits, node.items)) else tests)
            elif isinstance(node, (*_LOOPS, ast.Match)):
                for block in _blocks_of(node):
                    self._block(block, [])
                made = self._kept_behind(node, None, made)
            tests = self._tests_behind(node, tests)
        return made

    def _tests_behind(self, node: Any, tests: tuple[ast.expr, ...]) -> tuple[ast.expr, ...]:
        """What was tested in the turn that goes on behind a statement."""
        if isinstance(node, ast.While) and self._is_of_now(node.test) and not any(map(_breaks, node.body)):
            return (node.test,)
        if self._waits(node):
            return ()
        is_kept_out = isinstance(node, ast.If) and self._is_of_now(node.test) and _leaves(node)
        return (*tests, node.test) if is_kept_out else tests

    def _inside_if(self, node: ast.If, made: list[_Change], tests: tuple[ast.expr, ...]) -> None:
        """What was made before an `if` is known within it, up to where its test is one of an earlier turn."""
        is_of_now = self._is_of_now(node.test)
        known, tested = (made, (*tests, node.test)) if is_of_now else ([], () if self._waits(node.test) else tests)
        for block in (node.body, node.orelse):
            self._block(block, [], tested)
            until = next((place for place, one in enumerate(block) if self._waits(one)), len(block))
            self._block(block[:until], known, tested)

    def _try(self, node: Any, made: list[_Change], tests: tuple[ast.expr, ...]) -> list[_Change]:
        """The first statements of what is tried are surely made before what comes in any case."""
        begun = list(made)
        for one in node.body:
            if one not in self._changes:
                break
            change = self._changes[one]
            begun.append(change._replace(is_guarded=any(_is_asked(change, test) for test in tests)))
        behind = self._block(node.orelse, self._block(node.body, made, tests))
        for handler in node.handlers:
            self._block(handler.body, self._kept_by_raising(node.body, begun))
        before, self._is_in_any_case = self._is_in_any_case, True
        self._block(node.finalbody, begun)
        self._is_in_any_case = before
        return [one for one in behind if one in begun] if node.handlers else behind

    def _kept_by_raising(self, body: list[Any], made: list[_Change]) -> list[_Change]:
        """Those that are followed by a handler, whatever was looked at before."""
        for node in _inside(body):
            if isinstance(node, (ast.If, ast.Assert)):
                made = self._kept_behind(node, node.test, made)
            elif isinstance(node, (*_LOOPS, ast.Match)):
                made = self._kept_behind(node, None, made)
        return made

    def _kept_behind(self, node: ast.AST, test: ast.expr | None, made: list[_Change]) -> list[_Change]:
        """Those after which the function goes on behind this statement, whatever their owners have become."""
        if not _leaves(node):
            return made
        has_calls = test is None or any(isinstance(one, ast.Call) for one in ast.walk(test))
        if test is None or has_calls or not self._is_of_now(test):
            return []
        looked_at = _fields(test)
        return [one for one in made if one.field not in looked_at]

    def _look_at(self, node: Any, change: _Change, made: list[_Change]) -> None:
        if not self._is_fixed(change.names):
            return
        made.append(change)
        if not self._is_kept(change) or self._is_in_any_case and change.does not in (FIELD, ELEMENT):
            words = [_undone_by(earlier, change) for earlier in made[:-1] if self._is_fixed(earlier.names)]
            node.undoes = next(filter(None, reversed(words)), getattr(node, "undoes", ""))
            if node.undoes == FLAG and _is_set_before(change, made[:-1]):
                node.undoes = ""

    def _mark_given(self) -> None:
        """Those of a function that has looked at no such thing before: a caller may have."""
        for node, change in self._changes.items():
            if change.does in (*PUTTING, *TAKING_VALUES, DELETION) and not getattr(node, "undoes", ""):
                if not self._has_looked_before(node, change):
                    node.undoes = GIVEN  # type: ignore[attr-defined]

    def _has_looked_before(self, node: Any, change: _Change) -> bool:
        for one in _inside(self._body):
            if getattr(one, "lineno", node.lineno) < node.lineno and isinstance(one, ast.stmt):
                if any(change.field in _fields(part) for part in self._looking_parts(one)):
                    return True
        return False

    def _looking_parts(self, node: ast.stmt) -> Iterator[ast.AST]:
        """The expressions of a statement that may keep what they look at for later turns."""
        if node in self._changes:
            return
        for part in ast.iter_child_nodes(node):
            is_test = isinstance(node, (ast.If, ast.While)) and part is node.test and self._is_of_now(node.test)
            if isinstance(part, ast.expr) and not is_test:
                yield part


def _undone_by(earlier: _Change, change: _Change) -> str:
    """How a change goes with an earlier one, or nothing."""
    if earlier.owner != change.owner:
        return ""
    is_same = earlier.value == change.value
    is_put_back = change.does in PUTTING and earlier.does in TAKING and earlier.given == change.value
    if is_put_back or change.does in TAKING_VALUES and earlier.does in (*PUTTING, ELEMENT) and is_same:
        return GUARDED_VALUE if earlier.is_guarded else BY_VALUE
    if change.does == DELETION and earlier.does in ("add", ELEMENT) and is_same:
        return GUARDED_KEY if earlier.is_guarded else BY_KEY
    is_flag = change.does == earlier.does and earlier.is_guarded and earlier.constant
    return FLAG if is_flag and is_same and change.constant else ""


def _is_set_before(change: _Change, made: list[_Change]) -> bool:
    """Whether a flag is set as it was before: so it is taken anew, with no look."""
    return any(
        (one.owner, one.does, one.value, one.constant) == (change.owner, change.does, change.value, change.constant)
        for one in made
    )


def _is_asked(change: _Change, test: ast.expr) -> bool:
    """Whether a test looks at what is changed, and at the element of this key."""
    names = _fields(test) | {ast.unparse(one) for one in ast.walk(test) if isinstance(one, ast.Constant)}
    parts = [change.value] if change.does != FIELD and change.value else []
    return change.field in names and all(part in names for part in parts)


def _change_of(node: Any) -> _Change | None:
    """The change that a simple statement is, if it is one of those that may go with another."""
    if isinstance(node, ast.Assign) and len(node.targets) == 1:
        return _assignment(node.targets[0], node.value)
    if isinstance(node, ast.Delete) and len(node.targets) == 1 and isinstance(node.targets[0], ast.Subscript):
        return _change(node.targets[0].value, DELETION, node.targets[0].slice)
    return _call(node.value) if isinstance(node, ast.Expr) and isinstance(node.value, ast.Call) else None


def _assignment(target: ast.expr, value: ast.expr) -> _Change | None:
    if isinstance(target, ast.Name) and isinstance(value, ast.Call):
        taken = _call(value)
        is_taken = taken is not None and taken.does in TAKING
        return taken._replace(given=target.id, names=taken.names | {target.id}) if taken and is_taken else None
    constant = ast.unparse(value) if isinstance(value, ast.Constant) else ""
    if isinstance(target, ast.Name) and constant:
        return _Change(target.id, target.id, FIELD, "", frozenset(), constant)
    if isinstance(target, ast.Attribute) and constant:
        return _change(target, FIELD, None, constant)
    return _change(target.value, ELEMENT, target.slice, constant) if isinstance(target, ast.Subscript) else None


def _call(node: ast.Call) -> _Change | None:
    function, arguments = node.func, node.args
    if not isinstance(function, ast.Attribute) or node.keywords:
        return None
    name, owner = function.attr, function.value
    if name in TAKING and not arguments:
        return _change(owner, name, None)
    if name == "pop" and len(arguments) <= 2 and _is_value(arguments[-1]):
        return _change(owner, DELETION, arguments[0])
    return _change(owner, name, arguments[0]) if name in PUTTING | TAKING_VALUES and len(arguments) == 1 else None


def _change(owner: ast.expr, does: str, value: ast.expr | None, constant: str = "") -> _Change | None:
    if not _is_plain(owner) or value is not None and not _is_value(value):
        return None
    names = _names(owner) | (set() if value is None else _names(value))
    told = "" if value is None else ast.unparse(value)
    return _Change(ast.unparse(owner), _last_name(owner), does, told, frozenset(names), constant)


def _is_plain(node: ast.expr) -> bool:
    """Whether it is a variable, a field of one and so on, or an element of one by a plain key."""
    while isinstance(node, (ast.Attribute, ast.Subscript)):
        if isinstance(node, ast.Subscript) and not _is_value(node.slice):
            return False
        node = node.value
    return isinstance(node, ast.Name)


def _is_value(node: ast.expr) -> bool:
    parts = node.elts if isinstance(node, ast.Tuple) else [node]
    return all(isinstance(one, (ast.Name, ast.Constant)) for one in parts)


def _last_name(node: ast.expr) -> str:
    while isinstance(node, ast.Subscript):
        node = node.value
    return node.attr if isinstance(node, ast.Attribute) else node.id if isinstance(node, ast.Name) else ""


def _names(node: ast.AST) -> set[str]:
    return {one.id for one in ast.walk(node) if isinstance(one, ast.Name)}


def _fields(node: ast.AST) -> set[str]:
    return _names(node) | {one.attr for one in ast.walk(node) if isinstance(one, ast.Attribute)}


def _with_inside(node: ast.AST) -> Iterator[ast.AST]:
    """The node and those in it, but for other functions and classes."""
    yield node
    if not isinstance(node, (*_OWN_CODE, ast.Lambda)):
        for one in ast.iter_child_nodes(node):
            yield from _with_inside(one)


def _inside(body: list[Any]) -> Iterator[ast.AST]:
    return (one for node in body for one in _with_inside(node))


def _blocks_of(node: Any) -> list[list[ast.stmt]]:
    if isinstance(node, ast.Match):
        return [case.body for case in node.cases]
    return [node.body, node.orelse]


def _breaks(node: ast.AST) -> bool:
    """Whether a statement leaves the loop that it stands in."""
    if isinstance(node, (*_LOOPS, *_OWN_CODE, ast.expr)):
        return False
    return isinstance(node, ast.Break) or any(map(_breaks, ast.iter_child_nodes(node)))


def _leaves(node: ast.AST, is_in_loop: bool = False) -> bool:
    """Whether a statement may leave the block that it stands in."""
    if isinstance(node, (ast.Return, ast.Raise, ast.Assert)):
        return True
    if isinstance(node, (ast.Break, ast.Continue)):
        return not is_in_loop
    if isinstance(node, (*_OWN_CODE, ast.expr)):
        return False
    is_in_loop = is_in_loop or isinstance(node, _LOOPS)
    return any(_leaves(one, is_in_loop) for one in ast.iter_child_nodes(node))


def _arguments(arguments: ast.arguments) -> Iterator[str]:
    for one in (*arguments.posonlyargs, *arguments.args, *arguments.kwonlyargs, arguments.vararg, arguments.kwarg):
        if one is not None:
            yield one.arg


def _bound_by(node: ast.AST) -> Iterator[str]:
    if isinstance(node, ast.Name) and not isinstance(node.ctx, ast.Load):
        yield node.id
    elif isinstance(node, (*_OWN_CODE, ast.ExceptHandler, ast.MatchAs, ast.MatchStar)) and node.name:
        yield node.name
    elif isinstance(node, ast.alias):
        yield (node.asname or node.name).partition(".")[0]
    elif isinstance(node, ast.MatchMapping) and node.rest:
        yield node.rest
    elif isinstance(node, (ast.Global, ast.Nonlocal)):
        yield from (*node.names, *node.names)  # Others may bind it, too.
