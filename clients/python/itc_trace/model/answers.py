"""What a function does with an answer, by its source: which of its lines only a yes leads to.

Whoever asks `if done.is_set():` comes after the call of `set` in each run in which the answer is yes. So an order that
is known by the answer holds for what stands behind a yes, and for what is called there. What stands behind
`told = done.is_set()` is done in any case, and is in order by luck.
"""

from __future__ import annotations

import ast
import functools
from collections.abc import Iterable, Iterator, Sequence
from itertools import islice
from types import CodeType
from typing import Any, NamedTuple

from .file_names import name_of_file
from .trees import tree_of_file

MOST_USES = 4096
MOST_NAMES = 256
"""So many names of functions are told that only a yes leads to."""
_FUNCTIONS = (ast.FunctionDef, ast.AsyncFunctionDef)
_SCOPES = (*_FUNCTIONS, ast.Lambda, ast.Module, ast.ClassDef)
_ASKING = frozenset(("is_set", "isSet", "is_alive", "done", "cancelled", "wait", "join"))
"""Methods of what is asked for."""
_WAITS = frozenset(("join", "wait", "result", "exception"))
"""Methods that wait until it is over, if they are given no time."""
_CONSUMERS = {"all": True, "any": False}
"""Functions of the language by which many answers become one, and whether a yes of it is one of each."""


class Says(NamedTuple):
    """Whether a value that is true, or one that is false, says that the answer was yes."""

    if_true: bool
    if_false: bool

    @property
    def other(self) -> Says:
        return Says(self.if_false, self.if_true)


YES, NO, NOTHING = Says(True, False), Says(False, True), Says(False, False)


class Behind(NamedTuple):
    """What only a yes leads to: lines of one function, and functions that are called there."""

    file: str = ""
    first: int = 0
    last: int = 0
    lines: tuple[tuple[int, int], ...] = ()
    names: tuple[str, ...] = ()

    def leads_to(self, file: str | None, line: int, function: str) -> bool:
        name = function.rpartition(".")[2]
        if name in self.names:
            return True
        is_own = file == self.file and self.first <= line <= self.last
        return is_own and any(first <= line <= last for first, last in self.lines)


class Use(NamedTuple):
    """What a function does with the answer."""

    returns: Says | None = None
    """What its own value says of the answer, if it gives that back at once."""
    is_whole: bool = False
    """Whether it is left behind a yes alone."""
    behind: Behind = Behind()
    asked: str = ""
    """The name of what was called or looked up there."""


_uses: dict[tuple[int, int, Says | None], tuple[CodeType, Use | None]] = {}


def use_of(code: CodeType, instruction: int, says: Says | None) -> Use | None:
    """What is done with the value of an instruction. None if its source is not there.

    Without `says` the value itself says nothing, but that the instruction has given one is a yes.
    """
    key = id(code), instruction, says
    known = _uses.get(key)
    if known is None:
        if len(_uses) >= MOST_USES:
            _uses.clear()
        # Codes of two files may be equal, so each is known by its identity, and kept.
        known = _uses[key] = code, _looked_up(code, instruction, says)
    return known[1]


def _looked_up(code: CodeType, instruction: int, says: Says | None) -> Use | None:
    positions = next(islice(code.co_positions(), instruction // 2, None), None)
    source = _source(code.co_filename)
    node = None if source is None or positions is None else source.nodes.get(positions)
    if source is None or node is None:
        return None
    return _Asked(source, node, says).use(name_of_file(code.co_filename))._replace(asked=_name_of(node))


def _name_of(node: ast.AST) -> str:
    """The last name of what is called, or looked up."""
    while isinstance(node, ast.Call):
        node = node.func
    return node.attr if isinstance(node, ast.Attribute) else node.id if isinstance(node, ast.Name) else ""


class _Source:
    """The tree of a file."""

    def __init__(self, tree: ast.Module) -> None:
        self.tree = tree
        self.parents: dict[ast.AST, ast.AST] = {}
        self.nodes: dict[tuple[int | None, ...], ast.AST] = {}
        self.functions: dict[str, list[ast.AST]] = {}
        for node in ast.walk(tree):
            for child in ast.iter_child_nodes(node):
                self.parents[child] = node
            if isinstance(node, (ast.Call, ast.Attribute)):
                self.nodes[node.lineno, node.end_lineno, node.col_offset, node.end_col_offset] = node
            if isinstance(node, _FUNCTIONS):
                self.functions.setdefault(node.name, []).append(node)

    def scope_of(self, node: ast.AST) -> ast.AST:
        while not isinstance(node, _SCOPES):
            node = self.parents[node]
        return node

    def reached(self, nodes: Iterable[ast.AST]) -> set[str]:
        """The names of functions that may be called there, and of those that these call."""
        found: set[str] = set()
        names = {name for node in nodes for name in _names_in(node)}
        while names:
            found |= names
            names = {
                name for one in names for function in self.functions.get(one, ()) for name in _names_in(function)
            } - found
        return found


@functools.lru_cache(16)
def _source(file: str) -> _Source | None:
    tree = tree_of_file(file)
    return None if tree is None else _Source(tree)


def _names_in(node: ast.AST) -> Iterator[str]:
    for one in ast.walk(node):
        if isinstance(one, ast.Name):
            yield one.id
        elif isinstance(one, ast.Attribute):
            yield one.attr


def _behind(row: Sequence[ast.AST], one: ast.AST) -> Sequence[ast.AST]:
    """What stands behind it in the row."""
    return row[row.index(one) + 1:]


class _Asked:
    """An expression that asks, and its function."""

    def __init__(self, source: _Source, node: ast.AST, says: Says | None) -> None:
        self._source = source
        self._node = node
        self._scope: Any = source.scope_of(node)
        self._tests: dict[ast.AST, Says] = {}
        """What each test says."""
        self._guarded: list[ast.AST] = []
        """Expressions that only a yes leads to."""
        self._given: ast.AST | None = None
        """The statement that is gone through only if the instruction has given a value."""
        self._returns: Says | None = None
        if says is None:
            self._given = self._statement_of(node)
        else:
            self._follow(node, says, may_be_kept=True)

    def _statement_of(self, node: ast.AST) -> ast.AST:
        while not isinstance(node, ast.stmt):
            node = self._source.parents[node]
        return node

    def use(self, file: str) -> Use:
        if self._returns is not None or isinstance(self._scope, ast.Lambda):
            return Use(returns=self._returns)
        flow = _Flow(self._tests, self._given, self._node, self._source)
        is_left_behind = flow.of_scope(self._scope)
        is_whole = is_left_behind and isinstance(self._scope, _FUNCTIONS)
        guarded = [*flow.guarded, *self._guarded]
        names = self._source.reached(guarded) - self._source.reached(flow.others)
        is_module = isinstance(self._scope, ast.Module)
        first, last = (1, 1 << 31) if is_module else _lines_of(self._scope)
        lines = tuple(sorted({_lines_of(one) for one in guarded}))
        return Use(None, is_whole, Behind(file, first, last, lines, tuple(sorted(names)[:MOST_NAMES])))

    def _follow(self, node: ast.AST, says: Says, may_be_kept: bool) -> None:
        """Goes up from an expression, as long as the value says something of the answer."""
        parents = self._source.parents
        while says != NOTHING:
            above = parents[node]
            if isinstance(above, (ast.If, ast.While, ast.Assert)) and above.test is node:
                self._tests[above] = says
                return
            if isinstance(above, ast.IfExp) and above.test is node:
                self._guarded += [above.body] * says.if_true + [above.orelse] * says.if_false
                return
            if isinstance(above, ast.comprehension) and node in above.ifs:
                self._inside_comprehension(above, node, says)
                return
            if isinstance(above, (ast.Return, ast.Lambda)):
                self._returns = says
                return
            if isinstance(above, (ast.Assign, ast.NamedExpr)) and may_be_kept:
                self._kept(above, says)
            known = self._of_above(node, above, says)
            if known is None:
                return
            node, says = above, known

    def _of_above(self, node: ast.AST, above: ast.AST, says: Says) -> Says | None:
        """What the expression around it says. None if that is no such one."""
        if isinstance(above, ast.UnaryOp) and isinstance(above.op, ast.Not):
            return says.other
        if isinstance(above, ast.BoolOp):
            is_and = isinstance(above.op, ast.And)
            if says.if_true if is_and else says.if_false:
                self._guarded += _behind(above.values, node)
            return Says(says.if_true and is_and, says.if_false and not is_and)
        if isinstance(above, ast.Compare) and len(above.ops) == 1 and above.left is node:
            return _compared(above, says)
        if isinstance(above, ast.NamedExpr) or isinstance(above, ast.GeneratorExp) and above.elt is node:
            return says
        if isinstance(above, ast.Call) and isinstance(above.func, ast.Name) and above.args == [node]:
            is_each = _CONSUMERS.get(above.func.id)
            if is_each is not None and isinstance(node, (ast.GeneratorExp, ast.ListComp)):
                return Says(says.if_true and is_each, says.if_false and not is_each)
            return says if above.func.id == "bool" else None
        if isinstance(above, ast.ListComp) and above.elt is node:
            return says
        return None

    def _inside_comprehension(self, above: ast.comprehension, test: ast.AST, says: Says) -> None:
        if says.if_true:
            around = self._source.parents[above]
            self._guarded += [one for one in ast.iter_child_nodes(around) if not isinstance(one, ast.comprehension)]
            self._guarded += _behind(above.ifs, test)

    def _kept(self, node: ast.Assign | ast.NamedExpr, says: Says) -> None:
        """A variable of the function has the value, and nothing else. What tests it tests the answer."""
        targets = node.targets if isinstance(node, ast.Assign) else [node.target]
        if len(targets) != 1 or not isinstance(targets[0], ast.Name) or not isinstance(self._scope, _FUNCTIONS):
            return
        name = targets[0].id
        uses = [one for one in ast.walk(self._scope) if isinstance(one, ast.Name) and one.id == name]
        if sum(not isinstance(one.ctx, ast.Load) for one in uses) == 1 and name not in _arguments(self._scope):
            for one in uses:
                if isinstance(one.ctx, ast.Load) and self._source.scope_of(one) is self._scope:
                    self._follow(one, says, may_be_kept=False)


def _lines_of(node: Any) -> tuple[int, int]:
    return node.lineno, node.end_lineno or node.lineno


def _arguments(function: Any) -> set[str]:
    return {one.arg for one in ast.walk(function.args) if isinstance(one, ast.arg)}


def _compared(node: ast.Compare, says: Says) -> Says:
    """What a comparison with a constant says."""
    other, operator = node.comparators[0], node.ops[0]
    if not isinstance(other, ast.Constant) or not isinstance(operator, (ast.Is, ast.IsNot, ast.Eq, ast.NotEq)):
        return NOTHING
    if type(other.value) is not bool:
        return NOTHING
    same = says if other.value else says.other
    return same if isinstance(operator, (ast.Is, ast.Eq)) else same.other


class _Flow:
    """Goes through a function for what only a yes leads to. None stands for what is not reached."""

    def __init__(
        self, tests: dict[ast.AST, Says], given: ast.AST | None, node: ast.AST, source: _Source,
    ) -> None:
        self._tests = tests
        self._given = given
        func: Any = getattr(node, "func", None)
        is_direct = isinstance(func, ast.Attribute) and func.attr in _ASKING
        self._owner = ast.unparse(func.value) if is_direct else ""
        """What is asked for. A function of the program may ask for anything."""
        self._around = {node}
        while node in source.parents:
            node = source.parents[node]
            self._around.add(node)
        self.guarded: list[ast.AST] = []
        self.others: list[ast.AST] = []
        self._ends: list[bool] = []
        """Of each place where the function is left, whether only a yes leads there."""
        self._breaks: list[list[bool | None]] = []
        self._continues: list[list[bool | None]] = []

    def of_scope(self, scope: Any) -> bool:
        """Whether the function is left behind a yes alone."""
        end = self._block(scope.body, False)
        ends = [*self._ends, *([] if end is None else [end])]
        return bool(ends) and all(ends)

    def _add(self, nodes: Iterable[ast.AST | None], is_behind: bool | None) -> None:
        found = [node for node in nodes if node is not None]
        (self.guarded if is_behind else self.others).extend(found)

    def _block(self, body: list[Any], before: bool | None) -> bool | None:
        now = before
        for node in body:
            now = self._statement(node, now)
        return now

    def _statement(self, node: Any, now: bool | None) -> bool | None:
        if isinstance(node, (*_FUNCTIONS, ast.ClassDef)):
            return now
        for kind, step in self._STEPS.items():
            if isinstance(node, kind):
                after = step(self, node, now)
                break
        else:
            self._add([node], now)
            after = now
        if isinstance(node, ast.Assert) and node in self._tests:
            after = now or self._tests[node].if_true
        is_behind = node is self._given or self._waits(node)
        return True if is_behind and after is not None else after

    def _waits(self, node: Any) -> bool:
        """Whether the statement waits for the same, and so is left behind a yes as well."""
        value: Any = node.value if isinstance(node, (ast.Expr, ast.Assign, ast.AnnAssign)) else None
        if not isinstance(value, ast.Call) or not isinstance(value.func, ast.Attribute) or value in self._around:
            return False
        is_same = not self._owner or ast.unparse(value.func.value) == self._owner
        return is_same and value.func.attr in _WAITS and not value.args and not value.keywords

    def _leave(self, node: Any, now: bool | None) -> None:
        self._add([node], now)
        if now is not None:
            self._ends.append(now or node is self._given)

    def _raise(self, node: Any, now: bool | None) -> None:
        self._add([node], now)

    def _break(self, node: Any, now: bool | None) -> None:
        (self._breaks if isinstance(node, ast.Break) else self._continues)[-1].append(now)

    def _branches(self, node: Any, now: bool | None) -> tuple[bool | None, bool | None]:
        """What leads to where the test is true, and to where it is false."""
        if now is None:
            return None, None
        says = self._tests.get(node, NOTHING)
        return now or says.if_true, now or says.if_false

    def _if(self, node: Any, now: bool | None) -> bool | None:
        self._add([node.test], now)
        if_true, if_false = self._branches(node, now)
        return _joined(self._block(node.body, if_true), self._block(node.orelse, if_false))

    def _while(self, node: Any, now: bool | None) -> bool | None:
        self._add([node.test], now)
        if_true, if_false = self._branches(node, now)
        if isinstance(node.test, ast.Constant) and node.test.value:
            if_false = None
        _, breaks, _ = self._loop(node.body, if_true)
        return _joined(self._block(node.orelse, if_false), *breaks)

    def _for(self, node: Any, now: bool | None) -> bool | None:
        self._add([node.target, node.iter], now)
        end, breaks, continues = self._loop(node.body, now)
        round_ = _joined(end, *continues)
        # Who asks for each of several has asked for this one.
        behind = round_ if node in self._around and round_ is not None else _joined(now, round_)
        return _joined(self._block(node.orelse, behind), *breaks)

    def _loop(
        self, body: list[Any], now: bool | None,
    ) -> tuple[bool | None, list[bool | None], list[bool | None]]:
        self._breaks.append([])
        self._continues.append([])
        end = self._block(body, now)
        return end, self._breaks.pop(), self._continues.pop()

    def _try(self, node: Any, now: bool | None) -> bool | None:
        end = self._block(node.orelse, self._block(node.body, now))
        behind = _joined(end, *(self._block(handler.body, now) for handler in node.handlers))
        last = self._block(node.finalbody, now)
        if node.finalbody and last is None and now is not None:
            return None
        return True if last and behind is not None else behind

    def _with(self, node: Any, now: bool | None) -> bool | None:
        self._add([item.context_expr for item in node.items], now)
        if any("suppress" in _names_in(item.context_expr) for item in node.items):
            return _joined(now, self._block(node.body, now))
        return self._block(node.body, now)

    def _match(self, node: Any, now: bool | None) -> bool | None:
        self._add([node.subject], now)
        return _joined(now, *(self._block(case.body, now) for case in node.cases))

    _STEPS: dict[Any, Any] = {
        ast.Return: _leave, ast.Raise: _raise, (ast.Break, ast.Continue): _break, ast.If: _if, ast.While: _while,
        (ast.For, ast.AsyncFor): _for, (ast.Try, ast.TryStar): _try, (ast.With, ast.AsyncWith): _with,
        ast.Match: _match,
    }


def _joined(*ways: bool | None) -> bool | None:
    """What leads to where these ways meet."""
    reached = [way for way in ways if way is not None]
    return all(reached) if reached else None
