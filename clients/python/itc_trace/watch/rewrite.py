"""Rewrites a module's syntax tree, so that what several tasks may share is noted where it is read and written.

Each simple statement stands there twice: with hooks for while there is more than one task, and as it was. The hooks
take the operands, and give them back. So the program's own instructions stay, in their order and with their lines.
"""

from __future__ import annotations

import ast
import os
from collections.abc import Callable, Iterator
from types import CodeType
from typing import Any

from ..model.conflicts import ADDITION, INNER_READ, ITERATION, KEYS, LENGTH, REPLACEMENT, REWRITE
from ..model.settings import IMPORT_OF, MODULES_OF_FIELDS, MODULES_OF_METHODS
from . import held_lines, on_stack, passed_over
from ..model.kinds import (
    BUFFERS, BUILTINS_OF_BUFFERS, CALLED_BY_STEPS, CHANGED_ARGUMENT, COMPARED, CONSUMING, CONTENT, DEPTHS_OF_METHODS,
    EACH, IN_PLACE_FUNCTIONS, IN_PLACE_METHODS, KEYED, LATE_METHODS, METHODS, METHODS_OF_BUFFERS, ORDERED, RANKED,
    RANKING, READERS, READING_BUFFERS, SHOWING, SHOWN, STATE, STEPPERS, STEPPING, SUMMED, TRUTH, WRITTEN, depth_of,
    known_function,
)
from ..model.trees import tree_of_text
from .helper import quick
from .patterns import Patterns
from .learned import Learned
from .nodes import LOAD, as_statement, at, call_of, chosen, compiled, copied, name_at, new_node, place_of, with_ends
from .places import DELETED, LOOPS, MADE_HERE, OF_BASE, OF_OTHERS, STATE_OF_PROCESS
from .placing import placed
from .process_state import CHANGED_STATE, LEVEL, LEVELS, PRINTED, kept_in, touched_by
from .scopes import (
    CLASS, COMPREHENSION, DELEGATING, FIELDS, FUNCTION, LATE, MODULE, OF_CAUSE, OF_EXCEPTIONS, OF_RAISE, OF_SCOPES,
    SCOPED, Scope, Scopes,
    arguments_of, is_kept,
)
from .templates import field_paths
from .undoing import mark as mark_undoing

PREFIX = "_itc_"
READ = "r"
CONSTRUCTOR, FINALIZER, REGISTERING = "__init__", "__del__", "register"
ON = PREFIX + "on"

WHOLE_OBJECTS = frozenset(("vars", "__dict__", "asdict"))
"""What gives all fields of an object."""
OF_KEYS = ("__iter__", "keys")
METHODS_OF_READERS = {
    "len": ("__len__",), "bool": ("__bool__", "__len__"), "reversed": ("__reversed__",),
    "bytes": ("__bytes__", "__iter__"), "dict": OF_KEYS,
}
"""Which methods of a class these functions call, where that is another one than for the others."""
METHODS_OF_DEPTHS = {SHOWN: ("__str__", "__repr__", "__format__"), WRITTEN: ("__repr__",)}
METHODS_OF_COMPARISONS = {
    ast.Eq: ("__eq__",), ast.NotEq: ("__ne__",), ast.Lt: ("__lt__", "__gt__"), ast.Gt: ("__lt__", "__gt__"),
    ast.LtE: ("__le__", "__ge__"), ast.GtE: ("__le__", "__ge__"),
}
METHODS_OF_OPERATORS = {
    kind: (f"__{name}__", f"__r{name}__")
    for kind, name in (
        (ast.Add, "add"), (ast.Sub, "sub"), (ast.Mult, "mul"),
        (ast.BitOr, "or"), (ast.BitAnd, "and"), (ast.BitXor, "xor"),
    )
}
METHODS_OF_SLICES = {"r": ("__getitem__",), "w": ("__setitem__",), "d": ("__delitem__",)}
WRITTEN_BY = frozenset(map(ord, "ra"))
"""Conversions of a formatted text that ask for a text for a programmer."""
OF_ATTRIBUTES = {"getattr": "r", "hasattr": "r", "setattr": "w", "delattr": "w"}
OF_OBJECT = {"__getattribute__": "r", "__setattr__": "w", "__delattr__": "w"}
"""Methods of `object` that do the same for a class with methods of its own."""
WORDS_OF_OBJECT = {"__getattribute__": 1, "__setattr__": 2, "__delattr__": 1}
"""What each is given behind the object. If the class is named in front of it, the object comes first."""
OF_METHODS = frozenset(("self", "cls"))
TAKING = frozenset(("get", "setdefault"))
PUTTING = frozenset(("append", "appendleft", "insert"))
PUTTING_KEYED = frozenset(("setdefault",))
"""Methods that put their last argument into a container, where another task may get it from."""
PUT_AT_ONCE = frozenset((ast.Tuple, ast.List, ast.Dict))
MOST_PLACES_OF_PUT = 28
TEMPLATES = frozenset(("substitute", "safe_substitute"))
MAKERS_OF_MODULES = frozenset("deque defaultdict OrderedDict Counter StringIO BytesIO".split())
MAKERS = MAKERS_OF_MODULES | frozenset("dict list set bytearray".split())
OPERATORS = {
    "operator.setitem": "__setitem__", "operator.getitem": "__getitem__", "operator.delitem": "__delitem__",
    "operator.contains": "__contains__",
}
"""Functions that do what a method of their first argument does."""
CALLED_BY_OTHERS = frozenset((
    *OF_ATTRIBUTES,
    *"vars len sum min max any all next iter sorted list tuple set frozenset dict str repr bool".split(),
))
"""Functions of the language that are handed on, as `map(len, rows)` does, and look at what they are called with."""
LETTING_GO = frozenset("next setattr delattr".split())
"""Functions of the language that may have the program let go of something."""
OF_SYSTEM = frozenset(("os.environ", "sys.path", "sys.argv", "sys.modules"))
"""Containers of the library that programs change."""
GIVERS = frozenset("getattr next vars globals max min iter reversed".split())
"""Functions of the language that may give what is there already."""
CONTAINER_CLASSES = frozenset(
    f"collections.{name}" for name in "deque defaultdict OrderedDict Counter UserDict UserList".split()
)
DISPLAYS = frozenset((ast.Dict, ast.List, ast.Set, ast.DictComp, ast.ListComp, ast.SetComp))
ROWS = frozenset((ast.Tuple, ast.List))
VIEWS = frozenset(("items", "keys", "values"))
SIMPLE = frozenset((ast.Constant, ast.Name))
REACHED = frozenset((ast.Name, ast.Attribute, ast.Subscript))
GIVEN = REACHED | {ast.Call, ast.IfExp, ast.BoolOp, ast.NamedExpr, ast.Await}
"""What may give something that others can reach."""
GIVEN_OR_STARRED = GIVEN | {ast.Starred}
SHOWN_ARGUMENTS = GIVEN | {ast.List, ast.Tuple, ast.Dict}
COMPARED_AS_A_WHOLE = DISPLAYS | {ast.Tuple}
ASKED_FOR_TRUTH = REACHED | {ast.Call, ast.NamedExpr}
WORDS_OF_TYPE = 3
"""With so many words `type` makes a class, which has a copy of the last one."""
JOINING = frozenset((ast.Add, ast.Sub, ast.BitOr, ast.BitAnd, ast.BitXor))
"""Operators that make a container of two others."""
NUMBERS = (int, float, complex)
IN_PLACE: dict[type[ast.operator], str] = {
    ast.Add: ADDITION, **dict.fromkeys((ast.Mult, ast.BitOr, ast.BitAnd, ast.BitXor, ast.Sub), REWRITE),
}


Preparing = Callable[[ast.Module, bytes, str], None]
"""What somebody else does to a module's tree first."""


def rewritten(
    source: bytes | str, file: str, module: str, is_watched: Callable[[str], bool], prepare: Preparing | None = None,
) -> CodeType:
    """The module's code with hooks, whose places are known from here on."""
    learned = Learned(is_watched)
    return placed(written(source, file, module, learned, prepare), learned.found(), file, module)


def written(
    source: bytes | str, file: str, module: str, learned: Learned, prepare: Preparing | None = None,
) -> CodeType:
    """The code with hooks, whose places have no numbers of the process yet."""
    tree = tree_of_text(source, file)
    if prepare is not None:
        prepare(tree, source if isinstance(source, bytes) else source.encode(), file)
        with_ends(tree)
    mark_undoing(tree)
    made = Rewriter(Scopes(tree, learned), file).module(tree)
    if held_lines.has_lines(file):
        held_lines.rename_hooks(made, file, PREFIX)
    return on_stack.with_copies(compiled(made, file))


def _is_new(value: Any) -> bool:
    """Whether the expression makes a container."""
    if type(value) is not ast.Call:
        return type(value) in DISPLAYS
    func = value.func
    if type(func) is ast.Attribute:
        return func.attr in MAKERS_OF_MODULES
    return type(func) is ast.Name and func.id in MAKERS


def _is_super(node: Any) -> bool:
    return type(node) is ast.Call and type(node.func) is ast.Name and node.func.id == "super" and not node.args


def _makes(node: ast.Assign) -> bool:
    if type(node.value) is not ast.Tuple:
        return _is_new(node.value) and type(node.targets[0]) in REACHED
    pairs = _pairs_of(node) or [(node.targets[0], node.value)]
    return any(type(target) in REACHED and _is_new(value) for target, value in pairs)


def _pairs_of(node: ast.Assign) -> list[tuple[Any, Any]]:
    """The targets and the values of an assignment of several at once, as `a, b = [], {}`. None of another one."""
    target: Any = node.targets[0]
    value = node.value
    if type(value) is not ast.Tuple:
        return []
    is_paired = type(target) in ROWS and len(target.elts) == len(value.elts)
    pairs = [*zip(target.elts, value.elts)] if is_paired else []
    return [] if any(type(one) is ast.Starred for pair in pairs for one in pair) else pairs


class Rewriter:
    """Rewrites one module.

    An expression and a simple statement stay as they are, since each may stand there twice. What is rewritten is a copy
    of its own, which shares with them what has no hooks. Compound statements stand there once, and are changed in
    place.
    """

    def __init__(self, scopes: Scopes, file: str) -> None:
        self._scopes = scopes
        self._learned = scopes.learned
        self._file = file
        self._scope: Scope = scopes.module
        self._hooks = 0
        self._wanted = 0
        """So many hooks want the object whose method is called, and do not have it yet."""
        self._is_guarding = False
        self._undoes = ""
        """How the statement that is rewritten goes with an earlier change, if it does."""
        self._before: list[ast.stmt] = []
        self._after: list[ast.stmt] = []
        self._has_texts_of_annotations = scopes.module.imported.get("annotations") == "__future__.annotations"
        self._patterns = Patterns(
            self._learned, self._site, self._text, lambda name: self._scope.owner(name).kind == MODULE,
        )
        self._iterated_by_loops: set[tuple[int, int]] = set()
        """Where stands what loops of the program itself go through."""

    def module(self, tree: ast.Module) -> ast.Module:
        tree.body = self._statements(tree.body)
        self._scopes.note_texts()
        del self._patterns  # It refers to this object, which would have the tree wait for the collector.
        return tree

    # Sites and hooks

    def _site(self, node: Any, what: str, kinds: str, name: str = "", text: str = "", words: Any = None) -> int:
        return self._learned.new_site(
            node.lineno, self._scope.name or "<module>", what, kinds, name, text, words, self._undoes,
        )

    def _hook(self, name: str, node: ast.AST, *words: Any) -> ast.Call:
        self._hooks += 1
        if self._scope.kind is CLASS:
            self._scope.hooks.add(PREFIX + name)
        return call_of(PREFIX + name, words, node)

    def _is_on(self, node: ast.AST) -> ast.Name:
        if self._scope.kind is CLASS:
            self._scope.hooks.add(ON)
        return name_at(node, ON)

    def _choice(self, hooked: ast.expr, node: Any) -> ast.expr:
        """The hooked expression while hooks are on, else the one that stood there."""
        return new_node(ast.IfExp, {"test": self._is_on(node), "body": hooked, "orelse": node, **place_of(node)})

    def _operand(self, node: Any, hook: str, *words: Any) -> ast.expr:
        """The expression, passed through a hook."""
        name = self._named_for(hook, node)
        if name == "before_attribute_of_new":
            words = (*words, self._scope.constructor)
        if not self._is_guarding:
            return self._hook(name, node, self._visit(node), *words)
        if node.inside & SCOPED:
            return self._hook(name, node, self._child(node), *words)
        return self._choice(self._hook(name, node, self._raw(node), *words), node)

    def _named_for(self, hook: str, node: Any) -> str:
        """The hook of a variable that only its function has, and of the object that a constructor makes."""
        if not self._is_local(node):
            return hook
        if hook == "before_attribute" and node.id == self._scope.made:
            return "before_attribute_of_new"
        return hook + "_local"

    def _key_of(self, owner: Any, key: Any, site: int) -> ast.expr:
        """The key, passed through a hook with the variable that has the container."""
        name = "before_key_local" if self._is_local(owner) else "before_key"
        return self._hook(name, key, owner, self._child(key), site)

    def _behind(self, hook: str, owner: Any, made: Any, site: int) -> ast.expr:
        """A value that was visited already, passed through a hook with the variable that it goes to."""
        name = hook + "_local" if self._is_local(owner) else hook
        return self._hook(name, made, made, owner, site)

    def _raw(self, node: Any) -> Any:
        before, self._is_guarding = self._is_guarding, False
        made = self._visit(node)
        self._is_guarding = before
        return made

    def _child(self, node: Any) -> Any:
        return self._guarded(node) if self._is_guarding else self._visit(node)

    def _guarded(self, node: Any, visit: Callable[[Any], Any] | None = None) -> Any:
        """An expression of a statement that stands there once.

        Each part without scopes of its own stands there twice.
        """
        visit = visit or self._visit
        before = self._is_guarding, self._hooks
        is_whole = not node.inside & SCOPED and type(node) is not ast.Starred
        self._is_guarding = not is_whole
        made = visit(node)
        self._is_guarding = before[0]
        if not is_whole or self._hooks == before[1] or type(getattr(node, "ctx", LOAD)) is not ast.Load:
            return made
        return self._choice(made, node)

    # Names

    def _mangled(self, name: str) -> str:
        if not name.startswith("__") or name.endswith("__"):
            return name
        owner = self._scope.class_name
        return name if owner is None else f"_{owner.lstrip('_')}{name}"

    def _is_shared(self, name: str) -> bool:
        known = self._scope.shared.get(name)
        if known is None:
            known = self._scope.shared[name] = self._scopes.may_be_shared(self._scope, name)
        return known

    def _is_local(self, node: Any) -> bool:
        """Whether it is a variable that only its own function can see."""
        if type(node) is not ast.Name:
            return False
        known = self._scope.local.get(node.id)
        if known is None:
            owner = self._scope.owner(node.id)
            is_of_function = owner.kind in (FUNCTION, COMPREHENSION)
            known = self._scope.local[node.id] = is_of_function and node.id not in owner.captured
        return known

    def _is_simple(self, node: Any) -> bool:
        """Whether it may be looked at twice, and gives the same without any code of the program."""
        if type(node) is ast.UnaryOp and type(node.op) is ast.USub:
            node = node.operand
        return type(node) is ast.Constant or self._is_variable(node)

    def _is_variable(self, node: Any) -> bool:
        """Whether it is a variable that may be looked at twice.

        The namespace of a class may be one of the program's own, which tells what it is asked for.
        """
        return type(node) is ast.Name and self._scope.kind is not CLASS

    def _import_of(self, node: Any) -> str | None:
        """The dotted name of what is imported and not bound to anything else.

        What hooks stand in has none: the program may change it.
        """
        first = node
        while type(first) is ast.Attribute:
            if getattr(first, "has_hooks", False):
                return None
            first = first.value
        if type(first) is not ast.Name:
            return None
        known = self._scope.dotted.get(first.id)
        if known is None:
            owner = self._scope.owner(first.id)
            is_import = first.id in owner.imported and owner.bound.get(first.id) == 1
            known = self._scope.dotted[first.id] = owner.imported[first.id] if is_import else ""
        if not known:
            return None
        fields = ""
        while node is not first:
            fields = f".{node.attr}{fields}"
            node = node.value
        return known + fields

    def _is_foreign(self, node: Any) -> bool:
        """Whether it is of a module that is not watched, or of the language."""
        kind = type(node)
        if kind is ast.Name:
            known = self._scope.foreign.get(node.id)
            if known is None:
                is_import = node.id in self._scope.owner(node.id).imported
                is_foreign = self._is_builtin(node.id) or is_import and self._is_of_foreign_module(node)
                known = self._scope.foreign[node.id] = is_foreign
            return known
        if kind is ast.Attribute:
            return self._is_of_foreign_module(node)
        return kind is ast.Constant or kind is ast.Call and type(node.func) is ast.Name and node.func.id == "super"

    def _is_of_foreign_module(self, node: Any) -> bool:
        name = self._import_of(node)
        return name is not None and not name.startswith(".") and not self._learned.is_watched(name)

    def _is_foreign_container(self, node: Any) -> bool:
        """The same of what is looked at as a container, which a module of the library may well have."""
        if not self._is_foreign(node):
            return False
        return type(node) is not ast.Attribute and self._import_of(node) not in OF_SYSTEM

    def _is_builtin(self, name: str) -> bool:
        known = self._scope.builtin.get(name)
        if known is None:
            owner = self._scope.owner(name)
            is_free = owner.kind is MODULE and name not in owner.bound
            known = self._scope.builtin[name] = is_free and self._learned.is_builtin(name)
        return known

    def _text(self, node: Any) -> str:
        """How a person would write it, in short. `self` is known by its class."""
        kind = type(node)
        if kind is ast.Name:
            return (self._scope.class_name if node.id in OF_METHODS else None) or node.id
        if kind is ast.Attribute:
            return f"{self._text(node.value)}.{node.attr}"
        if kind is ast.Subscript:
            inside = repr(node.slice.value) if type(node.slice) is ast.Constant else ".."
            return f"{self._text(node.value)}[{inside}]"
        func = node.func if kind is ast.Call else None
        if type(func) is ast.Attribute and func.attr in TAKING and node.args:
            inside = repr(node.args[0].value) if type(node.args[0]) is ast.Constant else ".."
            whole = self._text(func.value)
            return f"{whole}[{inside}]" if whole else ""
        return ""

    def _variable(self, node: Any, name: str, kinds: str) -> ast.expr:
        """A hook that notes a touch of a variable, and gives None."""
        owner = self._scope.owner(name)
        line = owner.first_lines.get(name)
        made = "" if line is None else f"a variable made at {os.path.basename(self._file)}:{line}"
        site = self._site(node, "variable", kinds, name, made)
        if owner.kind == MODULE:
            return self._hook("at_variable", node, site)
        empty = ast.arguments(posonlyargs=[], args=[], kwonlyargs=[], kw_defaults=[], defaults=[])
        looked = ast.Lambda(empty, name_at(node, name))
        return self._hook("at_cell", node, ast.copy_location(looked, node), site)

    def _bindings(self, target: Any) -> Iterator[ast.Name]:
        whole = target
        while type(whole) is ast.Attribute or type(whole) is ast.Subscript and type(whole.slice) in SIMPLE:
            whole = whole.value
        if type(whole) is ast.Name and whole is not target:
            return  # Nothing is bound but a field or an element.
        for one in [target] if type(target) is ast.Name else ast.walk(target):
            if type(one) is ast.Name and type(one.ctx) is not ast.Load and self._is_shared(one.id):
                yield one

    def _stores(self, targets: list[Any], node: Any, kinds: str = "w") -> list[ast.stmt]:
        """Statements that note that these variables were written."""
        bound = [one for target in targets for one in self._bindings(target)]
        states = [state for target in targets for state in self._states_of_target(target, node)]
        return [as_statement(one, node) for one in (*[self._variable(one, one.id, kinds) for one in bound], *states)]

    def _stored(self, names: list[str], node: ast.AST) -> list[ast.stmt]:
        """The same for names that are bound by a definition, an import, a handler or a pattern."""
        made: list[ast.stmt] = [
            as_statement(self._variable(node, name, "w"), node) for name in names if self._is_shared(name)
        ]
        return self._only_on(made, node)

    def _only_on(self, statements: list[ast.stmt], node: ast.AST) -> list[ast.stmt]:
        return [chosen(self._is_on(node), statements, [], node)] if statements else []

    # Statements

    def _statements(self, body: list[Any]) -> list[ast.stmt]:
        if quick is None:
            return [made for before, one in zip([None, *body], body) for made in self._behind_block(before, one)]
        return [made for one in body for made in self._statement(one)]

    def _behind_block(self, before: Any, node: Any) -> list[ast.stmt]:
        """A statement. The end of a block before it may let go of something that the hooks in Python hold."""
        if not isinstance(before, _BLOCKS) or isinstance(node, _OWN_CODE):
            return self._statement(node)
        hook = as_statement(self._hook("after_letting_go", node), node)
        return [*self._only_on([hook], node), *self._statement(node)]

    def _statement(self, node: Any) -> list[ast.stmt]:
        kind = type(node)
        simple = _SIMPLE.get(kind)
        if simple is None:
            compound = _COMPOUND.get(kind)
            return [node] if compound is None else compound(self, node)
        before_hooks, self._before, self._after = self._hooks, [], []
        is_twice = not node.inside & SCOPED and kind is not ast.AnnAssign and not (kind is ast.Assign and _makes(node))
        self._is_guarding = not is_twice
        self._undoes = getattr(node, "undoes", "")
        made = simple(self, copied(node))
        self._is_guarding, self._undoes = False, ""
        if self._hooks == before_hooks:
            return [node]
        if is_twice:
            return [chosen(self._is_on(node), [*self._before, made, *self._after], [node], node)]
        return [*self._only_on(self._before, node), made, *self._only_on(self._after, node)]

    def _do_Import(self, node: Any) -> list[ast.stmt]:
        passed_over.look_at_import(node, self._learned)
        if type(node) is ast.ImportFrom and node.module == "__future__":
            return [node]  # No other statement may stand before the next one of these.
        return [node, *self._stored([one.asname or one.name.partition(".")[0] for one in node.names], node)]

    def _do_ImportFrom(self, node: ast.ImportFrom) -> list[ast.stmt]:
        """What a name is imported from is looked at, as its variable is."""
        made = self._do_Import(node)
        names = tuple([one.name for one in node.names if self._learned.is_stored_elsewhere(one.name)])
        whole = "." * node.level + (node.module or "")
        if not names or not (node.level or self._learned.is_watched(whole)):
            return made
        hook = self._hook("after_import", node, whole, names, self._site(node, "field", READ))
        return [*made, *self._only_on([ast.copy_location(ast.Expr(hook), node)], node)]

    def _simple_Assign(self, node: ast.Assign) -> ast.stmt:
        pairs = _pairs_of(node)
        if pairs and any(_is_new(value) for _, value in pairs):
            values: Any = copied(node.value)
            values.elts = [self._made_or_visited(value, target) for target, value in pairs]
            node.value = values
            self._store_targets(node)
            return node
        value: Any = node.value
        passed_over.look_at_kept(node, self._learned, self._is_of_foreign_module)
        if self._scope.kind is CLASS:
            passed_over.look_at_special(node, self._learned, self._is_container_class)
        is_put = len(node.targets) == 1 and type(node.targets[0]) is ast.Subscript and not _is_slice(node.targets[0])
        places = self._places_of_put(node.value) if is_put else None
        node.value = self._made(node.value, node.targets[0])
        if not _is_hook(node.value):
            is_apart = any([type(target) in ROWS or _is_slice(target) for target in node.targets])
            node.value = self._whole(node.value, KEYS) if is_apart else self._child(node.value)
        node.value = self._kept_by(node.targets[0], value, self._with_put(node.value, places))
        self._store_targets(node)
        is_none = type(node.value) is ast.Constant and node.value.value is None
        if is_none or quick is None and self._may_replace(node):
            self._after.append(as_statement(self._hook("after_letting_go", node), node))
        return node

    def _may_replace(self, node: ast.Assign) -> bool:
        """Whether an assignment may let go of what was there before."""
        return any(
            type(one) is not ast.Name or self._scope.owner(one.id).bound.get(one.id, 0) != 1 for one in node.targets
        )

    def _store_targets(self, node: ast.Assign) -> None:
        targets = node.targets
        node.targets = [self._child(target) for target in targets]
        self._after += self._stores(targets, node)

    def _made_or_visited(self, value: Any, target: Any) -> Any:
        """One of several values of an assignment."""
        made = self._made(value, target)
        return self._child(value) if made is value else made

    def _simple_AnnAssign(self, node: ast.AnnAssign) -> ast.stmt:
        if self._scope.kind in (CLASS, MODULE) and not self._has_texts_of_annotations:
            node.annotation = self._child(node.annotation)
        if node.value is None:
            return node
        target = node.target
        value = self._made(node.value, target)
        node.value = value if _is_hook(value) else self._child(value)
        node.target = self._child(target)
        self._after += self._stores([target], node)
        return node

    def _simple_AugAssign(self, node: ast.AugAssign) -> ast.stmt:
        target = node.target = copied(node.target)
        is_late = node.value.inside & LATE != 0  # type: ignore[attr-defined]
        if type(target) is ast.Name:
            if self._is_shared(target.id):
                self._before.append(as_statement(self._variable(target, target.id, "r"), node))
                self._after += self._stores([target], node)
            if self._is_in_place(node):
                kind = IN_PLACE[type(node.op)]
                is_update = type(node.op) is ast.BitOr and self._is_variable(target)
                words = (*IN_PLACE_METHODS[kind], UPDATES) if is_update else IN_PLACE_METHODS[kind]
                self._note_in_place(node, target, self._site(node, "whole", kind, "", self._text(target), words))
                if is_update:
                    value, site = node.value, self._site(node, "whole", kind, "", self._text(target))
                    node.value = self._hook("before_update", value, value, name_at(value, target.id), site)
            else:
                node.value = self._added(node)
        elif type(target) is ast.Attribute:
            self._augment_attribute(node, target, is_late)
        elif type(target) is ast.Subscript:
            self._augment_subscript(node, target, is_late)
        return node

    def _note_in_place(self, node: ast.AugAssign, target: ast.Name, site: int) -> None:
        """Notes that a container is changed, before what is added to it is worked out."""
        if self._is_variable(target):
            hook = self._hook(self._named_for("before_whole", target), node, name_at(target, target.id), site)
            self._before.append(as_statement(hook, node))
            node.value = self._added(node)
        else:
            hook = self._hook("before_whole", node, on_stack.copy(on_stack.ADDED_TO, node.value), site)
            node.value = self._hook("after_call", node.value, hook, self._added(node))

    @staticmethod
    def _is_in_place(node: ast.AugAssign) -> bool:
        """Whether a container may be changed.

        No number can be added to one, and it can be multiplied by a whole one alone.
        """
        value = node.value.value if type(node.value) is ast.Constant else None
        is_number = type(value) in (NUMBERS[1:] if type(node.op) is ast.Mult else NUMBERS)
        return type(node.op) in IN_PLACE and not is_number

    def _added(self, node: ast.AugAssign) -> Any:
        """What an assignment as `+=` adds, which is looked at if it is a container."""
        return self._whole(node.value, ITERATION) if self._is_in_place(node) else self._child(node.value)

    def _augment_attribute(self, node: ast.AugAssign, target: ast.Attribute, is_late: bool) -> None:
        owner: Any = target.value
        name, text = self._mangled(target.attr), self._text(target)
        if target.attr == "__dict__":
            target.value = self._operand(owner, "before_new_fields", self._site(node, "field", "w"))
            node.value = self._added(node)
            return
        in_place = IN_PLACE[type(node.op)] if self._is_in_place(node) else ""
        if not is_late:
            target.value = self._operand(owner, "before_attribute", self._site(node, "field", "rw", name, in_place))
            node.value = self._added(node)
            return
        reads = self._site(node, "field", "r", name, in_place)
        writes = self._site(node, "field", "w", name, text)
        if self._is_variable(owner):
            target.value = self._operand(owner, "before_attribute", reads)
            node.value = self._behind("after_value", owner, self._added(node), writes)
        else:
            target.value = self._operand(owner, "before_attribute", reads)
            kept = on_stack.copy(on_stack.FIELD_ADDED_TO, node.value)
            node.value = self._hook("after_value", node.value, self._added(node), kept, writes)

    def _augment_subscript(self, node: ast.AugAssign, target: ast.Subscript, is_late: bool) -> None:
        owner: Any = target.value
        text = self._text(owner)
        if type(target.slice) is ast.Slice:
            target.value = self._operand(owner, "before_whole", self._site(node, "whole", REWRITE, "", text))
            target.slice, node.value = self._child(target.slice), self._added(node)
            return
        if not is_late:
            in_place = IN_PLACE[type(node.op)] if self._is_in_place(node) else ""
            self._element(target, self._site(node, "element", "rw", "", text, in_place))
            node.value = self._added(node)
            return
        key: Any = target.slice
        reads, writes = self._site(node, "element", "r", "", text), self._site(node, "element", "w", "", text)
        if self._is_variable(owner) and self._is_simple(key):
            self._element(target, reads)
            node.value = self._hook("after_value_of_element", node.value, self._added(node), owner, key, writes)
        else:
            self._element_on_stack(target, reads)
            kept = [on_stack.copy(form, node.value) for form in (on_stack.ITEM_ADDED_TO, on_stack.KEY_ADDED_TO)]
            node.value = self._hook("after_value_of_element", node.value, self._added(node), *kept, writes)

    def _simple_Delete(self, node: ast.Delete) -> ast.stmt:
        targets = node.targets
        node.targets = [self._child(target) for target in targets]
        self._after += self._stores(targets, node)
        self._after.append(as_statement(self._hook("after_letting_go", node), node))
        return node

    def _simple_Assert(self, node: ast.Assert) -> ast.stmt:
        node.test = self._truth(node.test)
        if node.msg is not None:
            node.msg = self._child(node.msg)
        return node

    def _simple_Raise(self, node: ast.Raise) -> ast.stmt:
        """An exception that others may have is changed as it is raised. What its function alone has is none."""
        one: Any = node.exc
        owner = self._scope.owner(one.id) if self._is_local(one) else None
        is_own = owner is not None and one.id not in owner.parameters | owner.taken
        if type(one) in REACHED and not is_own:
            names = (OF_CAUSE if node.cause is not None else ()) + OF_RAISE
            site = self._site(one, "raised", "w", names[0], "")
            node.exc = self._hook("before_raise", one, self._child(one), names, site)
        elif one is not None:
            node.exc = self._child(one)
        if node.cause is not None:
            node.cause = self._child(node.cause)
        return node

    def _made(self, value: Any, target: Any) -> Any:
        """A new container, passed through a hook that keeps where it was made, and for which name."""
        if not _is_new(value) or type(target) not in REACHED:
            return value
        is_variable_of_class = type(target) is ast.Name and self._scope.kind == CLASS
        name = f"{self._scope.class_name}.{self._text(target)}" if is_variable_of_class else self._text(target)
        return self._hook("after_making", value, self._child(value), self._site(value, "made", "", "", name))

    # Compound statements

    def _in_scope(self, node: Any, work: Callable[[], None]) -> None:
        before = self._scope
        self._scope = node.scope
        work()
        self._scope = before

    def _do_FunctionDef(self, node: Any) -> list[ast.stmt]:
        node.scope.is_cached = any([self._is_cache(one) for one in node.decorator_list])
        node.decorator_list = [self._guarded(one, self._handed) for one in node.decorator_list]
        self._visit_defaults(node.args)
        self._visit_annotations(node)

        def work() -> None:
            node.body = self._statements(node.body)

        is_constructor = node.name == "__init__" and self._scope.kind == CLASS
        first = next(iter((*node.args.posonlyargs, *node.args.args)), None)
        if self._scope.kind == CLASS and first is not None:
            node.scope.first = first.arg
        if is_constructor and first is not None:
            node.scope.made, node.scope.constructor = first.arg, self._site(node, "constructor", "")
        self._in_scope(node, work)
        if is_constructor and first is not None:
            self._note_making(node, first.arg, node.scope.constructor)
        if node.name == FINALIZER and self._scope.kind == CLASS and first is not None:
            self._note_letting_go(node, first.arg)
        return [node, *self._stored([node.name], node)]

    _do_AsyncFunctionDef = _do_FunctionDef

    def _is_cache(self, decorator: Any) -> bool:
        """Whether the results of a function are kept by a decorator of `functools`, which hands them to others."""
        return self._import_of(decorator.func if type(decorator) is ast.Call else decorator) in CACHES

    def _simple_Return(self, node: ast.Return) -> Any:
        if self._scope.is_cached and node.value is not None:
            node.value = self._put(node.value)
            return node
        return self._generic(node)

    def _note_making(self, node: ast.FunctionDef, name: str, constructor: int) -> None:
        """Has a constructor tell where it was called."""
        place = 1 if ast.get_docstring(node, clean=False) is not None else 0
        at = node.body[min(place, len(node.body) - 1)]
        call = self._hook("at_constructor", at, name_at(at, name), constructor)
        node.body.insert(place, as_statement(call, at))

    def _note_letting_go(self, node: ast.FunctionDef, name: str) -> None:
        """Has a finalizer tell that nobody else has the object."""
        place = 1 if ast.get_docstring(node, clean=False) is not None else 0
        at = node.body[min(place, len(node.body) - 1)]
        call = as_statement(self._hook("at_finalizer", at, name_at(at, name)), at)
        node.body[place:place] = self._only_on([call], at)

    def _visit_defaults(self, arguments: ast.arguments) -> None:
        arguments.defaults = [self._guarded(one) for one in arguments.defaults]
        arguments.kw_defaults = [None if one is None else self._guarded(one) for one in arguments.kw_defaults]

    def _visit_annotations(self, node: Any) -> None:
        """What is written behind arguments is looked at when a function is defined, unless it is kept as a text."""
        if self._has_texts_of_annotations:
            return
        for one in arguments_of(node.args):
            if one.annotation is not None:
                one.annotation = self._guarded(one.annotation)
        if node.returns is not None:
            node.returns = self._guarded(node.returns)

    def _do_ClassDef(self, node: ast.ClassDef) -> list[ast.stmt]:
        passed_over.look_at_bases([self._import_of(one) for one in node.bases], node.lineno, self._learned)
        node.decorator_list = [self._guarded(one, self._handed) for one in node.decorator_list]
        node.bases = [self._guarded(one) for one in node.bases]
        for keyword in node.keywords:
            keyword.value = self._guarded(keyword.value)

        def work() -> None:
            node.body = self._statements(node.body)

        self._in_scope(node, work)
        self._keep_from_namespace(node)
        return [node, *self._stored([node.name], node)]

    def _keep_from_namespace(self, node: ast.ClassDef) -> None:
        """Has the body of a class look for its hooks behind its namespace, which may be one of the program's own."""
        hooks = node.scope.hooks  # type: ignore[attr-defined]
        if hooks:
            place = 0 if ast.get_docstring(node, clean=False) is None else 1
            node.body.insert(place, at(node.body[place - 1], ast.Global(sorted(hooks))))

    def _do_If(self, node: Any) -> list[ast.stmt]:
        node.test = self._guarded(node.test, self._truth)
        node.body, node.orelse = self._statements(node.body), self._statements(node.orelse)
        return [node]

    _do_While = _do_If

    def _asked_if_begun(self, node: Any, place: Any, whole: Any) -> Callable[[int], ast.expr] | None:
        """Asks whether a loop began before there was a second task, and if so notes a step of it.

        What it goes through is on the stack, below so many other values. None, if it goes through nothing that is
        shared.
        """
        iterated = node.iter
        self._iterated_by_loops.add((iterated.lineno, iterated.col_offset))
        is_shared = type(iterated) in GIVEN and not self._is_foreign_container(iterated)
        if not is_shared or _function_of(iterated) == "range":
            return None
        site = self._site(iterated, "whole", KEYS, "", self._text(self._gone_through_by(iterated)))
        self._learned.loops.append((site, whole.lineno, whole.end_lineno or whole.lineno))
        if self._scope.kind is CLASS:
            self._scope.hooks.add(LOOPS)
        loops = name_at(place, LOOPS)
        is_one = at(place, ast.Compare(at(place, ast.Constant(site)), [ast.In()], [loops]))

        def asked(further: int) -> ast.expr:
            step = self._hook("at_step", place, on_stack.copy(on_stack.OF_LOOP, place, further), site)
            return at(place, ast.BoolOp(ast.And(), [loops, is_one, step]))

        return asked

    def _gone_through_by(self, node: Any) -> Any:
        """The container that a view of it, or one of the language's own iterators, goes through."""
        if type(node) is ast.Call and type(node.func) is ast.Attribute and node.func.attr in VIEWS:
            return node.func.value
        is_iterator = _function_of(node) in ("enumerate", "zip", "iter", "reversed")
        return node.args[0] if is_iterator and node.args else node

    def _asynchronous_iteration(self, node: Any) -> Any:
        """What a loop of `async for` goes through. One that is a generator goes on there."""
        return self._whole(node, KEYS)

    def _do_For(self, node: Any) -> list[ast.stmt]:
        target = node.target
        body: list[Any] = node.body
        is_calling = type(node) is ast.For and any(one.inside & LATE for one in body)
        asked = self._asked_if_begun(node, node.body[-1], node) if is_calling else None
        if type(node) is ast.For:
            node.iter = self._gone_through(node.iter, target)
        else:
            node.iter = self._guarded(node.iter, self._asynchronous_iteration)
        node.target = self._visit_target(target)
        made = self._bind_and_go_on(node, [target])
        if asked is not None:
            node.body = [*_before_continue(node.body, asked, 0), as_statement(asked(0), node.body[-1])]
        return made

    _do_AsyncFor = _do_For

    def _bind_and_go_on(self, node: Any, targets: list[Any]) -> list[ast.stmt]:
        """Notes what a compound statement binds, and visits its bodies."""
        stores = self._only_on(self._stores(targets, targets[0]) if targets else [], node)
        node.body = [*stores, *self._statements(node.body)]
        if hasattr(node, "orelse"):
            node.orelse = self._statements(node.orelse)
        return [node]

    def _visit_target(self, target: Any) -> Any:
        before, self._is_guarding = self._is_guarding, True
        made = self._visit(target)
        self._is_guarding = before
        return made

    def _state_of_context(self, item: ast.withitem) -> tuple[str, str] | None:
        """What the library keeps for all threads, if this changes it for as long as the block lasts."""
        one = item.context_expr
        name = self._import_of(one.func) if type(one) is ast.Call else None
        return touched_by(name, len(one.args)) if name is not None and type(one) is ast.Call else None

    def _do_With(self, node: Any) -> list[ast.stmt]:
        states = [state for state in map(self._state_of_context, node.items) if state is not None]
        for item in node.items:
            item.context_expr = self._guarded(item.context_expr)
        binding = [item for item in node.items if item.optional_vars is not None]
        targets = [item.optional_vars for item in binding]
        for item in binding:
            item.optional_vars = self._visit_target(item.optional_vars)
        left = [ast.copy_location(ast.Expr(self._state(node, thing, kinds)), node) for thing, kinds in states]
        return [*self._bind_and_go_on(node, targets), *self._only_on([*left], node)]

    _do_AsyncWith = _do_With

    def _do_Try(self, node: Any) -> list[ast.stmt]:
        node.body = self._statements(node.body)
        for handler in node.handlers:
            if handler.type is not None:
                handler.type = self._guarded(handler.type)
            bound = self._stored([handler.name], handler) if handler.name else []
            handler.body = [*bound, *self._statements(handler.body)]
        node.orelse, node.finalbody = self._statements(node.orelse), self._statements(node.finalbody)
        return [node]

    _do_TryStar = _do_Try

    def _do_Match(self, node: ast.Match) -> list[ast.stmt]:
        site = self._patterns.site_of(node)
        visit = None if site is None else lambda subject: self._operand(subject, "before_match", site)
        node.subject = self._guarded(node.subject, visit)
        for case in node.cases:
            if case.guard is not None:
                case.guard = self._guarded(case.guard, self._truth)
            case.body = [*self._bound_by(case), *self._statements(case.body)]
        return [node]

    def _bound_by(self, case: ast.match_case) -> list[ast.stmt]:
        """Statements that note which variables a pattern has bound. With a guard they are bound before it."""
        parts = [*ast.walk(case.pattern)]
        names = [name for one in parts for name in (getattr(one, "name", None), getattr(one, "rest", None)) if name]
        if case.guard is None:
            return self._stored(names, case.body[0])
        for name in names:
            if self._is_shared(name):
                case.guard = self._behind_note(case.guard, name, "w")
        return []

    # Expressions

    def _visit(self, node: Any) -> Any:
        """The expression as it is with hooks: a copy, or the same one if nothing is inside of it."""
        kind = type(node)
        if kind is ast.Constant:
            return node
        if kind is ast.Name:
            is_touched = type(node.ctx) is ast.Load and self._is_shared(node.id)
            return self._behind_note(node, node.id, "r") if is_touched else node
        visit = _VISITS.get(kind)
        if visit is None:
            visit = _VISITS[kind] = getattr(Rewriter, f"_visit_{kind.__name__}", Rewriter._generic)
        if kind is not ast.Attribute:
            return visit(self, copied(node))
        before = self._hooks
        made = visit(self, copied(node))
        node.has_hooks = self._hooks != before
        return made

    def _generic(self, node: Any) -> Any:
        for name in FIELDS[type(node)]:
            one = getattr(node, name, None)
            if isinstance(one, ast.expr):
                setattr(node, name, self._child(one))
            elif one and type(one) is list:
                setattr(node, name, [self._inner(child) for child in one])
        return node

    def _inner(self, node: Any) -> Any:
        """One of several parts. A keyword is no expression itself, but has one."""
        if isinstance(node, ast.expr):
            return self._child(node)
        return self._keyword(node) if type(node) is ast.keyword else node

    def _keyword(self, node: ast.keyword, is_of_print: bool = False) -> ast.keyword:
        node = copied(node)
        if is_of_print and node.arg == "file" and type(node.value) in GIVEN and not self._is_foreign(node.value):
            site = self._site(node.value, "method", "", "write", self._text(node.value))
            node.value = self._operand(node.value, "before_method", site)
        elif node.arg == "key" and type(node.value) in GIVEN:
            node.value = self._handed(node.value)
        elif node.arg is None:
            node.value = self._whole(node.value, ITERATION)
        else:
            node.value = self._child(node.value)
        return node

    def _behind_note(self, node: ast.expr, name: str, kinds: str) -> ast.expr:
        """The expression, behind a hook that notes a touch of a variable."""
        return at(node, ast.BoolOp(ast.Or(), [self._variable(node, name, kinds), node]))

    def _visit_Attribute(self, node: ast.Attribute) -> ast.expr:
        thing = self._state_in(node) if type(node.ctx) is ast.Load else None
        if type(node.ctx) is not ast.Load or node.attr in passed_over.PAST_HOOKS:
            is_in_function, is_of_base = self._scope.kind is FUNCTION, _is_super(node.value)
            passed_over.look_at_attribute(node, self._learned, is_in_function, is_of_base, self._import_of(node.value))
        if node.attr == "__dict__":
            if is_kept(node):
                node.value = self._kept_fields(node.value)
            elif type(node.ctx) is ast.Load:
                node.value = self._operand(node.value, "before_fields")
            else:
                node.value = self._operand(node.value, "before_new_fields", self._site(node, "field", "w"))
        elif self._is_of_language(node.attr) or self._is_never_changed(node):
            node.value = self._child(node.value)
        else:
            self._touch_attribute(node)
        if thing is None or not self._learned.is_field(CHANGED_STATE + thing):
            return node
        return at(node, ast.BoolOp(ast.Or(), [self._state(node, thing, READ), node]))

    def _kept_fields(self, node: Any) -> ast.expr:
        """The object whose fields something may keep as a dictionary: it is known from then on whose they are."""
        return self._hook("before_fields", node, self._child(node))

    def _touch_attribute(self, node: ast.Attribute) -> None:
        kinds = "r" if type(node.ctx) is ast.Load else "w"
        words = DELETED if type(node.ctx) is ast.Del else None
        site = self._site(node, "field", kinds, self._mangled(node.attr), words=words)
        owner, node.value = node.value, self._operand(node.value, "before_attribute", site)
        if kinds == READ:
            self._note_registering(node)
        elif self._is_setting(MODULES_OF_FIELDS, node.attr):
            site = self._site(node, "whole", REPLACEMENT, "", self._text(owner))
            node.value = self._hook("before_setting", owner, node.value, node.attr, site)

    def _is_setting(self, modules: dict[str, frozenset[str]], name: str) -> bool:
        """Whether an object of the library may be one that has settings, by the name of a field or a method."""
        found = modules.get(name, ()) if self._scope.kind is FUNCTION else ()
        return any([self._learned.is_field(IMPORT_OF + module) for module in sorted(found)])

    def _note_registering(self, node: ast.Attribute) -> None:
        """Has a look at what is given a function or a class to be asked for later, while there are several tasks."""
        if node.attr == REGISTERING and self._scope.kind is FUNCTION:
            node.value = self._hook(
                "before_registering", node, node.value, self._site(node, "passed over", "", REGISTERING),
            )

    def _is_made_anew(self, owner: Any, first: Any) -> bool:
        """Whether a class of the language makes a container anew, which is not the one that a constructor makes."""
        is_new = type(first) is ast.Name and first.id == self._scope.made
        return self._is_container_class(owner) and not is_new

    def _kept_by(self, target: Any, value: Any, made: Any) -> Any:
        """A method of a container that is stored in an object, which may be one of the library that calls it."""
        if type(target) is not ast.Attribute or not passed_over.is_changing(value):
            return made
        owner: Any = target.value
        if not self._is_variable(owner) or owner.id in OF_METHODS or self._is_foreign(owner):
            return made
        site = self._site(value, "handed", "", value.attr)
        return self._hook("before_handed", value, made, name_at(value, owner.id), site)

    def _states_of_target(self, target: Any, node: Any) -> Iterator[ast.expr]:
        """Notes what the library keeps in variables of its modules which get a value here."""
        for one in [target] if type(target) is ast.Attribute else ast.walk(target) if type(target) in ROWS else ():
            thing = self._state_in(one) if type(one) is ast.Attribute and type(one.ctx) is not ast.Load else None
            if thing is not None:
                yield self._state(node, thing, "w")

    def _state_in(self, node: ast.Attribute) -> str | None:
        """What the library keeps in this attribute of one of its modules."""
        module = self._import_of(node.value)
        return None if module is None else kept_in(f"{module}.{node.attr}")

    def _state_stored_by(self, node: ast.Call) -> str | None:
        """The same of what `setattr` stores by a name that is written there."""
        if len(node.args) < 2 or not self._is_storing(node.func):
            return None
        module, name = self._import_of(node.args[0]), node.args[1]
        return None if module is None or type(name) is not ast.Constant else kept_in(f"{module}.{name.value}")

    def _is_storing(self, function: Any) -> bool:
        return type(function) is ast.Name and function.id in passed_over.STORING and self._is_builtin(function.id)

    def _stored_in(self, node: ast.Call) -> str | None:
        """The dotted name of what a function stores in by `setattr`. Nothing, if that is not imported."""
        if self._scope.kind != FUNCTION or not node.args or not self._is_storing(node.func):
            return None
        return self._import_of(node.args[0]) or ""

    def _is_of_language(self, name: str) -> bool:
        """Whether the language has an attribute of this name, and no module stores one."""
        return name.startswith("__") and name.endswith("__") and not (
            name in passed_over.STORED_AS_FIELDS and self._learned.is_field(name)
        )

    def _is_never_changed(self, node: ast.Attribute) -> bool:
        """Whether it is an attribute of what is not watched, which no source of the program stores.

        What `super()` finds is the program's.
        """
        if not self._is_foreign(node.value) or type(node.ctx) is not ast.Load:
            return False
        return not self._learned.is_stored_elsewhere(node.attr) and not self._is_super_of_any(node.value)

    def _visit_Subscript(self, node: ast.Subscript) -> ast.expr:
        kinds = "r" if type(node.ctx) is ast.Load else "d" if type(node.ctx) is ast.Del else "w"
        if self._is_foreign_container(node.value):
            return self._generic(node)  # type: ignore[no-any-return]
        if type(node.slice) is ast.Slice:
            whole, methods = ITERATION if kinds == "r" else REWRITE, METHODS_OF_SLICES[kinds]
            site = self._site(node, "whole", whole, "", self._text(node.value), methods)
            node.value = self._operand(node.value, "before_whole", site)
            node.slice = self._child(node.slice)
        else:
            self._element(node, self._site(node, "element", kinds, "", self._text(node.value)))
        return node

    def _element(self, node: ast.Subscript, site: int) -> None:
        """Notes a touch of an element, with the container and the key at hand."""
        owner: Any = node.value
        key: Any = node.slice
        if self._is_simple(key):
            node.value = self._operand(owner, "before_element", key, site)
            node.slice = self._child(key)
        elif self._is_variable(owner):
            node.value = self._child(owner)
            node.slice = self._key_of(owner, key, site)
        else:
            self._element_on_stack(node, site)

    def _element_on_stack(self, node: ast.Subscript, site: int) -> None:
        node.value = self._child(node.value)
        node.slice = self._key_behind(on_stack.copy(on_stack.ITEM, node.slice), node.slice, site)

    def _key_behind(self, kept: ast.expr, key: Any, site: int) -> ast.expr:
        """The key, passed through a hook with the container that is on the stack."""
        return self._hook("before_kept_key", key, kept, self._child(key), site)

    def _visit_Call(self, node: ast.Call) -> ast.expr:
        name = self._import_of(node.func)
        state = self._state_of_call(node, name)
        hook = None if state is None else self._state(node, *state)
        if passed_over.is_replacing(name):
            what = str(name).removeprefix("unittest.")
            hook = self._hook("at_passed_over", node, self._site(node, "passed over", "", what))
        is_held = quick is None and self._may_let_go(node.func)
        made = self._call(node, name)
        if is_held:
            made = self._hook("after_return", made, made)
        return made if hook is None else ast.copy_location(ast.BoolOp(ast.Or(), [hook, made]), node)

    def _may_let_go(self, function: Any) -> bool:
        """Whether a call may let go of something that the hooks in Python hold."""
        return type(function) is not ast.Name or function.id in LETTING_GO or not self._is_builtin(function.id)

    def _call(self, node: ast.Call, name: str | None) -> ast.expr:
        self._name_handed(node)
        passed_over.look_at_call(node, self._learned, self._is_builtin, name, self._stored_in(node))
        passed_over.look_at_handed(node, self._learned, self._is_foreign, name)
        made = None if name is None else self._call_imported(node, name)
        if made is not None:
            return made
        if type(node.func) is ast.Attribute:
            node.func = copied(node.func)
            return self._call_method(node, node.func)
        if type(node.func) is ast.Name and self._is_builtin(node.func.id):
            if not node.args and self._gives_variables(node.func.id):
                return self._hook("after_variables", node, node)
            self._arguments_of_builtin(node, node.func.id)
        else:
            node.func = self._handed(node.func)
            node.args = [self._child(one) for one in node.args]
        if node.keywords:
            is_print = self._is_print(node)
            node.keywords = [self._keyword(one, is_print) for one in node.keywords]
        return node

    def _gives_variables(self, name: str) -> bool:
        """Whether a function of this name gives the variables of the module."""
        return name == "globals" or name in OF_SCOPES and self._scope.kind is MODULE

    def _call_imported(self, node: ast.Call, name: str) -> ast.expr | None:
        """A call of a function of the library whose name tells what it does to its arguments.

        None, if it tells nothing.
        """
        if name in STEPPING:
            return self._call_stepping(node, name)
        if name == "os.getenv" and node.args and type(node.args[0]) is not ast.Starred:
            node.args = [self._child(one) for one in node.args]
            site = self._site(node, "method", "", "get", "os.environ")
            node.args[0] = self._hook("before_environment", node.args[0], node.args[0], site)
            return node
        if name == "operator.call" and node.args and type(node.args[0]) is not ast.Starred:
            node.args = [self._handed(node.args[0]), *map(self._child, node.args[1:])]
            node.keywords = [self._keyword(one) for one in node.keywords]
            return node
        if name == "inspect.getattr_static" and len(node.args) > 1:
            self._attribute_by_name(node, READ)
            return node
        known = known_function(name)
        if known is not None:
            return self._call_known(node, known, depth_of(name), name)
        if name.rpartition(".")[0] in READING_BUFFERS and self._has_buffers():
            node.args = [self._buffer(one) for one in node.args]
            node.keywords = [self._keyword_of_buffer(one) for one in node.keywords]
            return node
        if name in OPERATORS and len(node.args) > 1 and not any(type(one) is ast.Starred for one in node.args[:2]):
            node.args = self._given_first(node, OPERATORS[name])
            return node
        return None

    def _has_buffers(self) -> bool:
        """Whether some module makes what functions in C look at, as they look at no other container."""
        return self._learned.is_field(BUFFERS)

    def _buffer(self, node: Any) -> Any:
        """An expression whose bytes are looked at if it is a buffer, or a list of some."""
        if type(node) in GIVEN and not self._is_foreign_container(node) or type(node) in COMPARED_AS_A_WHOLE:
            return self._operand(node, "before_buffer", self._site_of_whole(node, ITERATION))
        return self._child(node)

    def _keyword_of_buffer(self, node: ast.keyword) -> ast.keyword:
        node = copied(node)
        node.value = self._buffer(node.value)
        return node

    def _buffer_given(self, node: Any, name: str, owner: Any) -> Any:
        """What a method is given that may look at its bytes, unless a class of the program has the method."""
        if name not in METHODS_OF_BUFFERS or not self._has_buffers():
            return self._child(node)
        is_given = type(node) in GIVEN and not self._is_foreign_container(node) or type(node) in COMPARED_AS_A_WHOLE
        is_named = self._import_of(owner) is not None or type(owner) in (ast.Constant, ast.JoinedStr)
        if not is_given or is_named:
            return self._buffer(node) if is_given else self._child(node)
        me = owner if self._is_variable(owner) else self._owner_wanted(node)
        site = self._site(node, "given", ITERATION, name, self._text(node))
        return self._hook("before_given_buffer", node, self._child(node), me, site)

    def _state_of_call(self, node: ast.Call, name: str | None) -> tuple[str, str] | None:
        """What the library keeps for all threads, if the call changes it, or looks at what the program changes."""
        stored = self._state_stored_by(node) if name is None else None
        if stored is not None:
            return stored, "w"
        is_print = name is None and self._is_print(node) and all(one.arg != "file" for one in node.keywords)
        words = len(node.args) + len(node.keywords)
        state = (PRINTED, READ) if is_print else None if name is None else touched_by(name, words)
        is_told = state is not None and (state[1] != READ or self._learned.is_field(CHANGED_STATE + state[0]))
        return state if is_told else None

    def _state(self, node: Any, thing: str, kinds: str) -> ast.Call:
        return self._hook("at_variable", node, self._site(node, STATE_OF_PROCESS, kinds, thing))

    def _is_print(self, node: ast.Call) -> bool:
        return type(node.func) is ast.Name and node.func.id == "print" and self._is_builtin("print")

    def _name_handed(self, node: ast.Call) -> None:
        """Keeps the names of containers whose methods are arguments, and of what a function that is one looks at."""
        for one in [*node.args, *[keyword.value for keyword in node.keywords]] if node.keywords else node.args:
            if type(one) is ast.Call and self._import_of(one.func) == "operator.itemgetter":
                self._name_elements(node, one, "__getitem__")
            elif type(one) is ast.Attribute and one.attr in METHODS and self._is_container_class(one.value):
                self._name_elements(node, one, one.attr)
            elif type(one) is ast.Attribute and one.attr in METHODS:
                self._learned.handed[node.lineno, one.attr] = self._text(one.value)
            elif type(one) is ast.Name and one.id in READERS and self._is_builtin(one.id):
                self._name_elements(node, one, f"builtins.{one.id}")

    def _name_elements(self, node: ast.Call, function: Any, name: str) -> None:
        """Keeps the name of what a function looks at, if it is given each element of what the call has beside it.

        So it is in `map(len, queues)`.
        """
        given: Any = next((other for other in node.args if other is not function), getattr(node.func, "value", None))
        if type(given) in GIVEN:
            self._learned.handed[node.lineno, name] = f"{self._text(given)}[..]"

    def _handed(self, node: Any) -> Any:
        """What is called by its name, or handed to a function that calls it: it may be a method of a container."""
        if known_function(self._import_of(node)) is not None:
            is_handed = True
        elif type(node) is ast.Name:
            owner = self._scope.owner(node.id)
            is_known = node.id in owner.defined or node.id in owner.imported
            is_handed = node.id in CALLED_BY_OTHERS if self._is_builtin(node.id) else not is_known
        elif type(node) is ast.Attribute:
            is_handed = node.attr in METHODS or node.attr in OF_OBJECT or self._learned.is_field(node.attr)
        else:
            is_handed = type(node) in GIVEN
        return self._operand(node, "before_call") if is_handed else self._child(node)

    def _is_called_by_others(self, node: Any) -> bool:
        return type(node) is ast.Name and node.id in CALLED_BY_OTHERS and self._is_builtin(node.id)

    def _call_known(self, node: ast.Call, kinds: str, depth: str, name: str) -> ast.expr:
        """A function of the library that looks at its arguments, or changes the first one."""
        changed = CHANGED_ARGUMENT.get(name, 0)
        others = ITERATION if name in IN_PLACE_FUNCTIONS or changed else "" if kinds == REWRITE else kinds
        depth = self._depth_with_default(node, depth) if depth == CONTENT else depth
        is_reduced = name == "functools.reduce"
        is_joined = is_reduced and any((self._import_of(one) or "").startswith("operator.") for one in node.args[:1])
        node.args = [*node.args]
        for place, one in enumerate(node.args):
            if place == 0 and is_reduced:
                node.args[0] = self._handed(one)
            elif type(one) is ast.Starred and others:
                node.args[place] = self._starred(one, others, EACH)
            elif place == changed and type(one) is not ast.Starred:
                node.args[place] = self._operand(one, "before_whole", self._site_of_whole(one, kinds, depth))
            else:
                node.args[place] = self._whole(one, others, EACH if is_joined else "") if others else self._child(one)
        node.keywords = [self._keyword(one) for one in node.keywords]
        return node

    def _depth_with_default(self, node: ast.Call, depth: str) -> str:
        """How deep `json` looks at objects.

        `default` may be their text, all of their fields, or the program's own code.
        """
        for one in [keyword.value for keyword in node.keywords if keyword.arg == "default"]:
            if type(one) is ast.Name and one.id in SHOWING and self._is_builtin(one.id):
                return WRITTEN
            words = {getattr(part, "id", getattr(part, "attr", "")) for part in ast.walk(one)}
            return STATE if words & WHOLE_OBJECTS else depth
        return depth

    def _call_stepping(self, node: ast.Call, name: str) -> ast.expr:
        """A function that goes through what it is given as others go through what it gives. It may call some of it."""
        node.args, called = [*node.args], CALLED_BY_STEPS.get(name)
        for place, one in enumerate(node.args):
            is_method = type(one) is ast.Attribute and one.attr in METHODS
            if is_method or place == called or self._is_called_by_others(one):
                node.args[place] = self._called_or_truth(one)
            elif type(one) is ast.Starred:
                node.args[place] = self._starred(one, KEYS, EACH)
            elif type(one) in GIVEN and name == "itertools.groupby" and not self._has_own_step(node):
                looked_at = self._operand(one, "before_whole", self._site_of_whole(one, KEYS, RANKED))
                node.args[place] = self._hook("before_loop", one, looked_at, self._site_of_whole(one, KEYS))
            elif type(one) in GIVEN:
                node.args[place] = self._operand(one, "before_loop", self._site_of_whole(one, KEYS))
            else:
                node.args[place] = self._child(one)
        node.keywords = [self._keyword_of_stepping(one) for one in node.keywords]
        if name == "itertools.accumulate" and not self._has_own_step(node):
            node.args.append(self._hook("before_asking", node, ast.copy_location(ast.Constant(None), node), "add"))
        elif name == "itertools.compress" and len(node.args) > 1 and type(node.args[1]) is not ast.Starred:
            node.args[1] = self._hook("before_truths", node.args[1], node.args[1])
        return node

    @staticmethod
    def _has_own_step(node: ast.Call) -> bool:
        """Whether a function of the library is told what to call at each step."""
        return len(node.args) != 1 or any([one.arg in ("func", "key", None) for one in node.keywords])

    def _called_or_truth(self, node: Any) -> Any:
        """What a function of the library calls at each step. Without one it asks for the truth of each element."""
        is_truth = type(node) is ast.Constant and node.value is None
        return self._hook("before_asking", node, node, "bool") if is_truth else self._handed(node)

    def _keyword_of_stepping(self, node: ast.keyword) -> ast.keyword:
        """What a step calls may be named as any word."""
        if node.arg is None or type(node.value) is not ast.Attribute or node.value.attr not in METHODS:
            return self._keyword(node)
        node = copied(node)
        node.value = self._handed(node.value)
        return node

    def _starred(self, node: ast.Starred, kinds: str, depth: str) -> ast.Starred:
        """An argument with a star, all of whose elements are looked at."""
        node = copied(node)
        node.value = self._operand(node.value, "before_whole", self._site_of_whole(node.value, kinds, depth))
        return node

    def _arguments_of_builtin(self, node: ast.Call, name: str) -> None:
        if name in OF_ATTRIBUTES and len(node.args) > 1:
            self._attribute_by_name(node, OF_ATTRIBUTES[name])
        elif name == "vars" and len(node.args) == 1 and type(node.args[0]) is not ast.Starred:
            one = node.args[0]
            node.args = [self._kept_fields(one) if is_kept(node) else self._operand(one, "before_fields")]
        elif name in READERS or name in STEPPERS:
            is_called = name in ("map", "filter") or name == "iter" and len(node.args) > 1
            self._keep_loop_of_others(node, is_called)
            if name in RANKING and len(node.args) > 1 and self._has_key(node):  # The key alone looks at them.
                node.args = [self._child(one) for one in node.args]
                return
            depth = self._depth_of_builtin(node, name)
            called = [self._called_or_truth(one) for one in node.args[:is_called]]
            node.args = [*called, *(self._looked_at(one, name, depth) for one in node.args[is_called:])]
        elif name == "type" and len(node.args) == WORDS_OF_TYPE:
            node.args = [*map(self._child, node.args[:-1]), self._whole(node.args[-1], ITERATION)]
        elif name in BUILTINS_OF_BUFFERS and self._has_buffers():
            node.args = [self._buffer(one) for one in node.args]
        else:
            node.args = [self._child(one) for one in node.args]

    def _depth_of_builtin(self, node: ast.Call, name: str) -> str:
        """How deep a function of the language looks that goes through what it is given. It may compare that itself."""
        if name in RANKING and not self._has_key(node):
            return RANKED if len(node.args) == 1 else ORDERED
        is_of_others = len(node.args) > 1 or any(one.arg in ("start", None) for one in node.keywords)
        return TRUTH if name in ("any", "all") else SUMMED if name == "sum" and is_of_others else ""

    @staticmethod
    def _has_key(node: ast.Call) -> bool:
        """Whether elements may be compared by something else than themselves."""
        return any([one.arg in ("key", None) for one in node.keywords])

    def _keep_loop_of_others(self, node: ast.Call, is_called: bool) -> None:
        """Keeps where something in C may call the program at each step through a container, as `list(map(f, jobs))`."""
        function: Any = node.args[0] if node.args else None
        is_of_program = isinstance(function, (ast.Name, ast.Attribute, ast.Lambda)) and not self._is_foreign(function)
        is_shared = any(type(one) in REACHED and not self._is_foreign(one) for one in node.args[1:])
        if is_called and is_shared and is_of_program and (node.lineno, node.col_offset) not in self._iterated_by_loops:
            self._learned.loops.append((OF_OTHERS, node.lineno, node.end_lineno or node.lineno))

    def _attribute_by_name(self, node: ast.Call, kinds: str) -> None:
        """The object and the name of its attribute are the first two arguments.

        A name that is computed is computed once.
        """
        site = self._site(node, "field", kinds, words=OF_BASE if type(node.func) is ast.Attribute else None)
        name: Any = node.args[1]
        if self._is_simple(name):
            owner = self._operand(node.args[0], "before_named_attribute", name, site)
            node.args = [owner, *(self._child(one) for one in node.args[1:])]
            return
        node.args = [self._child(one) for one in node.args]
        if not any(type(one) is ast.Starred for one in node.args):
            place = len(node.args) - 1
            last = node.args[place]
            kept = [on_stack.copy(on_stack.form_of_argument(one, place), last) for one in range(min(place, 2))]
            node.args[place] = self._hook("given_name" if place == 1 else "given_with_name", last, last, *kept, site)

    def _is_made(self, node: Any) -> bool:
        """Whether it is a call of a function of the language that gives something new."""
        is_builtin = type(node) is ast.Call and type(node.func) is ast.Name and self._is_builtin(node.func.id)
        return is_builtin and node.func.id not in GIVERS

    def _looked_at(self, node: Any, name: str, depth: str) -> ast.expr:
        if name in STEPPERS and type(node) in GIVEN and not self._is_made(node):
            return self._operand(node, "before_loop", self._site_of_whole(node, READERS[name]))
        if type(node) is ast.Starred and name in STEPPERS:
            return self._starred(node, KEYS, EACH)
        if type(node) is ast.Starred and name in SHOWING and type(node.value) in GIVEN:
            return self._starred(node, ITERATION, SHOWING[name])
        if type(node) is ast.Starred and depth == RANKED and type(node.value) in GIVEN:
            return self._starred(node, READERS[name], depth)
        if type(node) is ast.Starred or name in STEPPERS:
            return self._child(node)  # type: ignore[no-any-return]
        kinds = ITERATION if depth == ORDERED else READERS[name]
        looked_at: ast.expr = self._whole(node, kinds, SHOWING.get(name, depth), METHODS_OF_READERS.get(name))
        return looked_at

    def _call_method(self, node: ast.Call, func: ast.Attribute) -> ast.expr:
        name, owner = func.attr, func.value
        is_late = any([one.inside & LATE for one in node.args])  # type: ignore[attr-defined]
        has_first = bool(node.args) and type(node.args[0]) is not ast.Starred
        if name in METHODS and _is_super(owner) and self._scope.first:
            self._call_of_base(node, func)
        elif name in METHODS and has_first and self._is_container_class(owner):
            node.args = self._given_first(node, name)
        elif name in METHODS and has_first and self._is_class_of(owner):
            node.args = self._given_first(node, name, "method")
        elif self._is_of_logger(name) and not self._is_foreign(owner):
            func.value = self._operand(owner, "before_level", self._site(node, "field", LEVELS[name], LEVEL))
            node.args = [self._argument(one, func, owner) for one in node.args]
        elif name in OF_EXCEPTIONS:
            func.value = self._operand(owner, "before_attribute", self._site(node, "field", "rw", OF_EXCEPTIONS[name]))
            node.args = [self._child(one) for one in node.args]
        elif name == CONSTRUCTOR and has_first and self._is_made_anew(owner, node.args[0]):
            first: Any = node.args[0]
            site = self._site(node, "field", "w", "", self._text(first))
            made = self._operand(first, "before_made_constructor", site)
            node.args = [made, *map(self._child, node.args[1:])]
        elif name == CONSTRUCTOR and not self._is_foreign(owner) and not self._is_super_of_any(owner):
            site = self._site(node, "field", "w", "", self._text(owner))
            func.value = self._operand(owner, "before_made_constructor", site)
            node.args = [self._child(one) for one in node.args]
        elif name in OF_OBJECT and len(node.args) > WORDS_OF_OBJECT[name]:
            self._attribute_by_name(node, OF_OBJECT[name])
        elif name in OF_OBJECT and has_first:
            self._attribute_of_owner(node, func)
        elif name in ("format", "format_map") and not self._is_foreign_module(owner):
            return self._call_format(node, func)
        elif name == "__class__":
            node.func = self._called(func)
            node.args = [self._whole(one, ITERATION) for one in node.args]
        elif name not in METHODS or self._is_foreign_container(owner):
            given = node.args
            called = self._called(func)
            is_field = self._learned.is_field(name) and not self._is_foreign(owner)
            node.func = self._hook("before_call", func, called) if is_field else called
            if is_field:
                self._begin_at_name(node, func)
            node.args = [self._argument(one, func, owner) for one in given]
            if name in TEMPLATES:
                self._look_at_settings(func, owner)
                return self._call_template(node, func)
        elif name in KEYED and has_first:
            self._call_keyed(node, func, self._site(node, "method", "", name, self._text(owner)))
        elif is_late and name in LATE_METHODS and not isinstance(node.args[-1], ast.Starred):
            self._call_late(node, func, self._site(node, "method", "", name, self._text(owner)))
        else:
            names_fields = self._is_of_fields(owner) or self._updates_fields(name, owner)
            words = [keyword.arg for keyword in node.keywords] if names_fields else None
            is_known = words is not None and None not in words and len(node.args) < 2
            site = self._site(node, "method", "", name, self._text(owner), words if is_known else None)
            func.value = self._operand(owner, "before_method", site)
            places = self._places_of_put(node.args[-1]) if has_first and name in PUTTING else None
            node.args = [self._argument(one, func, owner) for one in node.args]
            if places is not None:
                node.args[-1] = self._with_put(node.args[-1], places)
        self._look_at_settings(func, owner)
        if name in METHODS and any(map(self._learned.is_field, DELEGATING)) and not self._is_foreign(owner):
            self._call_delegated(node, func)
        node.keywords = [self._keyword_of_method(one, func, owner) for one in node.keywords]
        return self._with_owner(node, func)

    def _look_at_settings(self, func: ast.Attribute, owner: Any) -> None:
        """A method of an object of the library may look at fields that the program sets."""
        if self._is_setting(MODULES_OF_METHODS, func.attr) and not self._is_foreign_module(owner):
            site = self._site(func, "whole", INNER_READ, "", self._text(owner))
            func.value = self._hook("before_setting", owner, func.value, func.attr, site)

    @staticmethod
    def _begin_at_name(node: ast.Call, func: ast.Attribute) -> None:
        """Has a call over several lines begin at the name of its method, as the compiler has it without a hook."""
        has_stars = any([type(one) is ast.Starred for one in node.args]) or any([not one.arg for one in node.keywords])
        last, column = func.end_lineno, func.end_col_offset
        if not has_stars and last is not None and last != node.lineno and column is not None:
            node.lineno, node.col_offset = last, max(column - len(func.attr), 0)

    def _keyword_of_method(self, node: ast.keyword, func: ast.Attribute, owner: Any) -> ast.keyword:
        if not passed_over.is_changing(node.value) or node.arg == "key":
            return self._keyword(node)
        node = copied(node)
        node.value = self._argument(node.value, func, owner)
        return node

    def _is_of_logger(self, name: str) -> bool:
        """Whether a method of this name changes the level of a logger, or looks at what some module changes."""
        kinds = LEVELS.get(name)
        return kinds is not None and (kinds != READ or self._learned.is_field(CHANGED_STATE + LEVEL))

    def _call_delegated(self, node: ast.Call, func: ast.Attribute) -> None:
        """A method that an object may have found at another one, by a method of its own for what it has not."""
        owner, func.value = func.value, on_stack.copy(on_stack.OF_OWNER, func)
        node.func = self._hook("before_named_call", func, owner, func)

    def _call_template(self, node: ast.Call, func: ast.Attribute) -> ast.expr:
        """What a template puts in by its name is looked at, too."""
        node.keywords = [self._keyword_of_template(one, func) for one in node.keywords]
        return self._with_owner(node, func)

    def _keyword_of_template(self, node: ast.keyword, func: ast.Attribute) -> ast.keyword:
        if node.arg is None:
            return self._keyword(node)
        node = copied(node)
        node.value = self._argument(node.value, func, func.value)
        return node

    def _is_of_fields(self, node: Any) -> bool:
        """Whether it gives the fields of an object as a dictionary."""
        if type(node) is ast.Attribute:
            return node.attr == "__dict__"
        func = node.func if type(node) is ast.Call else None
        return type(func) is ast.Name and func.id in ("vars", "globals") and self._is_builtin(func.id)

    def _updates_fields(self, name: str, owner: Any) -> bool:
        """Whether a call names the fields that it writes, if what it updates is their dictionary."""
        return name in UPDATING and (type(owner) is ast.Name or self._is_of_fields(owner))

    def _is_foreign_module(self, node: Any) -> bool:
        return self._import_of(node) is not None and self._is_foreign(node)

    def _attribute_of_owner(self, node: ast.Call, func: ast.Attribute) -> None:
        """An attribute by its name, of the object whose method is called: `super().__setattr__(name, value)`."""
        owner: Any = func.value
        site = self._site(node, "field", OF_OBJECT[func.attr], words=OF_BASE if self._is_super_of_any(owner) else None)
        given: list[Any] = node.args
        node.args = [self._child(one) for one in given]
        if _is_super(owner) and self._scope.function.first:
            me: Any = name_at(node, self._scope.function.first)
        elif self._is_variable(owner):
            me = owner
        else:
            func.value = self._child(owner)
            me = self._owner_wanted(node)
        node.args[0] = self._hook("given_name", given[0], node.args[0], me, site)

    def _is_super_of_any(self, node: Any) -> bool:
        return type(node) is ast.Call and type(node.func) is ast.Name and node.func.id == "super"

    def _call_format(self, node: ast.Call, func: ast.Attribute) -> ast.expr:
        """What a text shows of what it is formatted with: a field of it, an element, or all."""
        owner: Any = func.value
        is_known = func.attr == "format" and isinstance(owner, (ast.Constant, ast.Name))
        template = None if not is_known else owner.value if type(owner) is ast.Constant else owner
        if not is_known:
            given = node.args
            node.func = self._called(func)
            node.args = [self._argument(one, func, owner) for one in given]
        elif any(type(one) is ast.Starred for one in node.args):
            node.args = [self._child(one) for one in node.args]
        else:
            node.args = [self._shown(one, template, place) for place, one in enumerate(node.args)]
        node.keywords = [self._keyword_shown(one, template, is_known) for one in node.keywords]
        return self._with_owner(node, func)

    def _keyword_shown(self, node: ast.keyword, template: Any, is_known: bool) -> ast.keyword:
        if node.arg is not None and not is_known:
            return self._keyword(node)
        node = copied(node)
        if node.arg is None:
            node.value = self._whole(node.value, ITERATION, SHOWN)
        else:
            node.value = self._shown(node.value, template, node.arg)
        return node

    def _shown(self, node: Any, template: Any, name: int | str) -> Any:
        """What a text puts in at a place of its own, or by a name."""
        if type(node) not in SHOWN_ARGUMENTS:
            return self._child(node)
        site = self._site(node, "whole", ITERATION, SHOWN, self._text(node))
        if isinstance(template, str):
            paths = field_paths(template, name)
            return self._hook("before_format", node, self._child(node), paths, site) if paths else self._child(node)
        told = template if self._is_variable(template) else self._owner_wanted(node)
        return self._hook("before_late_format", node, self._child(node), told, name, site)

    def _call_of_base(self, node: ast.Call, func: ast.Attribute) -> None:
        """A method of the container that the object itself is, as in `super().append(one)`."""
        site = self._site(node, "base", "", func.attr, self._scope.class_name or "")
        me = name_at(node, self._scope.first)
        given: list[Any] = node.args
        node.args = [self._child(one) for one in given]
        if func.attr in KEYED and given and type(given[0]) is not ast.Starred:
            node.args[0] = self._hook("before_key", given[0], me, node.args[0], site)
        elif given and not isinstance(given[-1], ast.Starred):
            node.args[-1] = self._hook("after_value", given[-1], node.args[-1], me, site)
        else:
            func.value = self._hook("after_value", func.value, func.value, me, site)

    def _is_class_of(self, node: Any) -> bool:
        """Whether it is the class of an object, as `type(items)` is."""
        if type(node) is ast.Attribute:
            return node.attr == "__class__"
        return _function_of(node) == "type" and len(node.args) == 1 and self._is_builtin("type")

    def _given_first(self, node: ast.Call, name: str, what: str = "base") -> list[ast.expr]:
        """The arguments of a function that does what a method of this name of its first argument does.

        So `list.append(items, one)` does.
        """
        owner: Any = node.args[0]
        site = self._site(node, what, "", name, self._text(owner))
        given: list[Any] = node.args
        is_keyed = name in KEYED and len(given) > 1 and type(given[1]) is not ast.Starred
        rest = [self._child(one) for one in given[2 if is_keyed else 1:]]
        if is_keyed and self._is_variable(owner):
            return [self._child(owner), self._key_of(owner, given[1], site), *rest]
        if is_keyed:
            key: Any = given[1]
            return [self._child(owner), self._key_behind(on_stack.copy(on_stack.GIVEN_FIRST, key), key, site), *rest]
        return [self._operand(owner, "before_method", site), *rest]

    def _is_container_class(self, node: Any) -> bool:
        if type(node) is ast.Name and self._is_builtin(node.id):
            return node.id in MAKERS
        return self._import_of(node) in CONTAINER_CLASSES

    def _argument(self, node: Any, func: ast.Attribute, owner: Any) -> Any:
        """What a method is given.

        Some look at all of it, and a class of the program may have a method of such a name.
        """
        name = func.attr
        if passed_over.is_changing(node) and name not in passed_over.FOLLOWED_METHODS and not self._is_foreign(owner):
            me = owner if self._is_variable(owner) else self._owner_wanted(node)
            return self._hook("before_handed", node, self._child(node), me, self._site(node, "handed", "", node.attr))
        kinds = CONSUMING.get(name)
        if kinds is None:
            return self._buffer_given(node, name, owner)
        is_bytes = type(owner) is ast.Constant and type(owner.value) is bytes
        is_given = type(node) in GIVEN_OR_STARRED or is_bytes or self._updates_fields(name, owner)
        is_given = is_given or name in DEPTHS_OF_METHODS and type(node) in COMPARED_AS_A_WHOLE
        is_of_others = not is_given or self._is_foreign(node) or self._is_made(node)
        if is_of_others or self._import_of(owner) is not None:
            return self._buffer_given(node, name, owner)
        if type(node) is ast.Starred:
            return self._starred(node, kinds, EACH)
        is_builtin = type(owner) is ast.Name and self._is_builtin(owner.id)
        if is_builtin or isinstance(owner, (ast.Constant, ast.JoinedStr)):
            return self._whole(node, kinds, EACH if is_bytes else DEPTHS_OF_METHODS.get(name, ""))
        words = OF_KEYS if kinds == KEYS or name in UPDATING else None
        site = self._site(node, "given", kinds, name, self._text(node), words)
        if self._is_variable(owner):
            return self._hook("before_argument", node, self._child(node), owner, site)
        return self._hook("before_argument", node, self._child(node), self._owner_wanted(node), site)

    def _owner_wanted(self, node: ast.AST) -> ast.expr:
        self._wanted += 1
        return on_stack.wanted(node)

    def _with_owner(self, node: ast.Call, func: ast.Attribute) -> ast.expr:
        """The call. If hooks of what it is given want its object, a hook around it keeps that on the stack."""
        if not self._wanted:
            return node
        given: list[Any] = [*node.args, *(keyword.value for keyword in node.keywords)]
        wanting = [(place, one, on_stack.place_of_wanted(one)) for place, one in enumerate(given)]
        count = sum(at is not None for _, _, at in wanting)
        if not count:
            return node
        self._wanted -= count
        if _is_hook(node.func):
            node.func.args[-1] = func  # type: ignore[attr-defined]
        else:
            node.func = func
        function = self._form_of_function(node.func)
        forms = {place: on_stack.form_of_call(node, function, place) for place, _, word in wanting if word is not None}
        for place, hook, word in wanting:
            if word is not None:
                hook.args[word] = on_stack.copy(forms[place], hook.args[word])
        return self._hook("after_call", node, self._owner_taken(node, func, function), node)

    @staticmethod
    def _form_of_function(function: Any) -> str:
        if not _is_hook(function):
            return on_stack.METHOD
        return on_stack.BEHIND_HOOK if len(function.args) == 1 else on_stack.WITH_OWNER

    @staticmethod
    def _owner_taken(node: Any, func: ast.Attribute, function: str) -> ast.expr:
        """The object whose method is called, with a copy of it in its place."""
        kept = on_stack.copy(on_stack.form_of_call(node, function), func)
        if function == on_stack.WITH_OWNER:
            owner, node.func.args[0] = node.func.args[0], kept
        else:
            owner, func.value = func.value, kept
        return owner  # type: ignore[no-any-return]

    def _whole(self, node: Any, kinds: str, depth: str = "", methods: tuple[str, ...] | None = None) -> Any:
        """An expression, all of which is looked at if it is a container.

        Of an object nothing is looked at if a class of the program has one of the methods.
        """
        is_looked_at = type(node) in GIVEN and not self._is_foreign_container(node) and not self._is_made(node)
        if is_looked_at or depth and type(node) in COMPARED_AS_A_WHOLE:
            return self._operand(node, "before_whole", self._site_of_whole(node, kinds, depth, methods))
        return self._child(node)

    def _site_of_whole(self, node: Any, kinds: str, depth: str = "", methods: tuple[str, ...] | None = None) -> int:
        """The site of something that is looked at as a whole. A view that is made there is known by its container."""
        func = node.func if type(node) is ast.Call else None
        is_view = type(func) is ast.Attribute and func.attr in VIEWS
        is_iterator = type(func) is ast.Name and func.id in ("iter", "reversed")
        text = self._text(node.func.value if is_view else node)
        methods = methods or METHODS_OF_DEPTHS.get(depth) or (OF_KEYS[:1] if kinds == KEYS else None)
        return self._site(node, "whole", kinds, depth, text, MADE_HERE if is_view or is_iterator else methods)

    def _visit_BinOp(self, node: ast.BinOp) -> ast.expr:
        sides: list[Any] = [node.left, node.right]
        if type(node.op) is ast.Mod and not _is_number(node.left):
            node.left, node.right = self._child(node.left), self._formatted(node.right)
        elif self._makes_a_container(node):
            methods = METHODS_OF_OPERATORS[type(node.op)]
            node.left, node.right = (self._whole(side, ITERATION, methods=methods) for side in sides)
        else:
            node.left, node.right = map(self._child, sides)
        return node

    @staticmethod
    def _makes_a_container(node: ast.BinOp) -> bool:
        """Whether it may make a container of its sides."""
        sides = (node.left, node.right)
        if type(node.op) is ast.Mult:
            return not any(_is_text(side) or _is_fraction(side) for side in sides)
        return type(node.op) in JOINING and not any(_is_number(side) or _is_text(side) for side in sides)

    def _formatted(self, node: Any) -> Any:
        """What `%` puts into a text."""
        if type(node) is ast.Tuple:
            node = copied(node)
            node.elts = [self._whole(one, ITERATION, SHOWN) for one in node.elts]
            return node
        return self._whole(node, ITERATION, SHOWN)

    def _visit_Dict(self, node: ast.Dict) -> ast.expr:
        pairs: list[Any] = [*zip(node.keys, node.values)]
        node.keys = [None if key is None else self._child(key) for key, _ in pairs]
        node.values = [self._whole(value, ITERATION) if key is None else self._child(value) for key, value in pairs]
        return node

    def _visit_YieldFrom(self, node: ast.YieldFrom) -> ast.expr:
        node.value = self._whole(node.value, KEYS)
        return node

    def _called(self, func: ast.Attribute) -> ast.expr:
        """What is called is a method mostly, and seldom a value of the object."""
        if self._is_super_of_any(func.value):
            func.value = self._child(func.value)
            return func
        if func.attr.startswith("__") or self._is_foreign(func.value):
            return self._part(copied(func), lambda plain: self._visit_Attribute(func))  # type: ignore[no-any-return]
        func.value = self._operand(func.value, "before_called_attribute", self._site(func, "field", "r", func.attr))
        self._note_registering(func)
        return func

    def _call_keyed(self, node: ast.Call, func: ast.Attribute, site: int) -> None:
        owner: Any = func.value
        first: Any = node.args[0]
        others = node.args[1:]
        rest = [self._put(one) if func.attr in PUTTING_KEYED else self._child(one) for one in others]
        if self._is_simple(first):
            func.value = self._operand(owner, "before_element", first, site)
            node.args = [self._buffer_given(first, func.attr, owner), *rest]
        elif self._is_variable(owner):
            func.value = self._child(owner)
            node.args = [self._key_of(owner, first, site), *rest]
        else:
            func.value = self._child(owner)
            key = self._hook("before_key_local", first, self._owner_wanted(first), self._child(first), site)
            node.args = [key, *rest]

    def _call_late(self, node: ast.Call, func: ast.Attribute, site: int) -> None:
        """A method whose argument takes its time: the touch comes behind it."""
        owner: Any = func.value
        last = node.args[-1]
        places = self._places_of_put(last) if func.attr in PUTTING else None
        rest = [self._child(one) for one in node.args[:-1]]
        if self._is_variable(owner):
            func.value = self._child(owner)
            made = self._with_put(self._argument(last, func, owner), places)
            node.args = [*rest, self._behind("after_value", owner, made, site)]
        else:
            func.value = self._child(owner)
            made = self._whole(last, CONSUMING[func.attr]) if func.attr in CONSUMING else self._child(last)
            made = self._with_put(made, places)
            node.args = [*rest, self._hook("after_value_local", last, made, self._owner_wanted(last), site)]

    def _put(self, node: Any) -> Any:
        """An expression whose value is put into a container."""
        places = self._places_of_put(node)
        return self._with_put(self._child(node), places)

    def _with_put(self, made: Any, places: int | None) -> Any:
        return made if places is None else self._hook("before_put", made, made, places)

    def _places_of_put(self, node: Any) -> int | None:
        """Which variables of the function a value that is put into a container comes from, as bits: the value itself,
        and its elements one after another. None if something else refers to it in any case.
        """
        if type(node) is ast.Name:
            return 1 if self._is_local(node) else None
        if type(node) is ast.Call:
            return 0
        elements: list[Any] = getattr(node, "values" if type(node) is ast.Dict else "elts", [])
        if type(node) not in PUT_AT_ONCE or len(elements) > MOST_PLACES_OF_PUT or not _is_in_order(node):
            return None
        return sum(2 << place for place, one in enumerate(elements) if self._is_local(one))

    def _visit_Compare(self, node: ast.Compare) -> ast.expr:
        if len(node.ops) != 1 or not isinstance(node.ops[0], (ast.In, ast.NotIn)):
            return self._compare_values(node)
        left: Any = node.left
        owner: Any = node.comparators[0]
        if type(owner) not in GIVEN:
            if type(owner) is ast.Constant and self._has_buffers():
                node.left = self._buffer(left)
                return node
            return self._generic(node)  # type: ignore[no-any-return]
        site = self._site(node, "element", "c", "", self._text(owner))
        if self._is_simple(left):
            node.left = self._buffer(left) if self._has_buffers() else self._child(left)
            node.comparators = [self._operand(owner, "before_element", left, site)]
        elif self._is_variable(owner):
            node.left = self._hook("before_key", left, owner, self._child(left), site)
            node.comparators = [self._child(owner)]
        else:
            node.left = self._child(left)
            node.comparators = [self._operand(owner, "before_element", on_stack.copy(on_stack.LOOKED_FOR, owner), site)]
        return node

    def _compare_values(self, node: ast.Compare) -> ast.expr:
        """A comparison looks at all of both sides, but for one with a text or a number, and `is`."""
        sides: list[Any] = [node.left, *node.comparators]
        looked_at: dict[int, tuple[str, tuple[str, ...]]] = {}
        for place, operator in enumerate(node.ops):
            both = sides[place:place + 2]
            if not isinstance(operator, (ast.Is, ast.IsNot)) and not any(_is_plain(one) for one in both):
                depth = COMPARED if isinstance(operator, (ast.Eq, ast.NotEq, ast.In, ast.NotIn)) else ORDERED
                looked_at |= dict.fromkeys((place, place + 1), (depth, METHODS_OF_COMPARISONS.get(type(operator), ())))
        made = [
            self._whole(one, ITERATION, *looked_at[place]) if place in looked_at else self._child(one)
            for place, one in enumerate(sides)
        ]
        node.left, node.comparators = made[0], made[1:]
        return node

    def _truth(self, node: Any) -> Any:
        """An expression whose truth is asked for: that of a container is its length."""
        if type(node) in ASKED_FOR_TRUTH and not self._is_foreign(node) and not self._is_made(node):
            site = self._site(node, "whole", LENGTH, "", self._text(node), METHODS_OF_READERS["bool"])
            return self._operand(node, "before_whole", site)
        if type(node) is ast.BoolOp:
            node = copied(node)
            node.values = [self._part(one, self._truth) for one in node.values]
            return node
        return self._visit(node)

    def _visit_BoolOp(self, node: ast.BoolOp) -> ast.expr:
        *asked, last = node.values
        node.values = [*(self._part(one, self._truth) for one in asked), self._part(last, self._visit)]
        return node

    def _part(self, node: Any, visit: Callable[[Any], Any]) -> Any:
        return self._guarded(node, visit) if self._is_guarding else visit(node)

    def _visit_UnaryOp(self, node: ast.UnaryOp) -> ast.expr:
        if isinstance(node.op, (ast.UAdd, ast.USub)) and type(node.operand) in GIVEN:
            node.operand = self._whole(node.operand, ITERATION, methods=("__pos__", "__neg__"))
            return node
        node.operand = self._part(node.operand, self._truth if type(node.op) is ast.Not else self._visit)
        return node

    def _visit_IfExp(self, node: ast.IfExp) -> ast.expr:
        node.test = self._part(node.test, self._truth)
        node.body, node.orelse = self._child(node.body), self._child(node.orelse)
        return node

    def _visit_FormattedValue(self, node: ast.FormattedValue) -> ast.expr:
        node.value = self._whole(node.value, ITERATION, WRITTEN if node.conversion in WRITTEN_BY else SHOWN)
        if node.format_spec is not None:
            node.format_spec = self._visit_JoinedStr(copied(node.format_spec))  # type: ignore[arg-type]
        return node

    def _visit_JoinedStr(self, node: ast.JoinedStr) -> ast.expr:
        node.values = [self._visit(one) if type(one) is ast.FormattedValue else one for one in node.values]
        return node

    def _visit_Starred(self, node: ast.Starred) -> ast.expr:
        is_looked_at = type(node.ctx) is ast.Load and type(node.value) in GIVEN
        node.value = self._whole(node.value, KEYS) if is_looked_at else self._child(node.value)
        return node

    def _visit_NamedExpr(self, node: ast.NamedExpr) -> ast.expr:
        node.value = self._child(node.value)
        if self._is_shared(node.target.id):
            node.value = self._hook("after_binding", node.value, node.value, self._variable(node, node.target.id, "w"))
        return node

    def _visit_Lambda(self, node: ast.Lambda) -> ast.expr:
        node.args = copied(node.args)
        self._visit_defaults(node.args)

        def work() -> None:
            node.body = self._guarded(node.body)

        self._in_scope(node, work)
        return node

    def _visit_comprehension_of(self, node: Any) -> ast.expr:
        node.generators = [*map(copied, node.generators)]
        begun = [[*self._begun_in(node, part)] for part in node.generators]
        node.generators[0].iter = self._iterated(node.generators[0])

        def work() -> None:
            for place, part in enumerate(node.generators):
                if place > 0:
                    part.iter = self._iterated(part)
                target = part.target
                if type(target) is not ast.Name:
                    part.target = self._visit_target(target)
                conditions = [self._guarded(one, self._truth) for one in part.ifs]
                part.ifs = [*begun[place], *self._bound_in(target), *conditions]
            for name in ("elt", "key", "value"):
                if hasattr(node, name):
                    setattr(node, name, self._guarded(getattr(node, name)))

        self._in_scope(node, work)
        return node  # type: ignore[no-any-return]

    _visit_ListComp = _visit_SetComp = _visit_DictComp = _visit_GeneratorExp = _visit_comprehension_of

    def _begun_in(self, node: Any, part: ast.comprehension) -> Iterator[ast.expr]:
        """A condition that is always true, and asks whether this loop began before there was a second task."""
        parts = [getattr(node, name) for name in ("elt", "key", "value") if hasattr(node, name)]
        is_calling = any(one.inside & LATE for one in (*parts, *part.ifs)) and not part.is_async
        asked = self._asked_if_begun(part, parts[0], node) if is_calling else None
        if asked is not None:
            yield at(parts[0], ast.UnaryOp(ast.Not(), asked(0)))

    def _bound_in(self, target: Any) -> Iterator[ast.expr]:
        """Conditions that note which variables a step of a comprehension has bound, and that are always true."""
        for one in self._bindings(target):
            noted = at(one, ast.UnaryOp(ast.Not(), self._variable(one, one.id, "w")))
            yield at(one, ast.IfExp(self._is_on(one), noted, at(one, ast.Constant(True))))

    def _iterated(self, part: ast.comprehension) -> Any:
        if part.is_async:
            return self._guarded(part.iter, self._asynchronous_iteration)
        return self._gone_through(part.iter, part.target)

    def _iteration(self, node: Any) -> Any:
        """What a loop goes through: each step is a look at it."""
        if type(node) in GIVEN and not self._is_foreign_container(node) and not self._is_made(node):
            return self._operand(node, "before_loop", self._site_of_whole(node, KEYS))
        return self._visit(node)

    def _gone_through(self, node: Any, target: Any) -> Any:
        """What a loop goes through, with a look at each element that its target takes apart."""
        paths = tuple(_taken_apart(target, ()))
        if not paths:
            return self._guarded(node, self._iteration)
        text = self._text(node)
        site = self._site(node, "whole", ITERATION, "", text and f"{text}[..]")

        def taken_apart(one: Any) -> ast.expr:
            return self._hook("before_taking_apart", one, self._iteration(one), paths, site)

        return self._guarded(node, taken_apart)


UPDATING = frozenset(("update", "__ior__"))
"""Methods of a dictionary that take over another one."""
UPDATES = "|="
"""Stands among the methods of an assignment that names the fields it writes, if its container is one of fields."""
CACHES = frozenset(("functools.lru_cache", "functools.cache"))

_SIMPLE: dict[type, Callable[[Rewriter, Any], Any]] = {
    kind: getattr(Rewriter, f"_simple_{kind.__name__}", Rewriter._generic)
    for kind in (ast.Expr, ast.Assign, ast.AugAssign, ast.AnnAssign, ast.Return, ast.Delete, ast.Raise, ast.Assert)
}
"""What is done to simple statements."""
_COMPOUND: dict[type, Callable[[Rewriter, Any], list[ast.stmt]]] = {
    getattr(ast, name.removeprefix("_do_")): work for name, work in vars(Rewriter).items() if name.startswith("_do_")
}
"""What is done to compound ones, and to imports."""
_VISITS: dict[type, Callable[[Rewriter, Any], Any]] = {}
"""What is done to expressions, as far as it was asked for."""


def _function_of(node: Any) -> str:
    """The name of the function that is called, if it is a name."""
    return node.func.id if type(node) is ast.Call and type(node.func) is ast.Name else ""


_WITH = (ast.With, ast.AsyncWith)
"""Statements that keep a value of each item on the stack as long as what is inside of them lasts.

A handler so keeps one.
"""
_OWN_LOOPS = (ast.For, ast.AsyncFor, ast.While)
_BLOCKS = (*_OWN_LOOPS, *_WITH, ast.Try, ast.TryStar)
"""Statements at whose end something may be let go of."""
_OWN_CODE = (ast.FunctionDef, ast.AsyncFunctionDef, ast.ClassDef)


def _before_continue(body: list[Any], asked: Callable[[int], ast.expr], further: int) -> list[Any]:
    """The body of a loop, with a statement before each that goes on with the loop."""
    found: list[Any] = []
    for one in body:
        if type(one) is ast.Continue:
            found.append(as_statement(asked(further), one))
        elif isinstance(one, _OWN_LOOPS):
            one.orelse = _before_continue(one.orelse, asked, further)
        elif not isinstance(one, _OWN_CODE):
            _before_continue_inside(one, asked, further + (len(one.items) if isinstance(one, _WITH) else 0))
        found.append(one)
    return found


def _before_continue_inside(one: Any, asked: Callable[[int], ast.expr], further: int) -> None:
    for part in ("body", "orelse"):
        if isinstance(getattr(one, part, None), list):
            setattr(one, part, _before_continue(getattr(one, part), asked, further))
    for handler in one.handlers if type(one) is ast.Try else ():
        handler.body = _before_continue(handler.body, asked, further + 1)
    for case in getattr(one, "cases", ()):
        case.body = _before_continue(case.body, asked, further)


def _taken_apart(target: Any, path: tuple[int, ...]) -> Iterator[tuple[int, ...]]:
    """Where in an element there is something that a target takes apart.

    These are the element itself, and what is inside up to a starred part.
    """
    if isinstance(target, (ast.Tuple, ast.List)):
        yield path
        for place, one in enumerate(target.elts):
            if type(one) is ast.Starred:
                return
            yield from _taken_apart(one, (*path, place))


def _is_in_order(node: Any) -> bool:
    """Whether the elements of what is made are those that stand there, one after another."""
    if type(node) is ast.Dict:
        keys = [one.value if type(one) is ast.Constant else None for one in node.keys]
        return None not in keys and len(set(keys)) == len(keys)
    return not any(type(one) is ast.Starred for one in node.elts)


def _is_slice(node: Any) -> bool:
    return type(node) is ast.Subscript and type(node.slice) is ast.Slice


def _is_plain(node: Any) -> bool:
    """Whether it is no container, and equal to none. Bytes may be equal to a `bytearray`."""
    return type(node) is ast.Constant and type(node.value) is not bytes


def _is_number(node: Any) -> bool:
    return type(node) is ast.Constant and type(node.value) in NUMBERS


def _is_fraction(node: Any) -> bool:
    return type(node) is ast.Constant and type(node.value) in NUMBERS[1:]


def _is_text(node: Any) -> bool:
    return type(node) is ast.JoinedStr or type(node) is ast.Constant and type(node.value) is str


def _is_hook(node: Any) -> bool:
    return type(node) is ast.Call and type(node.func) is ast.Name and node.func.id.startswith(PREFIX)
