"""Which variables of a module several tasks may share: what its functions and its own code bind,
and who captures it."""

from __future__ import annotations

import ast
from collections.abc import Callable
from typing import Any

from ..model.kinds import BUFFERS, MAKING_BUFFERS, MAPS, METHODS, MODULE_OF_BUFFERS, READERS
from ..model.settings import IMPORT_OF
from ..model.settings import MODULES as SETTING_MODULES
from . import passed_over
from .learned import KEYWORDS, OF_CLASSES, Learned
from .process_state import CHANGED_STATE, changed_by, kept_in

FUNCTIONS = (ast.FunctionDef, ast.AsyncFunctionDef, ast.Lambda)
COMPREHENSIONS = (ast.ListComp, ast.SetComp, ast.DictComp, ast.GeneratorExp)
STARTERS = frozenset(
    "start submit create_task ensure_future run_in_executor run_coroutine_threadsafe start_new_thread map".split()
)
"""Methods behind which another task may be there."""

MODULE, FUNCTION, CLASS, COMPREHENSION = "module", "function", "class", "comprehension"
FIRST_BINDING, LATER_BINDING = 1, 2

SCOPED, LATE = 1, 2
"""What an expression has inside: variables of its own or a slice,
and what may take its time or run code of the program."""
OF_EXCEPTIONS = {"add_note": "__notes__", "with_traceback": "__traceback__"}
"""Methods of an exception, and the field that each changes."""
OF_CAUSE = ("__cause__", "__suppress_context__")
OF_RAISE = ("__traceback__", "__context__")
"""The fields of an exception that a `raise` stores, the first two if it names a cause."""
STORING = frozenset(("setattr", "delattr"))
"""Functions that store a field by its name."""
STORING_METHODS = frozenset(("__setattr__", "__delattr__"))
"""Methods of `type` that do the same."""
BY_NAME = frozenset(("import_module", "__import__"))
"""Functions that give a module by its name."""
SCOPED_KINDS = (*COMPREHENSIONS, ast.Lambda, ast.Slice)
LATE_KINDS = (ast.Call, ast.Await, ast.Yield, ast.YieldFrom)
WITHOUT_NODES = frozenset(
    "id attr arg ctx op ops kind level module type_comment type_ignores simple is_async conversion rest "
    "kwd_attrs".split()
)
"""Fields of nodes that have no other nodes, or none with a place in the source."""

BY_ANOTHER = "__getattr__"
DELEGATING = frozenset((BY_ANOTHER, "__getattribute__"))
"""Methods by which an object may give what another one has.

Where a source defines one, it is among the fields that are stored.
"""


class Scope:
    """The names of a module, a function, a class or a comprehension."""

    def __init__(self, kind: str, parent: Scope | None, name: str = "") -> None:
        self.kind = kind
        self.parent = parent
        self.name = name
        self.bound: dict[str, int] = {}
        """How often each name is bound there."""
        self.globals: set[str] = set()
        self.nonlocals: set[str] = set()
        self.used: set[str] = set()
        self.captured: set[str] = set()
        self.parameters: set[str] = set()
        self.taken: set[str] = set()
        """Variables that are given what may be another's, and not what a call of a class or a function gives."""
        self.first_lines: dict[str, int] = {}
        self.made = ""
        """The variable of a constructor that has the object that is made."""
        self.constructor = 0
        self.hooks: set[str] = set()
        """Names of the hooks that stand in the body of a class."""
        self.defined: set[str] = set()
        """Names of functions and classes that are defined there."""
        self.imported: dict[str, str] = {}
        """The dotted names of what is imported there."""
        self.is_open = False
        """Whether variables of the module may be bound by their names, as `globals()["debug"] = True` does."""
        self.first = ""
        """The variable of a method that has the object it was called for."""
        self.is_cached = False
        """Whether the results of a function are kept by `functools.lru_cache`."""
        self.is_after_start = False
        """Whether another task may be there already, where the source is looked at now."""
        self.calls_and_bindings: list[tuple[bool, str]] = []
        """What follows the first call of a function that may start a task: each such call,
        and each name that is bound once."""
        self.shared: dict[str, bool] = {}
        self.local: dict[str, bool] = {}
        self.foreign: dict[str, bool] = {}
        self.builtin: dict[str, bool] = {}
        self.dotted: dict[str, str] = {}
        """What is known of names there: each is asked for once."""
        self._owners: dict[str, Scope] | None = None
        """What was found for names, once no scope gets another one."""

    @property
    def class_name(self) -> str | None:
        """The class that the code stands in, whose private names it can use."""
        scope: Scope | None = self
        while scope is not None and scope.kind != CLASS:
            scope = scope.parent
        return None if scope is None else scope.name

    def owner(self, name: str) -> Scope:
        """The scope whose variable a name is here; that of the module, where no other binds it."""
        if self._owners is None:
            return self._found_owner(name)
        owner = self._owners.get(name)
        if owner is None:
            owner = self._owners[name] = self._found_owner(name)
        return owner

    def end(self) -> None:
        """From here on no scope of the module gets another name."""
        self._owners = {}

    def _found_owner(self, name: str) -> Scope:
        scope = self
        while scope.parent is not None:
            if name in scope.globals:
                return scope.module
            if name in scope.bound and name not in scope.nonlocals and (scope.kind != CLASS or scope is self):
                return scope
            scope = scope.parent
        return scope

    @property
    def module(self) -> Scope:
        scope = self
        while scope.parent is not None:
            scope = scope.parent
        return scope

    @property
    def function(self) -> Scope:
        """The scope itself, or the one that a comprehension stands in."""
        if self.kind is not COMPREHENSION:
            return self
        scope = self
        while scope.kind == COMPREHENSION and scope.parent is not None:
            scope = scope.parent
        return scope

    def bind(self, name: str, is_repeated: bool) -> None:
        """Counts a binding.

        One that stands in a loop, or in another scope than the variable's own, counts as several.
        """
        owner = self.owner(name) if name in self.globals or name in self.nonlocals else self
        owner.add_bindings(name, LATER_BINDING if is_repeated or owner is not self else FIRST_BINDING)

    def add_bindings(self, name: str, count: int) -> None:
        self.bound[name] = self.bound.get(name, 0) + count


class Scopes:
    """The scopes of a module's syntax tree, by the nodes that open them.

    One walk finds them, and tells of each node what it has inside. A node that opens a scope knows it.
    """

    def __init__(self, tree: ast.Module, learned: Learned | None = None) -> None:
        self.module = Scope(MODULE, None)
        self.learned = Learned() if learned is None else learned
        self.all = [self.module]
        self._scope = self.module
        self._loops = 0
        self._is_target = False
        self._outer: list[tuple[Scope, str]] = []
        self._called: set[str] = set()
        self._called_by: dict[str, set[str]] = {}
        self._has_modules_by_name = False
        self._texts: list[tuple[Scope, str, str, int]] = []
        """Where a name of what runs a text stands: its scope, the variable that it is found by, and its line."""
        self._stored_in_any: set[str] = set()
        """The attributes that are stored in what may be a module, if it was found by its name."""
        self._walk_all(tree.body)
        self._end()

    def _end(self) -> None:
        starting = _starting_functions(self._called_by)
        for scope in self.all:
            _count_later(scope, starting)
        if self._has_modules_by_name:
            for name in self._stored_in_any:
                self.learned.add_elsewhere(name)
        for scope, name in self._outer:
            scope.bind(name, True)
        for scope in self.all:
            scope.end()
        for scope in self.all:
            self._note_captures(scope)

    def note_texts(self) -> None:
        """Keeps where what runs a text has another name, in the order of lines with what is kept already."""
        for scope, name, variable, line in self._texts:
            if self._runs_text(scope.owner(variable), name, variable):
                passed_over.look_at_text(name, line, self.learned)
        self.learned.passed_over.sort(key=lambda one: one[1])

    def _runs_text(self, owner: Scope, name: str, variable: str) -> bool:
        """Whether a name stands for what the language runs a text with."""
        if not variable:  # It is written as a text, which a module that imports this one may look up.
            return any(map(passed_over.is_of_builtins, self.module.imported.values()))
        if variable != name:
            return passed_over.is_of_builtins(owner.imported.get(variable))
        return owner.kind is MODULE and name not in owner.bound and self.learned.is_builtin(name)

    @staticmethod
    def _note_captures(scope: Scope) -> None:
        function = scope.function
        for name in scope.used:
            owner = scope.owner(name)
            if owner is not scope and owner.function is not function:
                owner.captured.add(name)

    def may_be_shared(self, scope: Scope, name: str) -> bool:
        """Whether the variable is bound more than once, and more than its own scope uses it."""
        owner = scope.owner(name)
        if owner.kind == MODULE and self.learned.is_stored_elsewhere(name):
            return name in owner.bound
        if owner.kind == MODULE and owner.is_open and name not in owner.defined and name not in owner.imported:
            return name in owner.bound or not self.learned.is_builtin(name)
        return name in owner.captured and (
            owner.kind == COMPREHENSION or owner.kind != CLASS and owner.bound.get(name, 0) > FIRST_BINDING
        )

    # The walk

    def _walk(self, node: Any) -> int:
        """Looks at a node and all that is inside. Gives what it has."""
        node.inside = inside = _VISITS[type(node)](self, node)
        return inside

    def _walk_all(self, nodes: list[Any]) -> int:
        inside = 0
        for node in nodes:
            if node is not None:
                node.inside = found = _VISITS[type(node)](self, node)
                inside |= found
        return inside

    def _walk_inside(self, node: Any) -> int:
        """Looks at all that is inside of a node."""
        inside = 0
        for name in FIELDS[type(node)]:
            one: Any = getattr(node, name, None)
            if type(one) is list:
                inside |= self._walk_all(one)
            elif type(one) in FIELDS:
                one.inside = found = _VISITS[type(one)](self, one)
                inside |= found
        return inside

    def _walk_leaf(self, node: Any) -> int:
        return 0

    def _visit_Constant(self, node: ast.Constant) -> int:
        if type(node.value) is int:
            self.learned.look_at_number(node.value)
        elif type(node.value) is str and node.value in passed_over.TEXTS:
            self._texts.append((self.module, node.value, "", node.lineno))
        return 0

    def _opened(self, node: Any, kind: str, name: str = "") -> Scope:
        scope = node.scope = Scope(kind, self._scope, name)
        self.all.append(scope)
        return scope

    def _bind(self, name: str) -> None:
        scope = self._scope.function
        scope.used.add(name)
        if name in scope.nonlocals or name in scope.globals:
            self._outer.append((scope, name))  # Its own scope may bind it further down.
            return
        is_repeated = self._loops > 0 or scope.is_after_start
        scope.bind(name, is_repeated)
        if scope.calls_and_bindings and not is_repeated:
            scope.calls_and_bindings.append((False, name))

    def _visit_Name(self, node: ast.Name) -> int:
        scope = self._scope
        if type(node.ctx) is ast.Load:
            scope.used.add(node.id)
            if node.id == MAKING_BUFFERS:
                self.learned.add_field(BUFFERS)
            if node.id in passed_over.NAMED:
                self._texts.append((scope, node.id, node.id, node.lineno))
        elif scope.kind == COMPREHENSION and self._is_target:
            scope.add_bindings(node.id, FIRST_BINDING)
        else:
            self._bind(node.id)
            if scope.kind == CLASS:
                self.learned.add_field(node.id)
            if node.id not in scope.globals and node.id not in scope.nonlocals:
                scope.function.first_lines.setdefault(node.id, node.lineno)
        return 0

    def _visit_Assign(self, node: ast.Assign) -> int:
        """What is bound to the value of a call is bound behind it."""
        _mark_kept(node.value)
        if isinstance(node.value, ast.Call) and isinstance(node.value.func, ast.Name) and node.value.func.id == "super":
            self.learned.add_field(BY_ANOTHER)  # Methods of an object are found by way of another one.
        self._take(node.value, *node.targets)
        return self._walk(node.value) | self._walk_all(node.targets)

    def _visit_AnnAssign(self, node: ast.AnnAssign) -> int:
        _mark_kept(node.value)
        inside = 0 if node.value is None else self._walk(node.value)
        return inside | self._walk(node.target) | self._walk(node.annotation)

    def _visit_Return(self, node: ast.Return) -> int:
        _mark_kept(node.value)
        return self._walk_inside(node)

    def _visit_Dict(self, node: ast.Dict) -> int:
        for one in node.values:
            _mark_kept(one)
        return self._walk_inside(node)

    def _visit_row(self, node: Any) -> int:
        for one in node.elts:
            _mark_kept(one)
        return self._walk_inside(node)

    _visit_Tuple = _visit_List = _visit_row

    def _take(self, value: ast.expr | None, *targets: ast.expr) -> None:
        """Keeps the variables that are given what others may have, too."""
        if not (isinstance(value, ast.Call) and isinstance(value.func, ast.Name)):
            self._scope.function.taken.update(one.id for one in targets if isinstance(one, ast.Name))

    def _visit_NamedExpr(self, node: ast.NamedExpr) -> int:
        _mark_kept(node.value)
        self._take(node.value, node.target)
        return self._walk(node.value) | self._walk(node.target)

    def _visit_Global(self, node: ast.Global) -> int:
        self._scope.globals.update(node.names)
        return 0

    def _visit_Nonlocal(self, node: ast.Nonlocal) -> int:
        self._scope.nonlocals.update(node.names)
        return 0

    def _visit_Import(self, node: ast.Import) -> int:
        for one in node.names:
            name = one.asname or one.name.partition(".")[0]
            self._import(name, one.name if one.asname else name)
            self._note_import(one.name)
        return 0

    def _note_import(self, dotted: str) -> None:
        """Keeps that a module with settings is imported, by itself or for one of its names."""
        for name in (dotted, dotted.rpartition(".")[0]):
            if name == MODULE_OF_BUFFERS:
                self.learned.add_field(BUFFERS)
            if name in SETTING_MODULES:
                self.learned.add_field(IMPORT_OF + name)

    def _visit_ImportFrom(self, node: ast.ImportFrom) -> int:
        is_of_builtins = not node.level and passed_over.is_of_builtins(node.module)
        for one in node.names:
            dotted = f"{'.' * node.level}{node.module or ''}.{one.name}"
            self._import(one.asname or one.name, dotted)
            self._note_import(dotted)
            if is_of_builtins and one.name in passed_over.TEXTS:
                passed_over.look_at_text(one.name, node.lineno, self.learned)
        return 0

    def _import(self, name: str, dotted: str) -> None:
        scope = self._scope.function
        imported = (self.module if name in scope.globals else scope).imported
        if imported.get(name) != dotted:  # To import the same once more, or a module within it, binds nothing else.
            imported[name] = dotted
            self._bind(name)

    def _visit_named(self, node: Any) -> int:
        """A handler or a pattern, which may bind a name."""
        if node.name:
            self._bind(node.name)
        return self._walk_inside(node)

    _visit_ExceptHandler = _visit_MatchAs = _visit_MatchStar = _visit_named

    def _visit_MatchMapping(self, node: ast.MatchMapping) -> int:
        if node.rest:
            self._bind(node.rest)
        return self._walk_inside(node)

    def _visit_Attribute(self, node: ast.Attribute) -> int:
        if type(node.ctx) is not ast.Load:
            self._note_stored(node.attr, node.value)
            whole: Any = node.value
            while type(whole) is ast.Attribute:
                whole = whole.value
            self._note_stored_in_module(node, whole)
            if type(whole) is ast.Name and whole.id in self._scope.owner(whole.id).imported:
                self.learned.add_elsewhere(node.attr)
        elif node.attr == "keywords":
            self.learned.add_field(KEYWORDS)
        elif node.attr in OF_RAISE:
            self.learned.add_field(node.attr)
        elif node.attr == "modules" and isinstance(node.value, ast.Name) and node.value.id == "sys":
            self.module.is_open = self._has_modules_by_name = True
        elif node.attr in passed_over.TEXTS and isinstance(node.value, ast.Name):
            self._texts.append((self._scope, node.attr, node.value.id, node.lineno))
        elif node.attr == MAPS:
            self.learned.add_field(MAPS)  # The list of a chain may be changed.
        return self._walk(node.value) | (SCOPED if is_kept(node) else 0)

    def _note_stored_in_module(self, node: ast.Attribute, whole: ast.expr) -> None:
        """The attribute may be a variable of another module, or have what the library keeps once."""
        self._note_state(node.value, node.attr)
        if not (isinstance(whole, ast.Name) and whole.id in ("self", "cls")):
            self._stored_in_any.add(node.attr)

    def _note_state(self, owner: ast.expr, name: str) -> None:
        """What the library keeps in a variable of this name, which is stored here."""
        imported = self._scope.owner(owner.id).imported.get(owner.id) if isinstance(owner, ast.Name) else None
        thing = None if imported is None else kept_in(f"{imported}.{name}")
        if thing is not None:
            self.learned.add_field(CHANGED_STATE + thing)

    def _visit_Subscript(self, node: ast.Subscript) -> int:
        """A field that is stored by way of the dictionary that has it, with its name written there."""
        owner = _owner_of_fields(node.value)
        if isinstance(node.slice, ast.Constant) and node.slice.value == "__dict__":
            passed_over.look_at_text("__dict__", node.lineno, self.learned)  # It may be what gives the fields.
        if type(node.ctx) is not ast.Load and owner is not None and isinstance(node.slice, ast.Constant):
            if type(node.slice.value) is str:
                self._note_stored(node.slice.value, owner)
        return self._walk_inside(node)

    def _note_stored(self, name: str, owner: ast.expr) -> None:
        """A name that is stored in an object, and in what may be a class by how it is written."""
        self.learned.add_field(name)
        if isinstance(owner, ast.Name):
            is_class = owner.id == "cls" or owner.id[:1].isupper() or owner.id in self._scope.owner(owner.id).defined
        elif isinstance(owner, ast.Attribute):
            is_class = owner.attr == "__class__" or owner.attr[:1].isupper()
        elif isinstance(owner, ast.Subscript):
            is_class = isinstance(owner.value, ast.Name) and owner.value.id[:1].isupper()
        else:
            is_class = isinstance(owner, ast.Call) and isinstance(owner.func, ast.Name) and owner.func.id == "type"
        if is_class:
            self.learned.add_field(OF_CLASSES + name)

    def _note_stored_by_name(self, node: ast.Call) -> None:
        """The same of `setattr` and its like, if the name is written there."""
        words = node.args[:2]
        if len(words) > 1 and isinstance(words[1], ast.Constant) and type(words[1].value) is str:
            self._note_stored(words[1].value, words[0])
            self._note_state(words[0], words[1].value)

    def _visit_Raise(self, node: ast.Raise) -> int:
        for name in OF_CAUSE if node.cause is not None else ():
            self.learned.add_field(name)
        return self._walk_inside(node)

    def _visit_Call(self, node: ast.Call) -> int:
        function = node.func
        if isinstance(function, ast.Attribute) and function.attr in OF_EXCEPTIONS:
            self.learned.add_field(OF_EXCEPTIONS[function.attr])
        name = function.id if isinstance(function, ast.Name) else getattr(function, "attr", "")
        self._has_modules_by_name = self._has_modules_by_name or name in BY_NAME
        if isinstance(function, ast.Name) and name in STORING or _is_method_of_type(function):
            self._note_stored_by_name(node)
        if isinstance(function, (ast.Name, ast.Attribute)):
            self._note_call(function)
            for thing in changed_by(name):
                self.learned.add_field(CHANGED_STATE + thing)
        if isinstance(function, ast.Name) and (function.id == "globals" or self._gives_module(node, function.id)):
            self.module.is_open = True
        for keyword in node.keywords:
            if keyword.arg is not None and isinstance(keyword.value, ast.Attribute) and keyword.value.attr in METHODS:
                self.learned.add_field(keyword.arg)
        count = len(self._texts)
        inside = self._walk(function) | (LATE | SCOPED if is_kept(node) else LATE)
        if isinstance(function, ast.Name):
            del self._texts[count:]  # A call by its own name is kept as calls are.
        if node.args or node.keywords:
            inside |= self._walk_arguments(node, isinstance(function, ast.Name) and name in READERS)
        return inside

    def _walk_arguments(self, node: ast.Call, is_reader: bool) -> int:
        """What a function is given, which may keep it, unless it is one of the language that only looks at it."""
        for one in () if is_reader else node.args:
            _mark_kept(one)
        for keyword in node.keywords:
            _mark_kept(keyword.value)
        return self._walk_all(node.args) | self._walk_all(node.keywords)

    def _gives_module(self, node: ast.Call, name: str) -> bool:
        """Whether it gives the variables of the module, as `locals()` does outside of functions and classes."""
        return name in OF_SCOPES and not node.args and self._scope.kind is MODULE

    def _note_call(self, function: ast.Name | ast.Attribute) -> None:
        """Another task may be there once this was called: by its name, or as it is of another module of the program."""
        if isinstance(function, ast.Attribute):
            name = function.attr
            owner = function.value
            of_program = isinstance(owner, ast.Name) and self._is_of_program(owner.id) or name in STARTERS
        else:
            name = function.id
            of_program = self._is_of_program(name)
        self._called.add(name)
        scope = self._scope.function
        if of_program:
            scope.is_after_start = True
        elif not scope.is_after_start:
            scope.calls_and_bindings.append((True, name))

    def _is_of_program(self, name: str) -> bool:
        imported = self.module.imported.get(name)
        return imported is not None and (imported.startswith(".") or self.learned.is_watched(imported))

    def _visit_loop(self, node: Any) -> int:
        self._loops += 1
        if not isinstance(node, ast.While):
            self._take(None, node.target)
        inside = self._walk_inside(node)
        self._loops -= 1
        return inside

    _visit_For = _visit_AsyncFor = _visit_While = _visit_loop

    def _visit_definition(self, node: Any) -> int:
        before, self._called = self._called, set()
        self._bind(node.name)
        self._scope.defined.add(node.name)
        if isinstance(node, ast.ClassDef):
            inside = self._walk_class(node)
        else:
            if node.name in DELEGATING:
                self.learned.add_field(node.name)
            inside = self._walk_all(node.decorator_list) | self._walk_defaults(node.args)
            inside |= self._walk_function(node, node.name)
        self._called_by.setdefault(node.name, set()).update(self._called)
        before |= self._called
        self._called = before
        return inside

    _visit_FunctionDef = _visit_AsyncFunctionDef = _visit_ClassDef = _visit_definition

    def _visit_Lambda(self, node: ast.Lambda) -> int:
        return self._walk_defaults(node.args) | self._walk_function(node, "<lambda>") | SCOPED

    def _walk_defaults(self, arguments: ast.arguments) -> int:
        return self._walk_all(arguments.defaults) | self._walk_all(arguments.kw_defaults)

    def _walk_function(self, node: Any, name: str) -> int:
        before = self._scope, self._loops
        arguments = arguments_of(node.args)
        inside = _mark_annotations(node, arguments)
        self._scope, self._loops = self._with_type_parameters(node), 0
        self._scope = self._opened(node, FUNCTION, name)
        for one in arguments:
            self._scope.parameters.add(one.arg)
            self._scope.add_bindings(one.arg, FIRST_BINDING)
        is_lambda = type(node) is ast.Lambda
        inside |= self._walk(node.body) if is_lambda else self._walk_all(node.body)
        self._scope, self._loops = before
        return inside

    def _with_type_parameters(self, node: Any) -> Scope:
        """The scope that a definition stands in.

        One with parameters for types has a scope around it, which has their names.
        """
        parameters = getattr(node, "type_params", None)
        if not parameters:
            return self._scope
        for one in parameters:
            mark(one)
        scope = Scope(FUNCTION, self._scope, getattr(node, "name", ""))
        self.all.append(scope)
        for one in parameters:
            scope.bind(one.name, False)
        return scope

    def _walk_class(self, node: ast.ClassDef) -> int:
        inside = self._walk_all(node.decorator_list)
        before = self._scope, self._loops
        self._scope = self._with_type_parameters(node)
        inside |= self._walk_all(node.bases) | self._walk_all(node.keywords)
        self._scope, self._loops = self._opened(node, CLASS, node.name), 0
        inside |= self._walk_all(node.body)
        self._scope, self._loops = before
        return inside

    def _visit_TypeAlias(self, node: Any) -> int:
        """Its value is worked out when it is asked for, in a scope of its own."""
        self._bind(node.name.id)
        return mark(node)

    def _visit_comprehension_of(self, node: Any) -> int:
        first = node.generators[0]
        inside = self._walk(first.iter)
        before = self._scope, self._is_target
        self._scope = self._opened(node, COMPREHENSION, before[0].name)
        self._is_target = True
        for part in node.generators:
            inside |= self._walk(part.target)
        self._is_target = False
        for part in node.generators:
            inside |= self._walk_all(part.ifs)
            if part is not first:
                inside |= self._walk(part.iter)
        for name in ("key", "value", "elt"):
            if hasattr(node, name):
                inside |= self._walk(getattr(node, name))
        self._scope, self._is_target = before
        return inside | SCOPED

    _visit_ListComp = _visit_SetComp = _visit_DictComp = _visit_GeneratorExp = _visit_comprehension_of


Visit = Callable[[Scopes, Any], int]

_LEAVES = (ast.Pass, ast.Break, ast.Continue, ast.alias)


def _visit_late(scopes: Scopes, node: Any) -> int:
    return scopes._walk_inside(node) | LATE


def _visit_slice(scopes: Scopes, node: Any) -> int:
    return scopes._walk_inside(node) | SCOPED


_KINDS = [kind for kind in vars(ast).values() if isinstance(kind, type) and issubclass(kind, ast.AST)]
FIELDS = {kind: tuple([name for name in kind._fields if name not in WITHOUT_NODES]) for kind in _KINDS}
"""Of each kind of node the fields that may have other nodes."""
_VISITS: dict[type, Visit] = {
    **{kind: getattr(Scopes, f"_visit_{kind.__name__}", Scopes._walk_inside) for kind in _KINDS},
    **dict.fromkeys(_LEAVES, Scopes._walk_leaf), **dict.fromkeys(LATE_KINDS[1:], _visit_late), ast.Slice: _visit_slice,
}


def mark(node: Any) -> int:
    """Tells of each node what it has inside, with no look at scopes: those of annotations are others."""
    inside = 0
    for name in FIELDS[type(node)]:
        one = getattr(node, name, None)
        for child in one if isinstance(one, list) else (one,):
            if isinstance(child, ast.AST):
                inside |= mark(child)
    node.inside = inside = inside | SCOPED * isinstance(node, SCOPED_KINDS) | LATE * isinstance(node, LATE_KINDS)
    return inside


OF_SCOPES = frozenset(("vars", "locals"))
"""Functions that give the variables of the scope which they are called in."""
OF_VARIABLES = OF_SCOPES | {"globals"}
"""Functions that give the dictionary of what has fields, or variables."""


def _mark_kept(node: Any) -> None:
    """Marks a dictionary of fields that something may keep. Whose it is has to be known from then on."""
    if _gives_fields(node):
        node.is_kept = True


def _gives_fields(node: Any) -> bool:
    """Whether an expression gives a dictionary that has the fields of an object, or the variables of a module."""
    if type(node) is ast.Attribute:
        return node.attr == "__dict__"
    return type(node) is ast.Call and type(node.func) is ast.Name and node.func.id in OF_VARIABLES


def is_kept(node: ast.expr) -> bool:
    """Whether it is such a dictionary. Its hook is there while there is one task, too."""
    return "is_kept" in node.__dict__


def _is_method_of_type(function: ast.expr) -> bool:
    """Whether it is a method by which the language stores an attribute of a class, past those of its metaclass."""
    is_method = isinstance(function, ast.Attribute) and function.attr in STORING_METHODS
    owner = function.value if isinstance(function, ast.Attribute) else None
    return is_method and isinstance(owner, ast.Name) and owner.id == "type"


def _owner_of_fields(node: ast.expr) -> ast.expr | None:
    """The object whose fields an expression gives as a dictionary."""
    if isinstance(node, ast.Attribute):
        return node.value if node.attr == "__dict__" else None
    is_vars = isinstance(node, ast.Call) and isinstance(node.func, ast.Name) and node.func.id == "vars"
    return node.args[0] if is_vars and len(node.args) == 1 else None  # type: ignore[attr-defined]


def _mark_annotations(node: Any, arguments: list[ast.arg]) -> int:
    inside = 0
    for one in arguments:
        if one.annotation is not None:
            inside |= mark(one.annotation)
    returns = getattr(node, "returns", None)
    return inside if returns is None else inside | mark(returns)


def _count_later(scope: Scope, starting: set[str]) -> None:
    """Counts what is bound behind a call that may start a task as bound later."""
    is_after = False
    for is_call, name in scope.calls_and_bindings:
        if not is_call and is_after:
            scope.add_bindings(name, LATER_BINDING - FIRST_BINDING)
        is_after = is_after or is_call and name in starting


def _starting_functions(called_by: dict[str, set[str]]) -> set[str]:
    """The functions, methods and classes of a module that may start a task: by a starter,
    or by a call of another one of them."""
    found = {name for name, names in called_by.items() if names & STARTERS}
    more = found
    while more:
        more = {name for name, names in called_by.items() if name not in found and names & found}
        found |= more
    return found


def arguments_of(arguments: ast.arguments) -> list[ast.arg]:
    found = [*arguments.posonlyargs, *arguments.args, *arguments.kwonlyargs]
    if arguments.vararg is not None:
        found.append(arguments.vararg)
    if arguments.kwarg is not None:
        found.append(arguments.kwarg)
    return found
