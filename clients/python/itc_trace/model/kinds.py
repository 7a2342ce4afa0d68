"""What is known of the library's containers, of their methods, and of functions that look at them: one table of each,
in the journal's words.

The hooks in both languages and the rewriting read what they need from what is gathered at the end. A new kind, method
or function is one row here.
"""

from __future__ import annotations

import _csv
import contextlib
import csv
import io
import os
import random
import tempfile
import weakref
from array import array
from collections import ChainMap, Counter, OrderedDict, UserDict, UserList, defaultdict, deque
from collections.abc import Iterator
from typing import NamedTuple

from .conflicts import ADDITION, CHANGING, ITERATION, KEYS, LENGTH, LOOKUP, REMOVAL, REWRITE

# Kinds of containers

LIST, DICT, SET, DEQUE, BUFFER, CHANCE, STREAM = range(7)
TYPES: dict[int, tuple[type, ...]] = {
    DICT: (dict, defaultdict, OrderedDict, Counter), LIST: (list, bytearray, array), SET: (set,), DEQUE: (deque,),
    BUFFER: (io.StringIO, io.BytesIO), CHANCE: (random.Random,), STREAM: (),
}
"""The types of each kind. A class below one of these is of the same kind.

A buffer is a text or bytes in memory. What is written stands at its end mostly, and who reads moves its position. Rows
come by a writer of `csv`. A generator of chance has no elements. Whoever draws looks at it: draws may come in any
order.
"""
TYPES_BY_NAME: dict[tuple[str, str], int] = dict.fromkeys((
    ("_hashlib", "HASH"), ("_hashlib", "HASHXOF"), ("_blake2", "blake2b"), ("_blake2", "blake2s"), ("_md5", "md5"),
    ("hmac", "HMAC"), ("_hashlib", "HMAC"), ("zlib", "Compress"), ("zlib", "Decompress"), ("_bz2", "BZ2Compressor"),
    ("_bz2", "BZ2Decompressor"), ("_lzma", "LZMACompressor"), ("_lzma", "LZMADecompressor"),
    ("codecs", "IncrementalDecoder"), ("_io", "IncrementalNewlineDecoder"),
    ("_multibytecodec", "MultibyteIncrementalDecoder"), ("difflib", "SequenceMatcher"),
    ("graphlib", "TopologicalSorter"),
), STREAM)
"""Types of modules that few programs import, by the names of their modules and their own.

A stream takes one piece after another, and what it gives depends on all of them.
"""
WITHOUT_ELEMENTS = frozenset((BUFFER, CHANCE, STREAM))
"""Kinds of which a test for truth, a text and a comparison look at nothing."""

MAPS, VARIABLES, WRITER, REFERRED, WRITTEN_TO = "maps", "_data", "writer", "referred", "written to"
EXITS = "_exit_callbacks"
WITH_ONE_INSIDE: tuple[tuple[type, str], ...] = (
    (UserDict, "data"),
    (UserList, "data"),
    (weakref.WeakValueDictionary, "data"),
    (weakref.WeakKeyDictionary, "data"),
    (weakref.WeakSet, "data"),
    (tempfile.SpooledTemporaryFile, "_file"),
    (contextlib.ExitStack, EXITS),
    (contextlib.AsyncExitStack, EXITS),
    (ChainMap, MAPS),
    (type(os.environ), VARIABLES),
    (csv.DictWriter, WRITER),
    (type(_csv.writer(io.StringIO())), WRITTEN_TO),
)
"""Containers that are written in Python, and the field in which each has its elements.

A writer of rows has what it writes to.
"""

# How deep something is looked at

SHOWN, WRITTEN, COMPARED, ORDERED, HASHED, RANKED = "shown", "written", "compared", "ordered", "hashed", "ranked"
DECLARED, STATE, FIELDS, EACH, TRUTH, CONTENT = "declared", "state", "fields", "each", "truth", "content"
SUMMED = "summed"
"""How deep a function looks at what it is given: at all that its text has, or its text for a programmer, at what is
compared for being equal or greater, at each element as far as another one is less, at all fields that its class
declares, at all of its state, at its own fields, at each element, at whether each has elements, at all that
containers have inside, and at no field of an object, or at all that each element has, as it is added to others."""
OF_ELEMENTS = frozenset((EACH, TRUTH, RANKED, SUMMED))
BY_FIELDS = frozenset((SHOWN, WRITTEN, COMPARED, ORDERED, HASHED, RANKED, DECLARED, STATE, FIELDS))
DEEP = (BY_FIELDS - {FIELDS}) | OF_ELEMENTS | {CONTENT}

# What methods do

ITSELF, KEY, GIVEN = "itself", "key", "given"
"""What a method touches: the container as a whole, the element whose key is its first argument,
or the containers that it is given."""
LATE, IN_PLACE = "late", "in place"
"""When: after all arguments are there, or where an assignment as `+=` calls it."""


class Methods(NamedTuple):
    """What methods of some kinds do. With no kind it is any that has them, unless a class of the program has them
    itself.

    An element is read, written, deleted, read and written if it is not there, or compared with one after another: r, w,
    d, rw or c.
    """

    kinds: tuple[int, ...]
    names: str
    touched: str
    words: str
    inside: str = ""
    when: str = ""


_OF_ALL = "__eq__ __ne__ __lt__ __le__ __gt__ __ge__ __repr__ __str__ __format__ copy __copy__"
_OF_BYTES = (
    "find rfind rindex startswith endswith decode hex split rsplit splitlines partition rpartition strip lstrip rstrip "
    "replace translate upper lower title capitalize swapcase center ljust rjust zfill expandtabs removeprefix "
    "removesuffix isalnum isalpha isascii isdigit islower isspace istitle isupper"
)
_DRAWING = (
    "random getstate uniform randint randrange randbytes getrandbits choice choices sample shuffle triangular gauss "
    "normalvariate betavariate expovariate gammavariate lognormvariate vonmisesvariate paretovariate weibullvariate"
)
_METHODS = (
    Methods((LIST, DEQUE), f"{_OF_ALL} __iter__ __reversed__ __add__ __mul__ __rmul__", ITSELF, ITERATION),
    Methods((LIST, DEQUE), "index count", KEY, "c"),
    Methods((LIST, DEQUE, DICT, SET), "__len__", ITSELF, LENGTH),
    Methods((LIST, DEQUE), "__iadd__", ITSELF, ADDITION),
    Methods((LIST, DEQUE), "__imul__", ITSELF, REWRITE),

    Methods((LIST,), f"{_OF_BYTES} tobytes tolist tofile", ITSELF, ITERATION),
    Methods((LIST,), "append extend", ITSELF, ADDITION, when=LATE),
    Methods((LIST,), "frombytes fromlist fromfile", ITSELF, ADDITION),
    Methods((LIST,), "insert remove", ITSELF, REMOVAL, when=LATE),
    Methods((LIST,), "pop", ITSELF, REMOVAL),
    Methods((LIST,), "clear sort reverse byteswap", ITSELF, REWRITE),
    Methods((LIST,), "__getitem__", KEY, "r"),
    Methods((LIST,), "__setitem__", KEY, "w"),
    Methods((LIST,), "__delitem__", KEY, "d"),
    Methods((LIST,), "__contains__", KEY, "c"),

    Methods((DICT,), f"{_OF_ALL} items values most_common elements total __or__ __ror__", ITSELF, ITERATION),
    Methods((DICT,), "__add__ __sub__ __and__ __pos__ __neg__", ITSELF, ITERATION),
    Methods((DICT,), "keys __iter__ __reversed__", ITSELF, KEYS),
    Methods((DICT,), "popitem", ITSELF, REMOVAL),
    Methods((DICT,), "update", ITSELF, REWRITE, when=LATE),
    Methods((DICT,), "clear move_to_end subtract __ior__", ITSELF, REWRITE),
    Methods((DICT,), "get __getitem__ __contains__", KEY, "r"),
    Methods((DICT,), "__setitem__", KEY, "w"),
    Methods((DICT,), "pop __delitem__", KEY, "d"),
    Methods((DICT,), "setdefault", KEY, "rw"),

    Methods((SET,), f"{_OF_ALL} __iter__", ITSELF, ITERATION),
    Methods((SET,), "__or__ __and__ __sub__ __xor__ __ror__ __rand__ __rsub__ __rxor__", ITSELF, ITERATION),
    Methods((SET,), "union intersection difference symmetric_difference", ITSELF, ITERATION),
    Methods((SET,), "issubset issuperset isdisjoint", ITSELF, ITERATION),
    Methods((SET,), "update", ITSELF, ADDITION, when=LATE),
    Methods((SET,), "__ior__", ITSELF, ADDITION),
    Methods((SET,), "pop", ITSELF, REMOVAL),
    Methods((SET,), "clear __iand__ __isub__ __ixor__", ITSELF, REWRITE),
    Methods((SET,), "difference_update intersection_update symmetric_difference_update", ITSELF, REWRITE),
    Methods((SET,), "__contains__", KEY, "r"),
    Methods((SET,), "add", KEY, "w"),
    Methods((SET,), "discard", KEY, "d"),
    Methods((SET,), "remove", KEY, "d", when=LATE),

    # The ends of a deque are made for several threads, so they do not conflict.
    Methods((DEQUE,), "append appendleft extend extendleft", ITSELF, ADDITION, when=LATE),
    Methods((DEQUE,), "pop popleft", ITSELF, ADDITION),
    Methods((DEQUE,), "insert remove", ITSELF, REWRITE, when=LATE),
    Methods((DEQUE,), "rotate reverse clear", ITSELF, REWRITE),
    Methods((DEQUE,), "__contains__", KEY, "c"),

    # What is left to be done at the end of a block stands in a deque.
    Methods((DEQUE,), "callback push enter_context", ITSELF, ADDITION, when=LATE),
    Methods((DEQUE,), "push_async_callback push_async_exit enter_async_context", ITSELF, ADDITION, when=LATE),
    Methods((DEQUE,), "close pop_all aclose", ITSELF, REWRITE),

    Methods((CHANCE,), "seed setstate", ITSELF, REWRITE),
    Methods((CHANCE,), _DRAWING, ITSELF, LOOKUP),

    Methods((STREAM,), "update compress decompress flush decode reset", ITSELF, REWRITE),
    Methods((STREAM,), "setstate set_seq1 set_seq2 set_seqs", ITSELF, REWRITE),
    Methods((STREAM,), "add prepare get_ready done static_order", ITSELF, REWRITE),
    Methods((STREAM,), "is_active", ITSELF, ITERATION),
    Methods((STREAM,), "digest hexdigest copy getstate ratio quick_ratio get_opcodes", ITSELF, ITERATION),
    Methods((STREAM,), "get_matching_blocks find_longest_match", ITSELF, ITERATION),

    Methods((BUFFER,), "write writelines writerow writerows writeheader", ITSELF, ADDITION),
    Methods((BUFFER,), "getvalue getbuffer", ITSELF, ITERATION),
    Methods((BUFFER,), "tell", ITSELF, LENGTH),
    Methods((BUFFER,), "read read1 readline readlines readinto __iter__ __next__ __contains__", ITSELF, REWRITE),
    Methods((BUFFER,), "seek truncate", ITSELF, REWRITE),

    Methods((), "__iadd__", ITSELF, ADDITION, when=IN_PLACE),
    Methods((), "__imul__ __ior__ __iand__ __ixor__ __isub__", ITSELF, REWRITE, when=IN_PLACE),
    Methods((), "extend extendleft union intersection difference symmetric_difference", GIVEN, KEYS),
    Methods((), "issubset issuperset isdisjoint", GIVEN, KEYS),
    Methods((), "intersection_update difference_update symmetric_difference_update", GIVEN, KEYS),
    Methods((), "fromkeys _make", GIVEN, KEYS),
    Methods((), "__add__ __iadd__ __eq__ __or__ __ior__ __and__ __sub__ __xor__", GIVEN, ITERATION),
    Methods((), "join update subtract fromlist translate choice choices sample", GIVEN, ITERATION),
    Methods((), "format format_map substitute safe_substitute", GIVEN, ITERATION, SHOWN),
    Methods((), "sendall sendto execute executemany", GIVEN, ITERATION),
    Methods((), "write writelines writerow from_bytes unpack unpack_from iter_unpack", GIVEN, ITERATION),
    Methods((), "writerows", GIVEN, ITERATION, EACH),
    Methods((), "dump", GIVEN, ITERATION, STATE),
    Methods((), "read_dict", GIVEN, ITERATION, CONTENT),
    Methods((), "encode iterencode", GIVEN, ITERATION, CONTENT),
    Methods((), "shuffle readinto readinto1 recv_into recvfrom_into pack_into", GIVEN, REWRITE),
)

# What functions do

ALL = "*"
"""All functions of a module for which no other row says more."""
FIRST, SECOND, FIRST_BY_SECOND, STEPS, LATER = "first", "second", "first by second", "steps", "later"
"""Which argument a function touches: the first one, the second one, the first one after a look at the second one, what
it is given with each step of what it gives, or what it is given, but only later."""


class Functions(NamedTuple):
    """What functions of a module do to the container that they are given."""

    module: str
    names: str
    words: str
    inside: str = ""
    argument: str = FIRST


BUILTINS = "builtins"
_FUNCTIONS = (
    Functions(BUILTINS, "len bool", LENGTH),
    Functions(BUILTINS, "dict bytes bytearray", ITERATION),
    Functions(BUILTINS, "str format print", ITERATION, SHOWN),
    Functions(BUILTINS, "repr ascii", ITERATION, WRITTEN),
    Functions(BUILTINS, "hash", ITERATION, HASHED),
    Functions(BUILTINS, "list tuple set frozenset sum any all next iter reversed anext", KEYS),
    Functions(BUILTINS, "sorted min max", KEYS, RANKED),
    Functions(BUILTINS, "enumerate zip map filter", KEYS, argument=STEPS),
    Functions("array", "array", ITERATION),
    Functions("asyncio", "wait as_completed", ITERATION),
    Functions("base64", ALL, ITERATION),
    Functions("binascii", ALL, ITERATION),
    Functions("bisect", "bisect bisect_left bisect_right", ITERATION),
    Functions("bisect", "insort insort_left insort_right", REWRITE),
    Functions("bz2", ALL, ITERATION),
    Functions("collections", "Counter deque OrderedDict defaultdict UserDict UserList", ITERATION),
    Functions("concurrent.futures", "wait as_completed", ITERATION),
    Functions("configparser", "ConfigParser RawConfigParser", ITERATION),
    Functions("copy", "copy", ITERATION, FIELDS),
    Functions("copy", "deepcopy", ITERATION, STATE),
    Functions("csv", ALL, ITERATION),
    Functions("csv", "reader DictReader", ITERATION, argument=STEPS),
    Functions("csv", "writer DictWriter", "", argument=LATER),
    Functions("dataclasses", "asdict astuple", ITERATION, DECLARED),
    Functions("dataclasses", "replace", ITERATION, FIELDS),
    Functions("difflib", ALL, ITERATION),
    Functions("fnmatch", ALL, ITERATION),
    Functions("functools", "reduce", ITERATION),
    Functions("hashlib", ALL, ITERATION),
    Functions("heapq", "heappush heappop heapify heapreplace heappushpop", REWRITE),
    Functions("heapq", "nlargest nsmallest merge", ITERATION),
    Functions("html", ALL, ITERATION),
    Functions("inspect", "getmembers getmembers_static", ITERATION, FIELDS),
    Functions("io", "BytesIO", ITERATION),
    Functions("itertools", ALL, ITERATION),
    Functions(
        "itertools", "chain islice cycle accumulate compress dropwhile filterfalse groupby", ITERATION, argument=STEPS,
    ),
    Functions("itertools", "pairwise starmap takewhile zip_longest batched", ITERATION, argument=STEPS),
    Functions("itertools.chain", "from_iterable", ITERATION, EACH),
    Functions("json", ALL, ITERATION),
    Functions("json", "dumps dump", ITERATION, CONTENT),
    Functions("lzma", ALL, ITERATION),
    Functions("marshal", ALL, ITERATION),
    Functions("math", "fsum prod dist", ITERATION),
    Functions("operator", "truth not_ length_hint", LENGTH),
    Functions("operator", "add concat mul and_ or_ sub xor countOf indexOf mod", ITERATION),
    Functions("operator", "eq ne", ITERATION, COMPARED),
    Functions("operator", "lt le gt ge", ITERATION, ORDERED),
    Functions("operator", "iadd iconcat", ADDITION, argument=FIRST_BY_SECOND),
    Functions("operator", "imul ior iand isub ixor", REWRITE, argument=FIRST_BY_SECOND),
    Functions("os", "write pwrite execv execve execvp execvpe posix_spawn posix_spawnp spawnv", ITERATION),
    Functions("os", "writev", ITERATION, EACH),
    Functions("os.path", "commonpath commonprefix", ITERATION),
    Functions("pickle", ALL, ITERATION),
    Functions("pickle", "dumps dump", ITERATION, STATE),
    Functions("pprint", ALL, ITERATION),
    Functions("pprint", "pprint pformat", ITERATION, WRITTEN),
    Functions("random", "choice sample choices", ITERATION),
    Functions("random", "shuffle", REWRITE),
    Functions("reprlib", "repr", ITERATION, WRITTEN),
    Functions("secrets", "choice", ITERATION),
    Functions("select", "select", ITERATION),
    Functions("shlex", ALL, ITERATION),
    Functions("statistics", ALL, ITERATION),
    Functions("struct", ALL, ITERATION),
    Functions("struct", "pack_into", REWRITE, argument=SECOND),
    Functions("subprocess", "run call check_call check_output Popen list2cmdline", ITERATION),
    Functions("textwrap", ALL, ITERATION),
    Functions("urllib.parse", ALL, ITERATION),
    Functions("zlib", ALL, ITERATION),
)

# What looks at bytes alone

BUFFERS = "buffers"
"""Stands among the names of fields that modules store if some module makes a `bytearray` or an `array`."""
MAKING_BUFFERS = "bytearray"
MODULE_OF_BUFFERS = "array"
OF_BUFFERS = (bytearray, array)
"""Types whose bytes functions in C look at, which look at no other container."""
READING_BUFFERS = frozenset(
    "ast codecs email fcntl hmac io ipaddress mimetypes plistlib quopri re secrets socket ssl uu uuid "
    "xml.etree.ElementTree".split()
)
"""Modules whose functions do so."""
BUILTINS_OF_BUFFERS = frozenset(("compile", "float", "int"))
METHODS_OF_BUFFERS = frozenset(
    "send sendmsg match search fullmatch sub subn split rsplit findall finditer startswith endswith find rfind index "
    "rindex count replace strip lstrip rstrip partition rpartition removeprefix removesuffix translate write_bytes "
    "send_bytes feed join writelines sendall sendto write communicate parsestr".split()
)
"""Methods that do so, unless a class of the program has them."""

# What others read of the two tables


def _methods(touched: str, when: str | None = None) -> Iterator[tuple[Methods, str]]:
    """Each method that touches this, with its row."""
    rows = [row for row in _METHODS if row.touched == touched and (when is None or row.when == when)]
    return ((row, name) for row in rows for name in row.names.split())


def _functions(*arguments: str) -> Iterator[tuple[Functions, str]]:
    """Each function that touches one of these arguments, but for those of the language, with its row."""
    rows = [row for row in _FUNCTIONS if row.argument in arguments and row.module != BUILTINS and row.names != ALL]
    return ((row, f"{row.module}.{name}") for row in rows for name in row.names.split())


WHOLE: dict[int, dict[str, str]] = {
    kind: {name: row.words for row, name in _methods(ITSELF) if kind in row.kinds} for kind in TYPES
}
"""What each method does to the shape of a container."""
KEYED: dict[str, dict[int, str]] = {
    name: {kind: row.words for row, same in _methods(KEY) if same == name for kind in row.kinds}
    for _, name in _methods(KEY)
}
"""Methods whose first argument is a key, and what each kind does to the element."""
CONSUMING = {name: row.words for row, name in _methods(GIVEN)}
"""Methods that look at the containers which they are given, unless a class of the program has them."""
DEPTHS_OF_METHODS = {name: row.inside for row, name in _methods(GIVEN) if row.inside}
"""How deep a method looks at what it is given."""
_OF_CONTAINERS = (LIST, DICT, SET, DEQUE)
CHANGING_METHODS = frozenset(
    [name for kind in _OF_CONTAINERS for name, words in WHOLE[kind].items() if words in CHANGING]
    + [name for name, ways in KEYED.items() if any(ways.get(kind) in ("w", "d", "rw") for kind in _OF_CONTAINERS)]
)
"""Methods by which some kind of container is changed. The others look at it."""
CHANGING_OF_TYPES = frozenset(
    name for name in CHANGING_METHODS if any(hasattr(one, name) for kind in _OF_CONTAINERS for one in TYPES[kind])
)
"""Those that a type of the library has which is written in C."""
LOOKING_METHODS = frozenset(KEYED).union(
    name for kind in (*_OF_CONTAINERS, BUFFER) for name, words in WHOLE[kind].items() if words not in CHANGING
) - CHANGING_METHODS
"""Methods that only look at a container or at a buffer."""
LATE_METHODS = frozenset(name for touched in (ITSELF, KEY) for _, name in _methods(touched, LATE))
"""Those that change a container after all of their arguments are there."""
IN_PLACE_METHODS: dict[str, tuple[str, ...]] = {
    words: tuple(name for row, name in _methods(ITSELF, IN_PLACE) if row.words == words)
    for words in (ADDITION, REWRITE)
}
"""Those that an assignment as `+=` calls, by what it does to a container."""

OF_GENERATOR = frozenset("send throw close __next__ asend athrow aclose __anext__".split())
"""Methods by which a generator goes on."""
OF_FILE = frozenset("read readline readlines __next__ seek truncate".split())
"""Methods by which a file of text goes on."""
METHODS = frozenset(name for names in WHOLE.values() for name in names) | frozenset(KEYED) | OF_GENERATOR

READERS = {name: row.words for row in _FUNCTIONS if row.module == BUILTINS for name in row.names.split()}
"""Functions of the language that look at what they are given."""
SHOWING = {
    name: row.inside for row in _FUNCTIONS if row.module == BUILTINS and row.inside not in ("", RANKED)
    for name in row.names.split()
}
"""Those that show what is inside, too, and how."""
RANKING = frozenset(
    name for row in _FUNCTIONS if row.module == BUILTINS and row.inside == RANKED for name in row.names.split()
)
"""Those that compare elements with each other, unless they are given a key."""
STEPPERS = frozenset(
    name for row in _FUNCTIONS if row.module == BUILTINS and row.argument == STEPS for name in row.names.split()
)
"""Those that look at it step by step."""
IN_PLACE_FUNCTIONS = {name: row.words for row, name in _functions(FIRST_BY_SECOND)}
"""Functions that change their first argument, and look at the second one."""
CHANGED_ARGUMENT = {name: 1 for _, name in _functions(SECOND)}
"""Which argument a function changes, if it is not the first one."""
STEPPING = frozenset(name for _, name in _functions(STEPS))
"""Functions that look at what they are given step by step, as others look at what they give."""
CALLED_BY_STEPS = {
    **dict.fromkeys(("itertools.accumulate", "itertools.groupby"), 1),
    **dict.fromkeys([f"itertools.{name}" for name in ("dropwhile", "filterfalse", "starmap", "takewhile")], 0),
}
"""Which argument these call at each step."""
CHANGING_HEAPS = tuple(
    name for row in _FUNCTIONS if row.module == "heapq" and row.words == REWRITE for name in row.names.split()
)
"""Functions of `heapq` that change the list which they are given."""
_KNOWN = {name: row.words for row, name in _functions(FIRST, SECOND, FIRST_BY_SECOND)}
_DEPTHS = {name: row.inside for row, name in _functions(FIRST) if row.inside}
_KEEPING = frozenset(name for _, name in _functions(LATER))
_READING = frozenset(row.module for row in _FUNCTIONS if row.names == ALL)


def known_function(name: str | None) -> str | None:
    """What a function of the library does to the container that it is given first."""
    if name is None or name.startswith(".") or name in _KEEPING:
        return None
    module, _, last = name.rpartition(".")[0].rpartition(".")
    is_of_class = module in _READING and last[:1].isupper()
    return _KNOWN.get(name) or (ITERATION if is_of_class or name.rpartition(".")[0] in _READING else None)


def depth_of(name: str | None) -> str:
    """How deep a function of the library looks, if it looks deeper than at the container that it is given."""
    return "" if name is None else _DEPTHS.get(name, "")
