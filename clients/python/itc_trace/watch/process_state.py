"""What the library keeps once for all threads of a process, and which of its functions change it or look at it.

Each is a thing of its own, as a variable of a module is. Those who look at it are noted only if some module of the
program changes it.
"""

from __future__ import annotations

from typing import NamedTuple


class Kept(NamedTuple):
    """A thing that a module of the library keeps, and the functions that change it, that look at it, or do either.

    A function that changes it if it is given so many words looks at it if it is given fewer. A variable of the module
    may have it, too.
    """

    name: str
    module: str
    changing: str
    looking: str = ""
    words: int = 0
    variable: str = ""


_KEPT = (
    Kept("the working directory", "os", "chdir fchdir", "getcwd getcwdb"),
    Kept("the working directory", "os.path", "", "abspath realpath relpath"),
    Kept("the working directory", "contextlib", "chdir"),
    Kept("the file mode mask", "os", "umask"),
    Kept("the user of the process", "os", "setuid setgid seteuid setegid setreuid setregid setresuid "
         "setresgid setgroups",
         "getuid getgid geteuid getegid getresuid getresgid getgroups"),
    Kept("the root directory", "os", "chroot"),
    Kept("the priority of the process", "os", "nice setpriority", "getpriority"),
    Kept("the processors of the process", "os", "sched_setaffinity", "sched_getaffinity"),
    Kept("sys.stdout", "contextlib", "redirect_stdout"),
    Kept("sys.stdout", "sys", "", variable="stdout"),
    Kept("sys.stderr", "contextlib", "redirect_stderr"),
    Kept("sys.stderr", "sys", "", variable="stderr"),
    Kept("the folder of temporary files", "tempfile", "",
         "gettempdir gettempdirb mkstemp mkdtemp mktemp TemporaryFile NamedTemporaryFile TemporaryDirectory "
         "SpooledTemporaryFile", variable="tempdir"),
    Kept("the first day of a week", "calendar", "setfirstweekday",
         "firstweekday monthcalendar month calendar prmonth prcal week weekheader"),
    Kept("the formats of archives", "shutil",
         "register_archive_format unregister_archive_format register_unpack_format unregister_unpack_format",
         "get_archive_formats get_unpack_formats make_archive unpack_archive"),
    Kept("the texts of gettext", "gettext", "textdomain install", "gettext ngettext pgettext dgettext", words=1),
    Kept("the texts of gettext", "gettext", "bindtextdomain", words=2),
    Kept("the log of the system", "syslog", "openlog closelog setlogmask", "syslog"),
    Kept("the flags of libraries in C", "sys", "setdlopenflags", "getdlopenflags"),
    Kept("the browsers", "webbrowser", "register", "get open open_new open_new_tab"),
    Kept("the character sets of mail", "email.charset", "add_charset add_alias add_codec"),
    Kept("the places of time zones", "zoneinfo", "reset_tzpath"),
    Kept("the name of the machine", "socket", "sethostname", "gethostname"),
    Kept("the group of the process", "os", "setpgid setpgrp setsid", "getpgid getpgrp getsid"),
    Kept("the policy of the scheduler", "os", "sched_setscheduler sched_setparam", "sched_getscheduler sched_getparam"),
    Kept("the filters of warnings", "warnings", "catch_warnings simplefilter filterwarnings resetwarnings",
         "warn warn_explicit"),
    Kept("the filters of warnings", "logging", "captureWarnings"),
    Kept("the locale", "locale", "setlocale", "localeconv getlocale", words=2),
    Kept("the locale", "locale", "", "str format_string currency atof atoi strcoll strxfrm nl_langinfo"),
    Kept("the signal handlers", "signal", "signal siginterrupt set_wakeup_fd", "getsignal"),
    Kept("the interval timers", "signal", "alarm setitimer", "getitimer"),
    Kept("the random generator", "random", "seed setstate",
         "getstate random uniform randint randrange randbytes getrandbits choice choices sample shuffle "
         "triangular gauss "
         "normalvariate betavariate expovariate gammavariate lognormvariate vonmisesvariate paretovariate "
         "weibullvariate binomialvariate"),
    Kept("the default timeout of sockets", "socket", "setdefaulttimeout",
         "getdefaulttimeout socket create_connection"),
    Kept("the time zone", "time", "tzset", "localtime mktime strftime ctime asctime"),
    Kept("the recursion limit", "sys", "setrecursionlimit", "getrecursionlimit"),
    Kept("the switch interval", "sys", "setswitchinterval", "getswitchinterval"),
    Kept("the limit of digits", "sys", "set_int_max_str_digits", "get_int_max_str_digits"),
    Kept("the stack size of threads", "threading", "stack_size"),
    Kept("the trace function of threads", "threading", "settrace settrace_all_threads", "gettrace"),
    Kept("the profile function of threads", "threading", "setprofile setprofile_all_threads", "getprofile"),
    Kept("the collector of garbage", "gc", "enable disable freeze unfreeze set_debug",
         "isenabled get_debug get_freeze_count"),
    Kept("the thresholds of the collector of garbage", "gc", "set_threshold", "get_threshold"),
    Kept("the trace of memory", "tracemalloc", "start stop clear_traces", "is_tracing take_snapshot get_traced_memory"),
    Kept("the limits of the process", "resource", "setrlimit", "getrlimit"),
    Kept("the dialects of csv", "csv", "register_dialect unregister_dialect",
         "get_dialect list_dialects reader writer"),
    Kept("the limit of csv fields", "csv", "field_size_limit"),
    Kept("the types of files", "mimetypes", "add_type init", "guess_type guess_extension guess_all_extensions"),
    Kept("the codecs", "codecs", "register unregister register_error", "lookup lookup_error encode decode"),
    Kept("the reducers of copyreg", "copyreg", "pickle constructor add_extension remove_extension "
         "clear_extension_cache"),
    Kept("the start method of processes", "multiprocessing", "set_start_method set_executable", "get_start_method"),
    Kept("the policy of event loops", "asyncio", "set_event_loop_policy", "get_event_loop_policy new_event_loop"),
    Kept("the configuration of logging", "logging", "basicConfig disable addLevelName setLoggerClass "
         "setLogRecordFactory",
         "getLevelName getLoggerClass getLogRecordFactory"),
    Kept("the configuration of logging", "logging.config", "dictConfig fileConfig"),
    Kept("the opener of urllib", "urllib.request", "install_opener", "urlopen urlretrieve"),
    Kept("the namespaces of XML", "xml.etree.ElementTree", "register_namespace", "tostring dump"),
    Kept("the adapters of sqlite3", "sqlite3", "register_adapter register_converter enable_callback_tracebacks"),
    Kept("the lines of source", "linecache", "clearcache checkcache updatecache", "getline getlines"),
    Kept("the fault handler", "faulthandler", "enable disable dump_traceback_later cancel_dump_traceback_later",
         "is_enabled"),
    Kept("the finders of modules", "importlib", "invalidate_caches"),
    Kept("the compiled expressions", "re", "purge"),
)
PRINTED = "sys.stdout"
"""What `print` looks at."""
LEVEL = "level"
"""The field of a logger or a handler that some of its methods look at."""
LEVELS = {
    "setLevel": "w",
    **dict.fromkeys("isEnabledFor getEffectiveLevel debug info warning error exception critical log".split(), "r"),
}
"""These methods, and what each does."""
CHANGED_STATE = "state of the library: "
"""Stands before the name of a thing that some module of the program changes, among the names of fields."""

CHANGES: dict[str, Kept] = {f"{one.module}.{name}": one for one in _KEPT for name in one.changing.split()}
LOOKS: dict[str, Kept] = {f"{one.module}.{name}": one for one in _KEPT for name in one.looking.split()}
VARIABLES: dict[str, Kept] = {f"{one.module}.{one.variable}": one for one in _KEPT if one.variable}
"""Variables of modules that have such a thing, by their dotted names."""
_BY_LAST_NAME: dict[str, frozenset[str]] = {
    last: frozenset(one.name for name, one in CHANGES.items() if name.rpartition(".")[2] == last)
    for last in {name.rpartition(".")[2] for name in CHANGES}
}
NAMES_OF_CHANGES = frozenset((*_BY_LAST_NAME, "setLevel"))


def changed_by(name: str) -> frozenset[str]:
    """The things that a function of this name may change, whichever module it is of."""
    return frozenset((LEVEL,)) if LEVELS.get(name) == "w" else _BY_LAST_NAME.get(name, frozenset())


def touched_by(name: str, words: int) -> tuple[str, str] | None:
    """The thing that a call of this function with so many words touches, and how. None, if it touches none."""
    changing = CHANGES.get(name)
    if changing is not None:
        return changing.name, "w" if words >= changing.words else "r"
    looking = LOOKS.get(name)
    return None if looking is None else (looking.name, "r")


def kept_in(name: str | None) -> str | None:
    """The thing that a variable of this dotted name has. None, if it has none."""
    kept = None if name is None else VARIABLES.get(name)
    return None if kept is None else kept.name
