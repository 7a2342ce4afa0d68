"""What the tests of the built programs share: the programs as they were built, with calls that are bent or not; the stored
runs; and clients of a program that serves."""
import atexit
import contextlib
import itertools
import os
import shutil
import socket
import subprocess
import sys
import tempfile

TOP = os.path.dirname(os.path.dirname(os.path.abspath(__file__)))
SCRIPT = os.path.basename(sys.argv[0])
NO_MEMORY = (4, b"", b"itc_trace: no memory\n")
# Below the ports that the system gives to clients, and others for each script: a server that has ended is asked once more whether
# it has, and another script's server must not be the one to answer.
FIRST_PORT = 10000 + os.getpid() % 200 * 100


def check(holds, what, test=None):
    """Ends the script with what is wrong, unless this holds. What `test` names is one test, however often it is checked, and
    without a name each place of the scripts that checks is one."""
    if not holds:
        sys.exit(f"{SCRIPT}: wrong: {what}")
    caller = sys._getframe(1)
    check.tests.add(test or (caller.f_code.co_filename, caller.f_lineno))
    check.count += 1


check.tests, check.count = set(), 0


def tell():
    """The last lines of a script in which nothing is wrong."""
    print(f"{SCRIPT}: checked {check.count} times")
    print(f"{SCRIPT}: {len(check.tests)} passed")


def written_down(export):
    """A file with the export, to be looked at."""
    with tempfile.NamedTemporaryFile(prefix="spoiled_export_", delete=False) as file:
        file.write(export)
    return file.name


def file_of(run, file):
    """A file of a stored run."""
    with open(os.path.join(TOP, "crates/itc_trace/runs", run, file), "rb") as stored:
        return stored.read()


def deep_export(owned, known):
    """The lines of two events, with stamps nested 40 deep, of which the second owns and knows this at the bottom, and with a
    member that a later one of its key hides."""
    for event, bottom, value in ((1, "1", 1), (2, owned, known)):
        stamp = f"[{'(0,' * 40}{bottom}{')' * 40};{'(0,0,' * 40}{value}{')' * 40}]"
        preds, hidden = [1][:event - 1], '[[[[]]],{"a":{"b":1.5}},"\\u0061"]'
        yield f'{{"event":{hidden},"event":{event},"kind":"local","name":"-","preds":{preds},"stamp":"{stamp}","task":"root"}}\n'


def exports():
    """A good export, with and without its header, and the same with another stamp; and good and spoilt ones of deep stamps.
    Each has how its check ends and how many reads that takes."""
    yield file_of("an_export_is_right", "stdin"), (0, b"yes 8\n", b""), 2
    yield file_of("an_export_has_a_header", "stdin"), (0, b"yes 8\n", b""), 2
    yield file_of("an_export_has_another_stamp", "stdin"), (1, b"no 6 6\n", b""), 1
    for owned, known, ended, reads in (
        ("1", 2, (0, b"yes 2\n", b""), 2),
        ("(1,1)", 2, (1, b"no 2 5\n", b""), 1),
        ("1", "(1,1,2)", (1, b"no 2 5\n", b""), 1),
        ("1", "(0,0,2)", (1, b"no 2 6\n", b""), 1),
    ):
        yield "".join(deep_export(owned, known)).encode(), ended, reads


def loads():
    """An export with and without its header, and two that are not loaded. Each has how its load ends for the tenant `x` and how
    many reads that takes."""
    requests = b"".join(
        b"x %s\n" % request.encode()
        for request in ("local root", "spawn root a", "local a", "local root", "send a m", "recv root m", "end a", "join root a")
    )
    yield file_of("an_export_is_right", "stdin"), (0, requests, b""), 2
    yield file_of("an_export_has_a_header", "stdin"), (0, requests, b""), 2
    for spoilt in ("a_load_of_another_task", "a_load_of_another_stamp"):
        yield file_of(spoilt, "stdin"), (1, b"", file_of(spoilt, "stderr")), 1


def written_export():
    """Words that ask for an export, the lines of a replay, and the export that they get."""
    words, data, whole = (file_of("an_export_is_written", file) for file in ("words", "stdin", "stdout"))
    return words.decode().split(), data, whole


def shim_in(folder):
    """The library that bends calls, as it is loaded before the C library. `cc` makes it, or where there is none the
    toolchain's own C compiler."""
    compiler = shutil.which("cc")
    if not compiler:
        page = subprocess.run(["rt", "doc"], capture_output=True, text=True, check=True).stdout.strip()
        compiler = os.path.join(os.path.dirname(page), "toolchain/bin/clang")
    shim = os.path.join(folder, "faults.so")
    source = os.path.join(TOP, "tests/faults.c")
    subprocess.run([compiler, "-O2", "-shared", "-fPIC", "-nostdlib", "-o", shim, source], check=True)
    return shim


class Program:
    """A program as it was built, of which calls may be bent."""

    def __init__(self, path, shim=None):
        self.path = path
        self.shim = shim

    def start(self, *words, stdout=subprocess.PIPE, **bent):
        """The program as it runs."""
        loaded = {"LD_PRELOAD": self.shim, **{word.upper(): str(value) for word, value in bent.items()}}
        files = [bent["told"]] if "told" in bent else []
        pipes = {"stdin": subprocess.PIPE, "stdout": stdout, "stderr": subprocess.PIPE}
        return subprocess.Popen([self.path, *words], bufsize=0, env=loaded if bent else {}, pass_fds=files, **pipes)

    def run(self, words=(), data=b"", **bent):
        """Its status, output and standard error."""
        return end_of(self.start(*words, **bent), data)

    def each_refusal(self):
        """How to bend its calls so that each of its requests for memory is refused, in turn, until a run meets no refusal."""
        for at in itertools.count():
            reads, writes = os.pipe()
            yield {"bent": "memory", "at": at, "told": writes}
            os.close(writes)
            met = os.read(reads, 1)
            os.close(reads)
            if not met:
                break
        check(at > 0, f"{self.path} asks for no memory")


def end_of(program, data=None):
    """The status, output and standard error of a program that has run to its end, with this as the rest of its input."""
    try:
        output, errors = program.communicate(data, timeout=60)
    except subprocess.TimeoutExpired:
        program.kill()
        sys.exit(f"{SCRIPT}: wrong: {program.args} does not end")
    return program.returncode, output, errors


def built(name, shim=None):
    """The builds of a program of these sources: the one that .ci/choose finds, which LLVM made, and that of Rattle's own compiler
    where it was made after it."""
    ran = subprocess.run([os.path.join(TOP, ".ci/choose"), name], stdin=subprocess.DEVNULL, stdout=subprocess.PIPE, text=True)
    path = ran.stdout.strip()
    if ran.returncode or not os.path.exists(path):
        sys.exit(f"{SCRIPT}: there is no program {name} of these sources")
    other = path + ".by-rattle"
    is_as_new = os.path.exists(other) and os.path.getmtime(other) >= os.path.getmtime(path)
    return [Program(way, shim) for way in (path, other)[:1 + is_as_new]]


def serving(program, *words, **bent):
    """A program that serves at the first port from FIRST_PORT that can be bound, and the port; or how it ended, and no port. It
    does not outlive the script."""
    for port in range(FIRST_PORT, FIRST_PORT + 100):
        server = program.start("serve", "--port", str(port), *words, **bent)
        atexit.register(server.kill)
        line = server.stdout.readline()
        if line:
            check(line == f"listening {port}\n".encode(), f"{program.path}: {line}")
            return server, port
        told = end_of(server)
        if told != (3, b"", b"itc_trace: port\n"):
            return told, None
    sys.exit("no port can be bound")


def served(server, port):
    """How a server ends once it has taken all connections that it was asked for."""
    for _ in range(2000):
        with contextlib.suppress(ConnectionError):
            Client(port).close()
        with contextlib.suppress(subprocess.TimeoutExpired):
            server.wait(0.005)
            break
    return end_of(server)


class Client:
    """A client of a program that serves, with a session that begins so."""

    def __init__(self, port, *lines):
        self.socket = socket.create_connection(("127.0.0.1", port), timeout=60)
        self.replies = self.socket.makefile("rb")
        self.put(*lines)

    def put(self, *lines):
        self.socket.sendall("".join(f"{line}\n" for line in lines).encode())

    def ask(self, line):
        """The reply to a line; nothing where the session has ended."""
        try:
            self.put(line)
            return self.replies.readline().decode().removesuffix("\n")
        except ConnectionError:
            return ""

    def end(self, *lines):
        """What is still answered, if it ends with these lines."""
        self.put(*lines)
        rest = self.replies.read().decode()
        self.close()
        return rest

    def close(self):
        self.replies.close()
        self.socket.close()
