"""Runs of the program within a bound on its address space. The environment is empty and the stack may have 8 MiB, since both
count."""
import concurrent.futures
import json
import re
import resource
import subprocess
import tempfile

from common import NO_MEMORY, check

GREATEST = ["--events", "16384", "--tasks", "2048", "--messages", "16384"]
PAGE = 4096
STACK = 8 << 20
# The least bytes within which the released program of commit 175bc8faf gives the right answer, by export and command. Each of five
# searches gave these numbers for the first three exports. The others are the most that one run took.
LEAST = {
    "sends": {"check": 22401024, "load": 9109504},
    "locals": {"check": 22401024, "load": 6410240},
    "come_and_go": {"check": 23842816, "load": 7847936},
    "chain_of_1500": {"check": 188416000, "load": 329310208},
    "fan_of_1500": {"check": 188280832, "load": 329154560},
}
RESERVE = 1.05
# How many pages a sweep has at least. The C library takes 33 at a time, so that each rest of them is met.
PAGES = 36
# How many pages a sweep goes on above what was enough once. The kernel places the stack at random, so what is enough differs from
# run to run by some pages.
ABOVE = 16
# How many sweeps there are at a time.
WORKERS = 2
# Within so much it ends right on any of the deep traces.
ENOUGH = 128 << 20
# How long a run may take.
SECONDS = 240
LACKING = b"x 507 no memory"
# What the deepest walk takes of the stack, and how many levels its tree has.
DEEPEST = 532480
MOST_LEVELS = 2048
# Chains of so many tasks are as deep as the stack that was made for shorter ones holds, or a little deeper.
CHAINS = (500, 624, 780)


def sends():
    return [f"send root m{message}" for message in range(1, 16385)]


def locals_of_root():
    return ["local root"] * 16384


def come_and_go():
    """Tasks of eight events each, one at a time, and root."""
    reports = []
    for task in range(1, 2048):
        reports += [f"spawn root t{task}", *[f"local t{task}"] * 5, f"end t{task}", f"join root t{task}"]
    return reports + ["local root"] * (16384 - len(reports))


def with_locals(spawns):
    """The spawns, and a local event of each task that was started."""
    return [*spawns, *("local " + spawn.split()[2] for spawn in spawns)]


def chain(tasks):
    return ["spawn root t1", *(f"spawn t{task} t{task + 1}" for task in range(1, tasks))]


def fan(tasks):
    return [f"spawn root t{task}" for task in range(1, tasks + 1)]


def large_traces():
    """The reports of the traces that LEAST speaks of."""
    yield "sends", sends()
    yield "locals", locals_of_root()
    yield "come_and_go", come_and_go()
    yield "chain_of_1500", with_locals(chain(1500))
    yield "fan_of_1500", with_locals(fan(1500))


class Bounded:
    """A program whose runs have a bound on their address space. They read from files in this folder."""

    def __init__(self, program, folder):
        self.program = program
        self.folder = folder

    def file_of(self, data):
        """A file with these bytes."""
        with tempfile.NamedTemporaryFile(dir=self.folder, delete=False) as file:
            file.write(data)
        return file.name

    def run(self, words, source, most):
        """The status, output and standard error of a run that may take so many bytes. The status is negative if a signal ended it."""

        def bound():
            resource.setrlimit(resource.RLIMIT_STACK, (STACK, STACK))
            resource.setrlimit(resource.RLIMIT_CORE, (0, 0))
            resource.setrlimit(resource.RLIMIT_AS, (most, most))

        with open(source, "rb") as given:
            ran = subprocess.run([self.program.path, *words], stdin=given, capture_output=True, env={}, preexec_fn=bound, timeout=SECONDS)
        return ran.returncode, ran.stdout, ran.stderr

    def least_bytes(self, words, source, due):
        """The least pages within which a run ends so, in bytes, if it is not ended by a signal on the way."""
        less, enough = 0, ENOUGH
        while enough - less > PAGE:
            middle = (less + enough) // 2 // PAGE * PAGE
            if self.run(words, source, middle) == due:
                enough = middle
            else:
                less = middle
        return enough


def export_of(program, reports):
    """The lines that replay the reports, and their export."""
    lines = "".join(f"x {report}\n" for report in reports).encode()
    words = [program.path, "replay", *GREATEST, "--export", "x", "x"]
    ran = subprocess.run(words, input=lines, capture_output=True, env={}, timeout=SECONDS)
    check((ran.returncode, ran.stderr) == (0, b""), f"{program.path}: an export ends with {ran.returncode}")
    return lines, ran.stdout


def least_bytes_are_enough(program):
    """A check and a load give the right answer within the address space in which those of the first programs did."""
    with tempfile.TemporaryDirectory() as folder:
        bounded = Bounded(program, folder)
        for name, reports in large_traces():
            lines, export = export_of(program, reports)
            source = bounded.file_of(export)
            for words, right in ((["check"], b"yes %d\n" % len(reports)), (["load", "x"], lines)):
                most = int(LEAST[name][words[0]] * RESERVE)
                status, output, errors = bounded.run(words, source, most)
                check((status, output == right, errors) == (0, True, b""), f"{program.path} {words[0]}, {name}, within {most} bytes: {status} {errors}")


def deep_line_late():
    """An export of flat stamps, behind which one is nested as deep as it may be."""
    deep = f"(300,0,{'(0,0,' * 2047}1{')' * 2048}"
    for event in range(1, 302):
        yield json.dumps({"event": event, "kind": "local", "name": "-", "preds": [event - 1] if event > 1 else [],
                          "stamp": f"[1;{event if event < 301 else deep}]", "task": "root"}, separators=(",", ":")) + "\n"


def with_a_blank(export, line):
    """The export with a blank in this line."""
    lines = export.splitlines(True)
    lines[line] = lines[line].replace(b'"preds":[', b'"preds":[ ')
    return b"".join(lines)


def deep_runs(program):
    """Words, input and right output of runs over deep traces."""
    words = ["replay", *GREATEST, "x"]
    for tasks in CHAINS:
        data = "".join(f"x {report}\n" for report in with_locals(chain(tasks))).encode()
        yield words, data, program.run(words, data)[1]
    for family in (chain, fan):
        lines, export = export_of(program, with_locals(family(500)))
        late = with_a_blank(export, -10)
        yield ["check"], late, b"yes 1000\n"
        yield ["load", "x"], late, lines
        yield ["check"], export, b"yes 1000\n"


def is_an_end(words, told, right):
    """Whether a run may end so for want of memory: by status 4, or by replies of which some tell it."""
    status, output, errors = told
    if words[0] == "replay" and (status, errors) == (0, b""):
        return LACKING in output.splitlines() and output.count(b"\n") == right.count(b"\n")
    return (status, errors) == (NO_MEMORY[0], NO_MEMORY[2]) and right.startswith(output)


def least_that_begins(bounded):
    """The least bytes within which the program itself tells that it runs out of memory. Within less the loader or the kernel ends it."""
    source = bounded.file_of(b"")
    less, enough = 0, ENOUGH
    while enough - less > PAGE:
        middle = (less + enough) // 2 // PAGE * PAGE
        if bounded.run(["check"], source, middle) in (NO_MEMORY, (0, b"yes 0\n", b"")):
            enough = middle
        else:
            less = middle
    return enough


def sweep(bounded, words, source, right, first, last):
    """Runs within each bound from the first one to the last, a page more each time. Says whether one was enough, and one was not."""
    ends = set()
    for most in range(first, last, PAGE):
        told = bounded.run(words, source, most)
        is_due = told == (0, right, b"")
        check(is_due or is_an_end(words, told, right), f"{bounded.program.path} {words[0]}, within {most} bytes: {told[0]} {told[2]}")
        ends.add(is_due)
    return ends


def deep_line_sweep(bounded):
    """From where the program begins to what is enough for a line that is nested as deep as it may be."""
    source = bounded.file_of("".join(deep_line_late()).encode())
    words, right = ["check"], b"yes 301\n"
    enough = bounded.least_bytes(words, source, (0, right, b""))
    ends = sweep(bounded, words, source, right, least_that_begins(bounded) + ABOVE * PAGE, enough + ABOVE * PAGE)
    check(ends == {False, True}, f"{bounded.program.path}: a deep line ends right or not: {ends}")


def deep_trace_sweep(bounded, words, data, right):
    """From a bound that is too small to what is enough for a deep trace."""
    source = bounded.file_of(data)
    enough = bounded.least_bytes(words, source, (0, right, b""))
    ends = sweep(bounded, words, source, right, enough - PAGES * PAGE, enough + ABOVE * PAGE)
    check(ends == {False, True}, f"{bounded.program.path} {words[0]}: a deep trace ends right or not: {ends}")


def stack_of(running):
    """How long the stack of a running program is, in bytes."""
    with open(f"/proc/{running.pid}/status", encoding="ascii") as status:
        return 1024 * int(re.search(r"VmStk:\s+(\d+) kB", status.read())[1])


def stack_is_long_before_deep_walks(program):
    """A replay makes its stack long enough for walks over its trees before it makes them, however deep these are."""
    running = program.start("replay", *GREATEST, "x")
    spawns = chain(MOST_LEVELS - 1)

    def answered(reports):
        running.stdin.write("".join(f"x {report}\n" for report in reports).encode())
        return [running.stdout.readline() for _ in reports]

    answered(spawns[:400])
    check(stack_of(running) < DEEPEST, f"{program.path}: the stack is long before there is a deep tree: {stack_of(running)} bytes")
    before = 400
    for tasks in (401, 502, 700, 1000, 1500, len(spawns)):
        told = answered([*spawns[before:tasks], f"local t{tasks}"])
        check(all(line.startswith(b"x 201 ") for line in told), f"{program.path}: reports of {tasks} tasks are answered {told[-2:]}")
        wanted = DEEPEST * (tasks + 1) // MOST_LEVELS
        check(stack_of(running) >= wanted, f"{program.path}: the stack is too short for a tree of {tasks} levels: {stack_of(running)} bytes")
        before = tasks
    running.stdin.close()
    check(running.wait(SECONDS) == 0, f"{program.path}: a replay of a chain ends with {running.returncode}")


def no_bound_ends_by_a_signal(program):
    """Whatever the bound on the address space, a run over a deep trace ends right or tells that it runs out of memory."""
    with tempfile.TemporaryDirectory() as folder, concurrent.futures.ThreadPoolExecutor(WORKERS) as pool:
        bounded = Bounded(program, folder)
        deep_line_sweep(bounded)
        sweeps = [pool.submit(deep_trace_sweep, bounded, *run) for run in deep_runs(program)]
        for done in concurrent.futures.as_completed(sweeps):
            done.result()
