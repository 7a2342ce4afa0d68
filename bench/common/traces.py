#!/usr/bin/env python3
"""Writes the traces that `replay/run` replays into a folder, and for each a line: its name, and the words that both programs
take.

They are the same at every run. All requests are accepted or answered.
"""
import collections
import itertools
import random
import sys

EVENTS, TASKS, MESSAGES = 4096, 512, 2048
MOST_EVENTS, MOST_TASKS = 16384, 2048
GREATEST = f"--events {MOST_EVENTS} --tasks {MOST_TASKS} x"
NAMES = [f"task_{number}" for number in range(1, MOST_TASKS)]


def taken(names):
    return names.pop(random.randrange(len(names)))


def churn(events, tasks, messages, receivers=1):
    """Tasks that come and go, and send and receive where there are messages, each for so many receivers at most."""
    live, ended, unread, started, sent, readers = ["root"], [], [], 1, 0, collections.defaultdict(set)
    for _ in range(events):
        kind = random.random()
        if kind < 0.14 and started < tasks:
            live.append(f"task_{started}")
            yield f"spawn {random.choice(live[:-1])} {live[-1]}"
            started += 1
        elif kind < 0.27 and len(live) > 1:
            ended.append(taken(live))
            yield f"end {ended[-1]}"
        elif kind < 0.40 and ended:
            yield f"join {random.choice(live)} {taken(ended)}"
        elif kind < 0.65 and sent < messages:
            sent += 1
            unread.append(f"message_{sent}")
            yield f"send {random.choice(live)} {unread[-1]}"
        elif kind < 0.90 and unread:
            task, message = random.choice(live), taken(unread)
            yield f"local {task}" if task in readers[message] else f"recv {task} {message}"
            readers[message].add(task)
            if len(readers[message]) < receivers:
                unread.append(message)
        else:
            yield f"local {random.choice(live)}"


def talk(tasks):
    """Tasks that all live to the end, and send each other messages."""
    names = NAMES[:tasks]
    yield from (f"spawn root {name}" for name in names)
    for number in range(1, MESSAGES + 1):
        sender, receiver = random.sample(names, 2)
        yield f"send {sender} message_{number}"
        if number <= EVENTS - tasks - MESSAGES:
            yield f"recv {receiver} message_{number}"


def broadcasts(tasks, receivers, events):
    """Tasks that all live to the end, and in turn send a message that so many others receive."""
    names = NAMES[:tasks - 1]
    yield from (f"spawn root {name}" for name in names)
    for number in range(1, (events - len(names)) // (receivers + 1) + 1):
        sender, *others = random.sample(["root", *names], receivers + 1)
        yield f"send {sender} message_{number}"
        yield from (f"recv {other} message_{number}" for other in others)


def to_all():
    """As many tasks as there may be, each of which spawns two others, and which all receive the one message of root."""
    yield from (f"spawn {parent} {name}" for parent, name in zip(["root", *(name for name in NAMES for _ in range(2))], NAMES))
    yield "send root message"
    yield from (f"recv {name} message" for name in NAMES)


def of_each_receipt():
    """The message of `to_all`, and the past and the cut of each of its receipts."""
    for event in range(len(NAMES) + 2, 2 * len(NAMES) + 2):
        yield from ("message message", f"past {event}", f"cut {event}")


def build(jobs, events):
    """Jobs that start jobs, with so many at a time, one started for eight events: each works, and then ends and is joined by
    the one that started it."""
    spawns = events // 8 - 1
    locals_left = events - 3 * spawns
    names, started = iter(NAMES), {"root": None}
    while spawns or len(started) > 1:
        if spawns and len(started) <= jobs:
            parent, name = random.choice(list(started)), next(names)
            started[name] = parent
            spawns -= 1
            yield f"spawn {parent} {name}"
        else:
            name = random.choice([name for name in started if name not in started.values() and name != "root"])
            parent = started.pop(name)
            yield f"end {name}"
            yield f"join {parent} {name}"
        for _ in range(min(locals_left, random.randint(0, 5))):
            locals_left -= 1
            yield f"local {random.choice(list(started))}"
    yield from ["local root"] * locals_left


def pipeline(tasks, events):
    """A line of so many tasks, which all live to the end: the first sends messages, and each other one in turn receives a
    message of the one before it, and sends one on, unless it is the last. All of them are at work at the same time."""
    line = ["root", *NAMES[:tasks - 1]]

    def reports():
        yield from (f"spawn root {name}" for name in line[1:])
        for turn in itertools.count():
            for stage in reversed(range(min(turn + 1, tasks))):
                item = turn - stage
                if stage > 0:
                    yield f"recv {line[stage]} item_{item}_{stage}"
                if stage < tasks - 1:
                    yield f"send {line[stage]} item_{item}_{stage + 1}"

    return itertools.islice(reports(), events)


def grown(parents, joins):
    """As many tasks as there may be, each spawned by its parent; each does something, and ends and is joined."""
    yield from (f"spawn {parent} {name}" for parent, name in zip(parents, NAMES))
    yield from (f"local {name}" for name in NAMES)
    for parent, name in joins:
        yield f"end {name}"
        yield f"join {parent} {name}"


def fan_at_work():
    """As many tasks as there may be, all spawned by root; each does three things."""
    yield from (f"spawn root {name}" for name in NAMES)
    yield from (f"local {name}" for _ in range(3) for name in NAMES)


def orders(events, count):
    return (f"order {random.randint(1, events)} {random.randint(1, events)}" for _ in range(count))


def orders_again(events, pairs, count):
    """Orders of so many random pairs, each asked again and again."""
    pairs = [(random.randint(1, events), random.randint(1, events)) for _ in range(pairs)]
    return ("order {} {}".format(*random.choice(pairs)) for _ in range(count))


def lists(count):
    return (f"{keyword} {random.randint(1, EVENTS)}" for keyword in ("past", "concurrent") for _ in range(count))


def with_lists(reports, count):
    """The reports, and spread among them so many `past` and `concurrent` of an event that there is by then."""
    asked = dict(zip(random.sample(range(1, len(reports) + 1), 2 * count), ["past", "concurrent"] * count))
    for events, report in enumerate(reports, 1):
        yield report
        if events in asked:
            yield f"{asked[events]} {random.randint(1, events)}"


def with_asked(reports, keyword, asked):
    """The reports, and behind some of them a query of this keyword, of an event that there is by then."""
    for events, report in enumerate(reports, 1):
        yield report
        if events in asked:
            yield f"{keyword} {asked[events]}"


def named_last(reports, keyword):
    """The last word of each report with this keyword."""
    return [words[-1] for words in map(str.split, reports) if words[0] == keyword]


def query(tasks, messages, events):
    """A query of any kind but lists."""
    return random.choice([
        f"order {random.randint(1, events)} {random.randint(1, events)}",
        f"event {random.randint(1, events)}",
        f"stamp {random.randint(1, events)}",
        f"task {random.choice(tasks)}",
        f"message {random.choice(messages)}" if messages else "count",
        "count",
    ])


def queries(reports, count):
    tasks, messages = ["root", *named_last(reports, "spawn")], named_last(reports, "send")
    return (query(tasks, messages, len(reports)) for _ in range(count))


def growing(reports):
    """After each report a query of what there is by then."""
    tasks, messages = ["root"], []
    for events, report in enumerate(reports, 1):
        yield report
        keyword, *_, name = report.split()
        if keyword == "spawn":
            tasks.append(name)
        if keyword == "send":
            messages.append(name)
        yield query(tasks, messages, events)


def addressed(tenant, *requests):
    return [f"{tenant} {request}\n" for part in requests for request in part]


def interleaved(parts):
    """The lines of all, each part's in its order."""
    order = [place for place, part in enumerate(parts) for _ in part]
    random.shuffle(order)
    rests = [iter(part) for part in parts]
    return (next(rests[place]) for place in order)


def of_many(tenants):
    for tenant in tenants:
        reports = list(churn(1024, 128, 512))
        yield addressed(tenant, reports, queries(reports, 20_000))


def write(name, words, lines):
    with open(f"{sys.argv[1]}/{name}", "w") as file:
        file.writelines(lines)
    print(name, words)


if __name__ == "__main__":
    random.seed(1)
    without_messages, with_messages = list(churn(EVENTS, TASKS, 0)), list(churn(EVENTS, TASKS, MESSAGES))
    long_lived, built = list(talk(64)), list(build(64, MOST_EVENTS))
    chain = list(zip(["root", *NAMES], NAMES))
    fan = [("root", name) for name in NAMES]
    after = list(orders(4 * len(NAMES), 4_000))
    write("counts", "x", addressed("x", ["count"] * 1_000_000))
    write("orders", "x", addressed("x", ["local root"] * EVENTS, orders(EVENTS, 1_000_000)))
    write("churn", "x", addressed("x", without_messages, orders(EVENTS, 4_000)))
    write("churn_and_orders", "x", addressed("x", without_messages, orders(EVENTS, 1_000_000)))
    write("messages", "x", addressed("x", with_messages, queries(with_messages, 300_000)))
    write("lists", "x", addressed("x", with_messages, lists(200)))
    write("long_lived", "x", addressed("x", long_lived, queries(long_lived, 300_000)))
    tenants = [f"tenant_{number}" for number in range(16)]
    write("many_tenants", " ".join(tenants), interleaved(list(of_many(tenants))))
    write("build", GREATEST, addressed("x", built, orders(MOST_EVENTS, 300_000)))
    write("chain", GREATEST, addressed("x", grown(["root", *NAMES], reversed(chain)), after))
    write("chain_joined_by_root", GREATEST, addressed("x", grown(["root", *NAMES], fan), after))
    write("fan_first_made_first", GREATEST, addressed("x", grown(["root"] * len(NAMES), fan), after))
    write("fan_last_made_first", GREATEST, addressed("x", grown(["root"] * len(NAMES), reversed(fan)), after))
    write("growing", f"--messages {MOST_EVENTS} {GREATEST}", addressed("x", growing(churn(MOST_EVENTS, MOST_TASKS, MOST_EVENTS))))
    for events in (1024, 2048, 4096, 8192, 16384):
        write(f"live64_{events}", GREATEST, addressed("x", build(64, events)))
    write("lists_of_build", GREATEST, addressed("x", with_lists(list(build(64, MOST_EVENTS)), 200)))
    write("again", GREATEST, addressed("x", built, orders_again(MOST_EVENTS, 500, 300_000)))
    fanned = list(fan_at_work())
    write("fan_never", GREATEST, addressed("x", fanned, orders(len(fanned), 20_000)))
    write("fan_again", GREATEST, addressed("x", fanned, orders_again(len(fanned), 500, 20_000)))
    broadcast = list(broadcasts(64, 8, MOST_EVENTS))
    write("broadcast", GREATEST, addressed("x", broadcast, queries(broadcast, 300_000)))
    asked = {place: random.randint(1, place) for place in random.sample(range(1, MOST_EVENTS + 1), 200)}
    for keyword in ("cut", "past"):
        write(f"{keyword}s", GREATEST, addressed("x", with_asked(built, keyword, asked)))
        write(f"{keyword}s_of_broadcast", GREATEST, addressed("x", with_asked(broadcast, keyword, asked)))
    write("receivers", GREATEST, addressed("x", to_all(), of_each_receipt()))
    write("local", "x", addressed("x", ["local root"] * EVENTS, orders(EVENTS, 100_000)))
    passed_on = pipeline(8, MOST_EVENTS)
    write("pipeline", f"--messages {MOST_EVENTS} {GREATEST}", addressed("x", passed_on, orders(MOST_EVENTS, 4_000)))
    by_two = list(zip((name for name in ["root", *NAMES] for _ in range(2)), NAMES))
    write("forkjoin", GREATEST, addressed("x", grown([parent for parent, _ in by_two], reversed(by_two)), after))
