import static example.hometturi.itctrace.Traced.touch;

import example.hometturi.itctrace.Traced;
import example.hometturi.itctrace.TracedBoolean;
import example.hometturi.itctrace.TracedFuture;
import example.hometturi.itctrace.TracedInteger;
import example.hometturi.itctrace.TracedMonitor;
import example.hometturi.itctrace.TracedReference;
import example.hometturi.itctrace.TracedThread;
import java.util.ArrayDeque;
import java.util.ArrayList;
import java.util.Deque;
import java.util.HashMap;
import java.util.List;
import java.util.Map;
import java.util.concurrent.BlockingQueue;
import java.util.concurrent.CompletableFuture;
import java.util.concurrent.ConcurrentHashMap;
import java.util.concurrent.ConcurrentMap;
import java.util.concurrent.CopyOnWriteArrayList;
import java.util.concurrent.CountDownLatch;
import java.util.concurrent.ExecutorService;
import java.util.concurrent.Executors;
import java.util.concurrent.LinkedBlockingQueue;
import java.util.concurrent.ScheduledExecutorService;
import java.util.concurrent.Semaphore;
import java.util.concurrent.TimeUnit;
import java.util.concurrent.locks.Condition;
import java.util.concurrent.locks.Lock;
import java.util.concurrent.locks.ReadWriteLock;
import java.util.concurrent.locks.ReentrantLock;
import java.util.concurrent.locks.ReentrantReadWriteLock;

/** More programs of {@code Scenarios}: what services do about time, about their beginning and about their end. */
final class Habits {
    static final Map<String, Scenarios.Program> PROGRAMS =
            Map.ofEntries(
                    Map.entry("expiry", Habits::expiry),
                    Map.entry("bucket", Habits::bucket),
                    Map.entry("subscribers", Habits::subscribers),
                    Map.entry("closing", Habits::closing),
                    Map.entry("backoff", Habits::backoff),
                    Map.entry("singleton", Habits::singleton),
                    Map.entry("counted", Habits::counted),
                    Map.entry("sessions", Habits::sessions),
                    Map.entry("flusher", Habits::flusher),
                    Map.entry("leased", Habits::leased),
                    Map.entry("upgrade", Habits::upgrade),
                    Map.entry("bounded", Habits::bounded),
                    Map.entry("poison", Habits::poison));

    private Habits() {}

    /** A cache whose entries a timer takes out. It does not enter the monitor if there is a race. */
    private static void expiry(boolean isRaced) throws Exception {
        Map<String, Integer> entries = new HashMap<>();
        ScheduledExecutorService clock = Traced.scheduled(Executors.newScheduledThreadPool(1));
        CountDownLatch isOut = Traced.latch(1);
        synchronized (entries) {
            try (TracedMonitor monitor = Traced.monitor(entries)) {
                touch("entries", true);
                entries.put("apple", 3);
            }
        }
        clock.schedule(
                () -> {
                    if (isRaced) {
                        touch("entries", true); // race: expiry
                    } else {
                        synchronized (entries) {
                            try (TracedMonitor monitor = Traced.monitor(entries)) {
                                touch("entries", true);
                                entries.remove("apple");
                            }
                        }
                    }
                    isOut.countDown();
                },
                1,
                TimeUnit.MILLISECONDS);
        List<TracedThread> threads =
                Scenarios.start(
                        3,
                        "reader",
                        () -> {
                            for (int turn = 0; turn < 4; turn++) {
                                synchronized (entries) {
                                    try (TracedMonitor monitor = Traced.monitor(entries)) {
                                        touch("entries", false); // race: expiry
                                    }
                                }
                            }
                        });
        isOut.await();
        Scenarios.join(threads);
        clock.shutdown();
    }

    /** Permits are given at a rate. Who has one counts under a lock, or without it if there is a race. */
    private static void bucket(boolean isRaced) throws Exception {
        Lock lock = Traced.lock(new ReentrantLock());
        Semaphore permits = Traced.semaphore(0);
        ScheduledExecutorService clock = Traced.scheduled(Executors.newScheduledThreadPool(1));
        touch("rate", true);
        clock.scheduleAtFixedRate(permits::release, 0, 200, TimeUnit.MICROSECONDS);
        List<TracedThread> threads =
                Scenarios.start(
                        3,
                        "caller",
                        () -> {
                            for (int turn = 0; turn < 3; turn++) {
                                permits.acquire();
                                touch("rate", false);
                                if (isRaced) {
                                    touch("passed", true); // race: bucket
                                } else {
                                    lock.lock();
                                    touch("passed", true);
                                    lock.unlock();
                                }
                            }
                        });
        Scenarios.join(threads);
        clock.shutdownNow();
        clock.awaitTermination(10, TimeUnit.SECONDS);
        touch("passed", false);
    }

    /** Each subscriber has a queue of its own. Who publishes changes the last message afterwards if there is a race. */
    private static void subscribers(boolean isRaced) throws Exception {
        List<BlockingQueue<String>> inboxes = new CopyOnWriteArrayList<>();
        CountDownLatch isIn = Traced.latch(3);
        List<TracedThread> threads =
                Scenarios.start(
                        3,
                        "subscriber",
                        () -> {
                            BlockingQueue<String> inbox = Traced.queue(new LinkedBlockingQueue<>());
                            inboxes.add(inbox);
                            isIn.countDown();
                            for (String message = inbox.take(); !message.isEmpty(); message = inbox.take()) {
                                touch(message, false); // race: subscribers
                            }
                        });
        isIn.await();
        for (int turn = 0; turn < 3; turn++) {
            String message = "message " + turn;
            touch(message, true);
            for (BlockingQueue<String> inbox : inboxes) {
                inbox.put(message);
            }
        }
        if (isRaced) {
            touch("message 2", true); // race: subscribers
        }
        for (BlockingQueue<String> inbox : inboxes) {
            inbox.put("");
        }
        Scenarios.join(threads);
    }

    /** A pool is shut down. What its jobs have done is read once it has ended, or at once if there is a race. */
    private static void closing(boolean isRaced) throws Exception {
        ExecutorService pool = Traced.executor(Executors.newFixedThreadPool(2));
        CountDownLatch isBegun = Traced.latch(4);
        for (int number = 0; number < 4; number++) {
            String tally = "tally " + number;
            pool.execute(
                    () -> {
                        isBegun.countDown();
                        touch(tally, true); // race: closing
                    });
        }
        pool.shutdown();
        isBegun.await();
        if (!isRaced) {
            while (!pool.awaitTermination(1, TimeUnit.SECONDS)) {
                continue;
            }
        }
        for (int number = 0; number < 4; number++) {
            touch("tally " + number, false); // race: closing
        }
        pool.awaitTermination(10, TimeUnit.SECONDS);
    }

    /** Another attempt is made after a while, until it goes well. An earlier one still goes on if there is a race. */
    private static void backoff(boolean isRaced) throws Exception {
        ScheduledExecutorService clock = Traced.scheduled(Executors.newScheduledThreadPool(2));
        CompletableFuture<Integer> answer = new TracedFuture<>();
        TracedThread late = isRaced ? Scenarios.start("late", () -> touch("connection", true)) : null; // race: backoff
        attempt(clock, answer, 1);
        if (answer.get() != 3) {
            throw new IllegalStateException("another attempt");
        }
        touch("connection", false); // race: backoff
        if (late != null) {
            late.join();
        }
        clock.shutdown();
    }

    private static void attempt(ScheduledExecutorService clock, CompletableFuture<Integer> answer, int number) {
        clock.schedule(
                () -> {
                    touch("connection", true); // race: backoff
                    if (number < 3) {
                        attempt(clock, answer, number + 1);
                    } else {
                        answer.complete(number);
                    }
                },
                100L << number,
                TimeUnit.MICROSECONDS);
    }

    /** The first one that needs the settings makes them. One looks at them who has not asked for them if there is a race. */
    private static void singleton(boolean isRaced) throws Exception {
        TracedReference<String> made = new TracedReference<>();
        Object lock = new Object();
        List<TracedThread> threads =
                Scenarios.start(
                        4,
                        "user",
                        () -> {
                            if (made.get() == null) {
                                synchronized (lock) {
                                    try (TracedMonitor monitor = Traced.monitor(lock)) {
                                        if (made.get() == null) {
                                            touch("settings", true); // race: singleton
                                            made.set("settings");
                                        }
                                    }
                                }
                            }
                            touch(made.get(), false);
                        });
        if (isRaced) {
            touch("settings", false); // race: singleton
        }
        Scenarios.join(threads);
    }

    /** The last user takes the resource away. If there is a race, the first one does, before it counts. */
    private static void counted(boolean isRaced) throws Exception {
        TracedInteger users = new TracedInteger(4);
        TracedInteger numbers = new TracedInteger();
        CountDownLatch isIn = new CountDownLatch(4); // Of the JDK: it only has all of them be there at once.
        List<TracedThread> threads =
                Scenarios.start(
                        4,
                        "user",
                        () -> {
                            boolean isFirst = numbers.getAndIncrement() == 0;
                            isIn.countDown();
                            isIn.await();
                            if (isFirst && isRaced) {
                                touch("resource", true); // race: counted
                            } else {
                                touch("resource", false); // race: counted
                            }
                            boolean isLast = users.decrementAndGet() == 0;
                            if (isLast && !isRaced) {
                                touch("resource", true);
                            }
                        });
        Scenarios.join(threads);
    }

    /** A session is made once for each name. Two share one that both change if there is a race. */
    private static void sessions(boolean isRaced) throws Exception {
        ConcurrentMap<String, String> known = Traced.map(new ConcurrentHashMap<>());
        TracedInteger numbers = new TracedInteger();
        List<TracedThread> threads =
                Scenarios.start(
                        4,
                        "client",
                        () -> {
                            String name = isRaced ? "session" : "session " + numbers.getAndIncrement();
                            known.computeIfAbsent(
                                    name,
                                    same -> {
                                        touch("plan of " + same, true);
                                        return same;
                                    });
                            for (int turn = 0; turn < 3; turn++) {
                                touch("plan of " + known.get(name), false);
                                touch(name, true); // race: sessions
                            }
                        });
        Scenarios.join(threads);
        known.forEach((name, plan) -> touch("plan of " + plan, false));
    }

    /** One writes what others have put into a buffer, once it is full or all are done. It looks at the tail too early if there is a race. */
    private static void flusher(boolean isRaced) throws Exception {
        Lock lock = Traced.lock(new ReentrantLock());
        Condition isFull = lock.newCondition();
        int[] buffer = {0};
        boolean[] isDone = {false};
        TracedThread writer =
                Scenarios.start(
                        "writer",
                        () -> {
                            lock.lock();
                            while (!isDone[0] || buffer[0] > 0) {
                                while (buffer[0] < 3 && !isDone[0]) {
                                    isFull.await();
                                }
                                touch("buffer", true);
                                buffer[0] = 0;
                            }
                            lock.unlock();
                            touch("tail", true); // race: flusher
                        });
        List<TracedThread> threads =
                Scenarios.start(
                        3,
                        "client",
                        () -> {
                            for (int turn = 0; turn < 4; turn++) {
                                lock.lock();
                                touch("buffer", true);
                                buffer[0]++;
                                isFull.signal();
                                lock.unlock();
                            }
                        });
        Scenarios.join(threads);
        lock.lock();
        isDone[0] = true;
        isFull.signalAll();
        lock.unlock();
        if (isRaced) {
            touch("tail", false); // race: flusher
        }
        writer.join();
        touch("tail", false);
    }

    /** Connections of which each is one user's at a time. One goes on with its own behind giving it back if there is a race. */
    private static void leased(boolean isRaced) throws Exception {
        Semaphore free = Traced.semaphore(2);
        Lock lock = Traced.lock(new ReentrantLock());
        Deque<String> idle = new ArrayDeque<>(List.of("connection 0", "connection 1"));
        Scenarios.Body use =
                () -> {
                    for (int turn = 0; turn < 3; turn++) {
                        free.acquire();
                        lock.lock();
                        touch("idle", true);
                        String own = idle.pop();
                        lock.unlock();
                        touch("use of " + own, false);
                        lock.lock();
                        touch("idle", true);
                        idle.push(own);
                        lock.unlock();
                        free.release();
                    }
                    if (isRaced) {
                        touch("last use", true); // race: leased
                    }
                };
        Scenarios.join(Scenarios.start(4, "user", use));
    }

    /** Readers look, and look again as writers. They write under the lock of readers if there is a race. */
    private static void upgrade(boolean isRaced) throws Exception {
        ReadWriteLock lock = Traced.lock(new ReentrantReadWriteLock());
        TracedBoolean isThere = new TracedBoolean();
        CountDownLatch isIn = new CountDownLatch(4); // Of the JDK: it only has all of them be there at once.
        List<TracedThread> threads =
                Scenarios.start(
                        4,
                        "user",
                        () -> {
                            lock.readLock().lock();
                            isIn.countDown();
                            isIn.await();
                            touch("value", false); // race: upgrade
                            if (isRaced) {
                                touch("value", true); // race: upgrade
                            }
                            lock.readLock().unlock();
                            if (!isRaced) {
                                lock.writeLock().lock();
                                if (!isThere.get()) {
                                    touch("value", true);
                                    isThere.set(true);
                                }
                                lock.writeLock().unlock();
                            }
                        });
        Scenarios.join(threads);
    }

    /** A bounded buffer, by wait and notify. A taker changes an item that its maker still writes if there is a race. */
    private static void bounded(boolean isRaced) throws Exception {
        Deque<String> items = new ArrayDeque<>();
        TracedThread taker =
                Scenarios.start(
                        "taker",
                        () -> {
                            for (int turn = 0; turn < 6; turn++) {
                                String item;
                                synchronized (items) {
                                    try (TracedMonitor monitor = Traced.monitor(items)) {
                                        while (items.isEmpty()) {
                                            monitor.await();
                                        }
                                        item = items.poll();
                                        items.notifyAll();
                                    }
                                }
                                touch(item, true); // race: bounded
                            }
                        });
        for (int turn = 0; turn < 6; turn++) {
            String item = "item " + turn;
            touch(item, true);
            synchronized (items) {
                try (TracedMonitor monitor = Traced.monitor(items)) {
                    while (items.size() >= 2) {
                        monitor.await();
                    }
                    items.add(item);
                    items.notifyAll();
                }
            }
        }
        if (isRaced) {
            touch("item 5", true); // race: bounded
        }
        taker.join();
        touch("item 5", false);
    }

    /** Stages that end by a pill. The last one is read too early if there is a race. */
    private static void poison(boolean isRaced) throws Exception {
        BlockingQueue<String> raw = Traced.queue(new LinkedBlockingQueue<>(2));
        BlockingQueue<String> done = Traced.queue(new LinkedBlockingQueue<>());
        TracedThread stage =
                Scenarios.start(
                        "stage",
                        () -> {
                            for (String item = raw.take(); !item.isEmpty(); item = raw.take()) {
                                touch(item, true); // race: poison
                                done.put(item);
                            }
                            done.put("");
                        });
        List<String> all = new ArrayList<>();
        for (int number = 0; number < 5; number++) {
            touch("item " + number, true);
            raw.put("item " + number);
        }
        if (isRaced) {
            touch("item 4", false); // race: poison
        }
        raw.put("");
        for (String item = done.take(); !item.isEmpty(); item = done.take()) {
            touch(item, false);
            all.add(item);
        }
        stage.join();
        if (all.size() != 5) {
            throw new IllegalStateException("items are lost");
        }
    }
}
