import static example.hometturi.itctrace.Traced.touch;

import example.hometturi.itctrace.Traced;
import example.hometturi.itctrace.TracedBoolean;
import example.hometturi.itctrace.TracedFuture;
import example.hometturi.itctrace.TracedInteger;
import example.hometturi.itctrace.TracedMonitor;
import example.hometturi.itctrace.TracedRecursiveTask;
import example.hometturi.itctrace.TracedThread;
import java.util.ArrayList;
import java.util.List;
import java.util.Map;
import java.util.TreeMap;
import java.util.concurrent.BlockingQueue;
import java.util.concurrent.CompletableFuture;
import java.util.concurrent.ConcurrentHashMap;
import java.util.concurrent.ConcurrentMap;
import java.util.concurrent.CountDownLatch;
import java.util.concurrent.CyclicBarrier;
import java.util.concurrent.Exchanger;
import java.util.concurrent.ExecutionException;
import java.util.concurrent.ExecutorService;
import java.util.concurrent.Executors;
import java.util.concurrent.ForkJoinPool;
import java.util.concurrent.Future;
import java.util.concurrent.LinkedBlockingQueue;
import java.util.concurrent.Phaser;
import java.util.concurrent.ScheduledExecutorService;
import java.util.concurrent.Semaphore;
import java.util.concurrent.TimeUnit;
import java.util.concurrent.locks.Lock;
import java.util.concurrent.locks.ReadWriteLock;
import java.util.concurrent.locks.ReentrantLock;
import java.util.concurrent.locks.ReentrantReadWriteLock;

/**
 * Programs as people write them, each with a race and without one: clients/scenarios.py runs them. With a race exactly the lines race
 * that name the program in a comment.
 *
 * <p>Usage: Scenarios NAME [race]
 */
final class Scenarios {
    private static final Map<String, Program> PROGRAMS = new TreeMap<>();

    private Scenarios() {}

    interface Program {
        void run(boolean isRaced) throws Exception;
    }

    interface Body {
        void run() throws Exception;
    }

    static TracedThread start(String name, Body body) {
        return Traced.start(
                name,
                () -> {
                    try {
                        body.run();
                    } catch (Exception failure) {
                        throw new IllegalStateException(failure);
                    }
                });
    }

    static List<TracedThread> start(int count, String name, Body body) {
        List<TracedThread> threads = new ArrayList<>();
        for (int number = 0; number < count; number++) {
            threads.add(start(name, body));
        }
        return threads;
    }

    static void join(List<TracedThread> threads) throws InterruptedException {
        for (TracedThread thread : threads) {
            thread.join();
        }
    }

    /** Clerks book under a lock. An auditor who does not acquire it reads what they write. */
    private static void bank(boolean isRaced) throws Exception {
        Lock lock = Traced.lock(new ReentrantLock());
        Body book =
                () -> {
                    for (int turn = 0; turn < 5; turn++) {
                        lock.lock();
                        touch("balance", false);
                        touch("balance", true); // race: bank
                        lock.unlock();
                    }
                };
        List<TracedThread> threads = start(3, "clerk", book);
        threads.add(
                start(
                        "auditor",
                        () -> {
                            if (!isRaced) {
                                lock.lock();
                                touch("balance", false);
                                lock.unlock();
                            } else {
                                touch("balance", false); // race: bank
                            }
                        }));
        join(threads);
    }

    /** Jobs of a pool each have a part. Who submitted them reads all parts, too early if there is a race. */
    private static void pool(boolean isRaced) throws Exception {
        ExecutorService pool = Traced.executor(Executors.newFixedThreadPool(3));
        List<Future<?>> jobs = new ArrayList<>();
        for (int number = 0; number < 6; number++) {
            String part = "part " + number;
            jobs.add(pool.submit(() -> touch(part, true))); // race: pool
        }
        if (isRaced) {
            touch("part 3", false); // race: pool
        }
        for (Future<?> job : jobs) {
            job.get();
        }
        touch("part 3", false);
        pool.shutdown();
        pool.awaitTermination(10, TimeUnit.SECONDS);
    }

    /** An item is filled before it is handed on, or also behind that. */
    private static void handOver(boolean isRaced) throws Exception {
        BlockingQueue<String> queue = Traced.queue(new LinkedBlockingQueue<>());
        Body take =
                () -> {
                    for (String item = queue.take(); !item.isEmpty(); item = queue.take()) {
                        touch(item, false); // race: hand_over
                    }
                };
        List<TracedThread> takers = start(2, "taker", take);
        for (int number = 0; number < 8; number++) {
            touch("item " + number, true);
            queue.put("item " + number);
        }
        if (isRaced) {
            touch("item 7", true); // race: hand_over
        }
        queue.put("");
        queue.put("");
        join(takers);
    }

    /** A table that many read and one writes, who acquires the lock for readers if there is a race. */
    private static void table(boolean isRaced) throws Exception {
        ReadWriteLock lock = Traced.lock(new ReentrantReadWriteLock());
        Body read =
                () -> {
                    for (int turn = 0; turn < 4; turn++) {
                        lock.readLock().lock();
                        touch("table", false); // race: table
                        lock.readLock().unlock();
                    }
                };
        List<TracedThread> threads = start(3, "reader", read);
        threads.add(
                start(
                        "writer",
                        () -> {
                            Lock own = isRaced ? lock.readLock() : lock.writeLock();
                            own.lock();
                            touch("table", true); // race: table
                            own.unlock();
                        }));
        join(threads);
    }

    /** Workers wait for a start and tell when they are done. */
    private static void gates(boolean isRaced) throws Exception {
        CountDownLatch begun = Traced.latch(1);
        CountDownLatch done = Traced.latch(3);
        Body work =
                () -> {
                    begun.await();
                    touch("plan", false);
                    touch(Thread.currentThread().getName(), true); // race: gates
                    done.countDown();
                };
        List<TracedThread> threads = new ArrayList<>();
        for (String name : List.of("first", "second", "third")) {
            threads.add(start(name, work));
        }
        touch("plan", true);
        begun.countDown();
        if (isRaced) {
            touch("second", false); // race: gates
        }
        done.await();
        touch("second", false);
        join(threads);
    }

    /** Rounds between barriers. The second barrier is forgotten if there is a race. */
    private static void rounds(boolean isRaced) throws Exception {
        CyclicBarrier barrier = Traced.barrier(3);
        List<TracedThread> threads = new ArrayList<>();
        for (int number = 0; number < 3; number++) {
            String own = "cell " + number;
            String next = "cell " + (number + 1) % 3;
            threads.add(
                    start(
                            "player",
                            () -> {
                                touch(own, true);
                                barrier.await();
                                touch(next, false); // race: rounds
                                if (!isRaced) {
                                    barrier.await();
                                }
                                touch(own, true); // race: rounds
                            }));
        }
        join(threads);
    }

    /** A chain of futures on a pool. */
    private static void chain(boolean isRaced) throws Exception {
        ExecutorService pool = Traced.executor(Executors.newFixedThreadPool(2));
        CompletableFuture<Integer> price =
                TracedFuture.supplyAsync(
                        () -> {
                            touch("price", true);
                            return 3;
                        },
                        pool);
        CompletableFuture<Void> sum =
                price.thenApplyAsync(
                                value -> {
                                    touch("price", false);
                                    touch("sum", true); // race: chain
                                    return value * 2;
                                },
                                pool)
                        .thenAcceptAsync(value -> touch("sum", true), pool); // race: chain
        if (isRaced) {
            touch("sum", false); // race: chain
        }
        sum.join();
        touch("sum", false);
        pool.shutdown();
    }

    /** An entry that whoever comes first makes. One who does not ask the map may come before it is there. */
    private static void cache(boolean isRaced) throws Exception {
        ConcurrentMap<String, String> map = Traced.map(new ConcurrentHashMap<>());
        Body ask =
                () -> {
                    map.computeIfAbsent(
                            "key",
                            key -> {
                                touch("entry", true); // race: cache
                                return "value";
                            });
                    touch("entry", false);
                };
        List<TracedThread> threads = start(4, "asker", ask);
        if (isRaced) {
            touch("entry", false); // race: cache
        }
        join(threads);
    }

    /** One connection for all. */
    private static void connection(boolean isRaced) throws Exception {
        Semaphore free = Traced.semaphore(1);
        Body use =
                () -> {
                    free.acquire();
                    touch("connection", true); // race: connection
                    free.release();
                };
        List<TracedThread> threads = start(3, "user", use);
        if (isRaced) {
            threads.add(start("thief", () -> touch("connection", true))); // race: connection
        }
        join(threads);
    }

    /** Whoever is done last reads what all have done. */
    private static void lastOne(boolean isRaced) throws Exception {
        TracedInteger left = new TracedInteger(3);
        List<TracedThread> threads = new ArrayList<>();
        for (int number = 0; number < 3; number++) {
            String own = "share " + number;
            threads.add(
                    start(
                            "worker",
                            () -> {
                                touch(own, true); // race: last_one
                                if (left.decrementAndGet() == 0) {
                                    touch("share 0", false);
                                    touch("share 1", false);
                                    touch("share 2", false);
                                }
                            }));
        }
        if (isRaced) {
            touch("share 1", false); // race: last_one
        }
        join(threads);
    }

    /** A worker goes on until a flag is set. */
    private static void stopFlag(boolean isRaced) throws Exception {
        TracedBoolean isStopped = new TracedBoolean(false);
        TracedThread worker =
                start(
                        "worker",
                        () -> {
                            while (!isStopped.get()) {
                                Thread.sleep(1);
                            }
                            touch("result", false); // race: stop_flag
                        });
        if (!isRaced) {
            touch("result", true);
        }
        isStopped.set(true);
        if (isRaced) {
            touch("result", true); // race: stop_flag
        }
        worker.join();
    }

    /** A job fails behind its write. Who catches that comes after it. */
    private static void failure(boolean isRaced) throws Exception {
        ExecutorService pool = Traced.executor(Executors.newCachedThreadPool());
        Future<?> job =
                pool.submit(
                        () -> {
                            touch("log", true); // race: failure
                            throw new IllegalStateException("as it is to be");
                        });
        if (isRaced) {
            touch("log", false); // race: failure
        }
        try {
            job.get();
        } catch (ExecutionException expected) {
            touch("log", false);
        }
        pool.shutdown();
    }

    /** Two locks that all acquire in one order. If there is a race, one holds a lock that nobody else acquires. */
    private static void twoLocks(boolean isRaced) throws Exception {
        Lock first = Traced.lock(new ReentrantLock());
        Lock second = Traced.lock(new ReentrantLock());
        Lock other = Traced.lock(new ReentrantLock());
        Body move =
                () -> {
                    first.lock();
                    second.lock();
                    touch("both", true); // race: two_locks
                    second.unlock();
                    first.unlock();
                };
        List<TracedThread> threads = start(3, "mover", move);
        threads.add(
                start(
                        "stranger",
                        () -> {
                            Lock own = isRaced ? other : second;
                            own.lock();
                            touch("both", true); // race: two_locks
                            own.unlock();
                        }));
        join(threads);
    }

    /** A box with room for one item, by wait and notify. */
    private static void box(boolean isRaced) throws Exception {
        Object box = new Object();
        boolean[] isFull = {false};
        TracedThread taker =
                start(
                        "taker",
                        () -> {
                            synchronized (box) {
                                try (TracedMonitor monitor = Traced.monitor(box)) {
                                    while (!isFull[0]) {
                                        monitor.await(100);
                                    }
                                }
                            }
                            touch("content", false); // race: box
                        });
        if (!isRaced) {
            touch("content", true);
        }
        synchronized (box) {
            TracedMonitor monitor = Traced.monitor(box);
            isFull[0] = true;
            box.notifyAll();
            monitor.close();
        }
        if (isRaced) {
            touch("content", true); // race: box
        }
        taker.join();
    }

    /** A stage that begins once the one before has arrived. */
    private static void stages(boolean isRaced) throws Exception {
        Phaser phaser = Traced.phaser(2);
        TracedThread second =
                start(
                        "second",
                        () -> {
                            phaser.arriveAndAwaitAdvance();
                            touch("draft", false); // race: stages
                        });
        if (!isRaced) {
            touch("draft", true);
        }
        phaser.arrive();
        if (isRaced) {
            touch("draft", true); // race: stages
        }
        second.join();
    }

    /** Two swap their buffers. */
    private static void swap(boolean isRaced) throws Exception {
        Exchanger<String> exchanger = Traced.exchanger();
        List<TracedThread> threads = new ArrayList<>();
        for (String own : List.of("left", "right")) {
            threads.add(
                    start(
                            own,
                            () -> {
                                touch(own, true);
                                String other = exchanger.exchange(own);
                                touch(other, true); // race: swap
                                if (isRaced) {
                                    touch(own, true); // race: swap
                                }
                            }));
        }
        join(threads);
    }

    /** Many threads, each with a cell, and one who reads them all. */
    private static void crowd(boolean isRaced) throws Exception {
        List<TracedThread> threads = new ArrayList<>();
        for (int number = 0; number < 64; number++) {
            String cell = "cell " + number;
            threads.add(start("one", () -> touch(cell, true))); // race: crowd
        }
        if (isRaced) {
            touch("cell 63", false); // race: crowd
        }
        join(threads);
        for (int number = 0; number < 64; number++) {
            touch("cell " + number, false);
        }
    }

    /** A thread that starts one and does not wait for it. */
    private static void grandchild(boolean isRaced) throws Exception {
        TracedThread[] young = {null};
        TracedThread child =
                start(
                        "child",
                        () -> {
                            young[0] = start("grandchild", () -> touch("toy", true)); // race: grandchild
                            if (!isRaced) {
                                young[0].join();
                            }
                        });
        child.join();
        touch("toy", false); // race: grandchild
        young[0].join();
    }

    /** What is done later. */
    private static void later(boolean isRaced) throws Exception {
        ScheduledExecutorService timer = Traced.scheduled(Executors.newScheduledThreadPool(1));
        touch("alarm", true);
        Future<?> ring = timer.schedule(() -> touch("alarm", true), 3, TimeUnit.MILLISECONDS); // race: later
        if (isRaced) {
            touch("alarm", false); // race: later
        }
        ring.get();
        touch("alarm", false);
        timer.shutdown();
    }

    /** The sum of a range in pieces. A piece is read before it is joined if there is a race. */
    private static final class Range extends TracedRecursiveTask<Integer> {
        private static final long serialVersionUID = 1L;

        private final int from;
        private final int to;
        private final boolean isRaced;

        Range(int from, int to, boolean isRaced) {
            this.from = from;
            this.to = to;
            this.isRaced = isRaced;
        }

        @Override
        protected Integer work() {
            if (to - from == 1) {
                touch("piece " + from, true); // race: pieces
                return from;
            }
            int middle = (from + to) / 2;
            Range low = new Range(from, middle, isRaced);
            Range high = new Range(middle, to, isRaced);
            low.start();
            high.start();
            if (isRaced) {
                touch("piece " + from, false); // race: pieces
            }
            int sum = low.result() + high.result();
            touch("piece " + from, false);
            return sum;
        }
    }

    private static void pieces(boolean isRaced) {
        ForkJoinPool pool = new ForkJoinPool(3);
        pool.submit(() -> new Range(0, 8, isRaced).start().result()).join();
        pool.shutdown();
    }

    static {
        PROGRAMS.put("bank", Scenarios::bank);
        PROGRAMS.put("pool", Scenarios::pool);
        PROGRAMS.put("hand_over", Scenarios::handOver);
        PROGRAMS.put("table", Scenarios::table);
        PROGRAMS.put("gates", Scenarios::gates);
        PROGRAMS.put("rounds", Scenarios::rounds);
        PROGRAMS.put("chain", Scenarios::chain);
        PROGRAMS.put("cache", Scenarios::cache);
        PROGRAMS.put("connection", Scenarios::connection);
        PROGRAMS.put("last_one", Scenarios::lastOne);
        PROGRAMS.put("stop_flag", Scenarios::stopFlag);
        PROGRAMS.put("failure", Scenarios::failure);
        PROGRAMS.put("two_locks", Scenarios::twoLocks);
        PROGRAMS.put("box", Scenarios::box);
        PROGRAMS.put("stages", Scenarios::stages);
        PROGRAMS.put("swap", Scenarios::swap);
        PROGRAMS.put("crowd", Scenarios::crowd);
        PROGRAMS.put("grandchild", Scenarios::grandchild);
        PROGRAMS.put("later", Scenarios::later);
        PROGRAMS.put("pieces", Scenarios::pieces);
        PROGRAMS.putAll(Services.PROGRAMS);
        PROGRAMS.putAll(Habits.PROGRAMS);
    }

    /** Runs the program of this name, or gives the names of all. */
    public static void main(String[] words) throws Exception {
        if (words.length == 0) {
            PROGRAMS.keySet().forEach(System.out::println);
        } else {
            PROGRAMS.get(words[0]).run(words.length > 1);
        }
    }
}
