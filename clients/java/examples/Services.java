import static example.hometturi.itctrace.Traced.touch;

import example.hometturi.itctrace.Traced;
import example.hometturi.itctrace.TracedBoolean;
import example.hometturi.itctrace.TracedFuture;
import example.hometturi.itctrace.TracedReference;
import example.hometturi.itctrace.TracedThread;
import java.util.ArrayDeque;
import java.util.ArrayList;
import java.util.Deque;
import java.util.List;
import java.util.Map;
import java.util.concurrent.ArrayBlockingQueue;
import java.util.concurrent.BlockingQueue;
import java.util.concurrent.Callable;
import java.util.concurrent.CompletableFuture;
import java.util.concurrent.ConcurrentHashMap;
import java.util.concurrent.ConcurrentMap;
import java.util.concurrent.CountDownLatch;
import java.util.concurrent.ExecutorCompletionService;
import java.util.concurrent.ExecutorService;
import java.util.concurrent.Executors;
import java.util.concurrent.Future;
import java.util.concurrent.Phaser;
import java.util.concurrent.ScheduledExecutorService;
import java.util.concurrent.TimeUnit;
import java.util.concurrent.locks.Condition;
import java.util.concurrent.locks.Lock;
import java.util.concurrent.locks.ReadWriteLock;
import java.util.concurrent.locks.ReentrantLock;
import java.util.concurrent.locks.ReentrantReadWriteLock;
import java.util.stream.IntStream;

/** Programs of services, each with a race and without one, as those of Scenarios. */
final class Services {
    static final Map<String, Scenarios.Program> PROGRAMS =
            Map.ofEntries(
                    Map.entry("combine", Services::combine),
                    Map.entry("merged", Services::merged),
                    Map.entry("arrivals", Services::arrivals),
                    Map.entry("invoked", Services::invoked),
                    Map.entry("completion", Services::completion),
                    Map.entry("downgrade", Services::downgrade),
                    Map.entry("drained", Services::drained),
                    Map.entry("actor", Services::actor),
                    Map.entry("double_checked", Services::doubleChecked),
                    Map.entry("ring", Services::ring),
                    Map.entry("stack", Services::stack),
                    Map.entry("ticks", Services::ticks),
                    Map.entry("promise", Services::promise),
                    Map.entry("copy_on_write", Services::copyOnWrite));

    private Services() {}

    /** Prices of three shops are asked for on a pool. One shop fails, which is made up for. */
    private static void combine(boolean isRaced) throws Exception {
        ExecutorService pool = Traced.executor(Executors.newFixedThreadPool(3));
        List<CompletableFuture<Integer>> prices = new ArrayList<>();
        for (int shop = 0; shop < 3; shop++) {
            int number = shop;
            CompletableFuture<Integer> price =
                    TracedFuture.supplyAsync(
                            () -> {
                                touch("price " + number, true); // race: combine
                                if (number == 1) {
                                    throw new IllegalStateException("on purpose");
                                }
                                return number;
                            },
                            pool);
            prices.add(
                    price.exceptionally(
                            failure -> {
                                touch("price " + number, false);
                                return 7;
                            }));
        }
        CompletableFuture<Integer> sum =
                TracedFuture.allOf(prices.toArray(CompletableFuture[]::new))
                        .thenApply(
                                nothing -> {
                                    IntStream.range(0, 3).forEach(shop -> touch("price " + shop, false));
                                    return prices.stream().mapToInt(CompletableFuture::join).sum();
                                });
        if (isRaced) {
            touch("price 2", false); // race: combine
        }
        if (sum.join() != 9) {
            throw new IllegalStateException("another sum");
        }
        touch("price 2", false);
        pool.shutdown();
    }

    /** Words are counted by a map. One is counted beside the map if there is a race. */
    private static void merged(boolean isRaced) throws Exception {
        ConcurrentMap<String, Integer> counts = Traced.map(new ConcurrentHashMap<>());
        counts.put("word", 0);
        Scenarios.Body count =
                () -> {
                    for (int turn = 0; turn < 4; turn++) {
                        counts.merge(
                                "word",
                                1,
                                (one, other) -> {
                                    touch("count", false);
                                    touch("count", true); // race: merged
                                    return one + other;
                                });
                    }
                };
        List<TracedThread> threads = Scenarios.start(3, "counter", count);
        if (isRaced) {
            threads.add(Scenarios.start("stranger", () -> touch("count", false))); // race: merged
        }
        Scenarios.join(threads);
        touch("count", false);
    }

    /** Workers register with a phaser, and leave it when they are done. */
    private static void arrivals(boolean isRaced) throws Exception {
        Phaser phaser = Traced.phaser(1);
        List<TracedThread> threads = new ArrayList<>();
        for (int number = 0; number < 3; number++) {
            String cell = "cell " + number;
            phaser.register();
            threads.add(
                    Scenarios.start(
                            "worker",
                            () -> {
                                touch(cell, true); // race: arrivals
                                phaser.arriveAndDeregister();
                            }));
        }
        if (isRaced) {
            touch("cell 1", false); // race: arrivals
        }
        phaser.arriveAndAwaitAdvance();
        IntStream.range(0, 3).forEach(number -> touch("cell " + number, false));
        Scenarios.join(threads);
    }

    /** Several jobs at once, each with a cell. */
    private static void invoked(boolean isRaced) throws Exception {
        ExecutorService pool = Traced.executor(Executors.newCachedThreadPool());
        List<Callable<Integer>> jobs = new ArrayList<>();
        for (int number = 0; number < 4; number++) {
            int cell = number;
            jobs.add(
                    () -> {
                        touch("cell " + cell, true); // race: invoked
                        return cell;
                    });
        }
        List<TracedThread> threads = new ArrayList<>();
        if (isRaced) {
            threads.add(Scenarios.start("early", () -> touch("cell 2", false))); // race: invoked
        }
        pool.invokeAll(jobs);
        IntStream.range(0, 4).forEach(number -> touch("cell " + number, false));
        Scenarios.join(threads);
        pool.shutdown();
    }

    /** Whichever job is done first is taken first. */
    private static void completion(boolean isRaced) throws Exception {
        ExecutorService pool = Traced.executor(Executors.newFixedThreadPool(2));
        ExecutorCompletionService<Integer> jobs = new ExecutorCompletionService<>(pool);
        for (int number = 0; number < 4; number++) {
            int cell = number;
            jobs.submit(
                    () -> {
                        touch("cell " + cell, true); // race: completion
                        return cell;
                    });
        }
        if (isRaced) {
            touch("cell 3", false); // race: completion
        }
        for (int turn = 0; turn < 4; turn++) {
            Future<Integer> job = jobs.take();
            touch("cell " + job.get(), false);
        }
        pool.shutdown();
    }

    /** Who has written goes on as a reader, and writes once more if there is a race. */
    private static void downgrade(boolean isRaced) throws Exception {
        ReadWriteLock lock = Traced.lock(new ReentrantReadWriteLock());
        CountDownLatch downgraded = new CountDownLatch(1);
        CountDownLatch read = new CountDownLatch(2);
        TracedThread writer =
                Scenarios.start(
                        "writer",
                        () -> {
                            lock.writeLock().lock();
                            touch("table", true);
                            lock.readLock().lock();
                            lock.writeLock().unlock();
                            downgraded.countDown();
                            touch("table", false);
                            if (isRaced) {
                                touch("table", true); // race: downgrade
                            }
                            read.await();
                            lock.readLock().unlock();
                        });
        List<TracedThread> readers =
                Scenarios.start(
                        2,
                        "reader",
                        () -> {
                            downgraded.await();
                            lock.readLock().lock();
                            touch("table", false); // race: downgrade
                            lock.readLock().unlock();
                            read.countDown();
                        });
        writer.join();
        Scenarios.join(readers);
    }

    /** Whoever takes items takes all that are there, up to a last one. */
    private static void drained(boolean isRaced) throws Exception {
        BlockingQueue<String> queue = Traced.queue(new ArrayBlockingQueue<>(3));
        TracedThread taker =
                Scenarios.start(
                        "taker",
                        () -> {
                            List<String> items = new ArrayList<>();
                            while (!items.contains("end")) {
                                items.clear();
                                items.add(queue.take());
                                queue.drainTo(items);
                                items.forEach(item -> touch(item, false)); // race: drained
                            }
                        });
        for (String item : List.of("apple", "pear", "plum", "fig", "end")) {
            touch(item, true);
            queue.put(item);
        }
        if (isRaced) {
            touch("end", true); // race: drained
        }
        taker.join();
    }

    /** A balance that one thread alone touches, which does all jobs. */
    private static void actor(boolean isRaced) throws Exception {
        ExecutorService owner = Traced.executor(Executors.newSingleThreadExecutor());
        List<TracedThread> threads =
                Scenarios.start(
                        3,
                        "client",
                        () -> {
                            for (int turn = 0; turn < 3; turn++) {
                                Future<?> booked =
                                        owner.submit(
                                                () -> {
                                                    touch("balance", false);
                                                    touch("balance", true); // race: actor
                                                });
                                booked.get();
                            }
                        });
        if (isRaced) {
            touch("balance", false); // race: actor
        }
        Scenarios.join(threads);
        owner.shutdown();
        owner.awaitTermination(10, TimeUnit.SECONDS);
        touch("balance", false);
    }

    /** A value that is made once, by a look without the lock and one under it. If there is a race, it is told to be there too early. */
    private static void doubleChecked(boolean isRaced) throws Exception {
        Lock lock = Traced.lock(new ReentrantLock());
        TracedBoolean isThere = new TracedBoolean(false);
        Scenarios.Body get =
                () -> {
                    if (!isThere.get()) {
                        lock.lock();
                        if (!isThere.get()) {
                            touch("config", true);
                            isThere.set(true);
                        }
                        lock.unlock();
                    }
                    touch("config", false); // race: double_checked
                };
        if (!isRaced) {
            Scenarios.join(Scenarios.start(4, "user", get));
            return;
        }
        CountDownLatch told = new CountDownLatch(1);
        CountDownLatch read = new CountDownLatch(1);
        TracedThread maker =
                Scenarios.start(
                        "maker",
                        () -> {
                            lock.lock();
                            isThere.set(true);
                            told.countDown();
                            read.await();
                            touch("config", true); // race: double_checked
                            lock.unlock();
                        });
        told.await();
        Scenarios.start("user", get).join();
        read.countDown();
        maker.join();
    }

    /** A ring with room for two items, and a condition for each end. */
    private static void ring(boolean isRaced) throws Exception {
        Lock lock = Traced.lock(new ReentrantLock());
        Condition hasRoom = lock.newCondition();
        Condition hasItems = lock.newCondition();
        Deque<String> items = new ArrayDeque<>();
        TracedThread taker =
                Scenarios.start(
                        "taker",
                        () -> {
                            for (int turn = 0; turn < 6; turn++) {
                                lock.lock();
                                while (items.isEmpty()) {
                                    hasItems.await();
                                }
                                String item = items.remove();
                                hasRoom.signal();
                                lock.unlock();
                                touch(item, false); // race: ring
                            }
                        });
        for (int number = 0; number < 6; number++) {
            touch("item " + number, true);
            lock.lock();
            while (items.size() == 2) {
                hasRoom.await();
            }
            items.add("item " + number);
            hasItems.signal();
            lock.unlock();
        }
        if (isRaced) {
            touch("item 5", true); // race: ring
        }
        taker.join();
    }

    private record Node(String item, Node next) {}

    /** A stack without a lock. What was pushed is changed once more if there is a race. */
    private static void stack(boolean isRaced) throws Exception {
        TracedReference<Node> top = new TracedReference<>();
        TracedThread taker =
                Scenarios.start(
                        "taker",
                        () -> {
                            for (int taken = 0; taken < 4; ) {
                                Node first = top.get();
                                if (first != null && top.compareAndSet(first, first.next())) {
                                    touch(first.item(), false); // race: stack
                                    taken++;
                                }
                            }
                        });
        for (int number = 0; number < 4; number++) {
            String item = "item " + number;
            touch(item, true);
            top.updateAndGet(next -> new Node(item, next));
        }
        if (isRaced) {
            touch("item 3", true); // race: stack
        }
        taker.join();
    }

    /** A job that is done again and again, up to the end of its executor. */
    private static void ticks(boolean isRaced) throws Exception {
        ScheduledExecutorService clock = Traced.scheduled(Executors.newScheduledThreadPool(2));
        CountDownLatch ticked = Traced.latch(3);
        touch("tally", true);
        Future<?> ticking =
                clock.scheduleAtFixedRate(
                        () -> {
                            touch("tally", false);
                            touch("tally", true); // race: ticks
                            ticked.countDown();
                        },
                        0,
                        1,
                        TimeUnit.MILLISECONDS);
        if (isRaced) {
            touch("tally", false); // race: ticks
        }
        ticked.await();
        ticking.cancel(false);
        clock.shutdown();
        clock.awaitTermination(10, TimeUnit.SECONDS);
        touch("tally", false);
    }

    /** A future that one completes by hand, and that others wait for. */
    private static void promise(boolean isRaced) throws Exception {
        CompletableFuture<String> value = new TracedFuture<>();
        List<TracedThread> threads =
                Scenarios.start(
                        3,
                        "reader",
                        () -> {
                            value.join();
                            touch("value", false); // race: promise
                        });
        if (!isRaced) {
            touch("value", true);
        }
        value.complete("value");
        if (isRaced) {
            touch("value", true); // race: promise
        }
        Scenarios.join(threads);
    }

    /** A table that is replaced as a whole. If there is a race, it is changed in its place. */
    private static void copyOnWrite(boolean isRaced) throws Exception {
        touch("table 0", true);
        TracedReference<Integer> newest = new TracedReference<>(0);
        List<TracedThread> readers =
                Scenarios.start(
                        3,
                        "reader",
                        () -> {
                            for (int turn = 0; turn < 4; turn++) {
                                touch("table " + newest.get(), false);
                            }
                        });
        for (int number = 1; number < 3; number++) {
            touch("table " + number, true);
            newest.set(number);
        }
        Scenarios.join(readers);
        touch("table 3", true);
        newest.set(3);
        TracedThread last = Scenarios.start("last", () -> touch("table " + newest.get(), false)); // race: copy_on_write
        if (isRaced) {
            touch("table 3", true); // race: copy_on_write
        }
        last.join();
    }
}
