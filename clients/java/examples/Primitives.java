import example.hometturi.itctrace.Traced;
import example.hometturi.itctrace.TracedBoolean;
import example.hometturi.itctrace.TracedFuture;
import example.hometturi.itctrace.TracedInteger;
import example.hometturi.itctrace.TracedLong;
import example.hometturi.itctrace.TracedMonitor;
import example.hometturi.itctrace.TracedQueue.Carried;
import example.hometturi.itctrace.TracedRecursiveTask;
import example.hometturi.itctrace.TracedReference;
import example.hometturi.itctrace.TracedSection;
import example.hometturi.itctrace.TracedThread;
import java.io.IOException;
import java.util.ArrayList;
import java.util.Comparator;
import java.util.LinkedHashMap;
import java.util.List;
import java.util.Map;
import java.util.concurrent.BlockingQueue;
import java.util.concurrent.CompletableFuture;
import java.util.concurrent.ConcurrentHashMap;
import java.util.concurrent.ConcurrentMap;
import java.util.concurrent.CountDownLatch;
import java.util.concurrent.CyclicBarrier;
import java.util.concurrent.DelayQueue;
import java.util.concurrent.Delayed;
import java.util.concurrent.Exchanger;
import java.util.concurrent.ExecutorService;
import java.util.concurrent.Executors;
import java.util.concurrent.ForkJoinPool;
import java.util.concurrent.Future;
import java.util.concurrent.Phaser;
import java.util.concurrent.PriorityBlockingQueue;
import java.util.concurrent.ScheduledExecutorService;
import java.util.concurrent.Semaphore;
import java.util.concurrent.TimeUnit;
import java.util.concurrent.locks.Condition;
import java.util.concurrent.locks.Lock;
import java.util.concurrent.locks.ReadWriteLock;
import java.util.concurrent.locks.ReentrantLock;
import java.util.concurrent.locks.ReentrantReadWriteLock;
import java.util.concurrent.locks.StampedLock;
import java.util.function.Consumer;
import java.util.function.Function;
import java.util.stream.IntStream;

/**
 * For each thing that puts two threads in order: what is done before it is given is in order with what is done after it is taken, and
 * what is done after it was given is not. clients/wrappers.py runs each with and without a race.
 */
final class Primitives {
    private static final int OBJECTS = 20_000;
    private static final int SECTIONS = 6_000;
    private static final Map<String, Program> PROGRAMS = new LinkedHashMap<>();

    private Primitives() {}

    private interface Program {
        void run(boolean isRaced) throws Exception;
    }

    private interface Step {
        void run() throws Exception;
    }

    private static void write() {
        Traced.touch("stock", true); // race: raced
    }

    private static void read() {
        Traced.touch("stock", false); // race: raced
    }

    private static void doNow(Step step) {
        try {
            step.run();
        } catch (Exception failure) {
            throw new IllegalStateException(failure);
        }
    }

    private static void giving(boolean isRaced, Step give) {
        if (!isRaced) {
            write();
        }
        doNow(give);
        if (isRaced) {
            write();
        }
    }

    /** One thread gives the order and another one takes it. */
    private static void two(boolean isRaced, Step give, Step take) throws InterruptedException {
        TracedThread giver = Traced.start("giver", () -> giving(isRaced, give));
        TracedThread taker =
                Traced.start(
                        "taker",
                        () -> {
                            doNow(take);
                            read();
                        });
        giver.join();
        taker.join();
    }

    /** The same, if the taker has to come second. What tells it so is no order that is reported. */
    private static void inTurn(boolean isRaced, Step give, Step take) throws InterruptedException {
        CountDownLatch given = new CountDownLatch(1);
        two(
                isRaced,
                () -> {
                    give.run();
                    given.countDown();
                },
                () -> {
                    given.await();
                    take.run();
                });
    }

    private static void monitor(boolean isRaced) throws InterruptedException {
        Object stock = new Object();
        boolean[] isReady = {false};
        two(
                isRaced,
                () -> {
                    synchronized (stock) {
                        try (TracedMonitor monitor = Traced.monitor(stock)) {
                            isReady[0] = true;
                            stock.notifyAll();
                        }
                    }
                },
                () -> {
                    synchronized (stock) {
                        try (TracedMonitor monitor = Traced.monitor(stock);
                                TracedMonitor again = Traced.monitor(stock)) {
                            while (!isReady[0]) {
                                again.await(1000);
                            }
                            monitor.await(1); // It is one for whose hand-over somebody waits.
                        }
                    }
                });
    }

    private static void condition(boolean isRaced) throws InterruptedException {
        Lock lock = Traced.lock(new ReentrantLock());
        Condition changed = lock.newCondition();
        boolean[] isReady = {false};
        two(
                isRaced,
                () -> {
                    lock.lock();
                    isReady[0] = true;
                    changed.signalAll();
                    lock.unlock();
                },
                () -> {
                    lock.lock();
                    while (!isReady[0]) {
                        changed.await();
                    }
                    lock.unlock();
                });
    }

    private static void readLock(boolean isRaced) throws InterruptedException {
        ReadWriteLock lock = Traced.lock(new ReentrantReadWriteLock());
        inTurn(
                isRaced,
                () -> {
                    lock.writeLock().lock();
                    lock.writeLock().unlock();
                },
                () -> {
                    lock.readLock().lock();
                    lock.readLock().unlock();
                });
    }

    /** One thread sets a flag under the lock, and the other one looks at it again and again. */
    private static void polledFlag(boolean isRaced) throws InterruptedException {
        Lock lock = Traced.lock(new ReentrantLock());
        boolean[] flag = {false};
        two(
                isRaced,
                () -> {
                    lock.lock();
                    Traced.touch("flag", true);
                    flag[0] = true;
                    lock.unlock();
                },
                () -> {
                    for (boolean isSet = false; !isSet; ) {
                        lock.lock();
                        Traced.touch("flag", false);
                        isSet = flag[0];
                        lock.unlock();
                    }
                });
    }

    /** Whoever comes first makes a value under the lock. */
    private static void lazyValue(boolean isRaced) throws InterruptedException {
        Lock lock = Traced.lock(new ReentrantLock());
        Object[] value = {null};
        Step make =
                () -> {
                    lock.lock();
                    Traced.touch("value", false);
                    if (value[0] == null) {
                        Traced.touch("value", true);
                        value[0] = "made";
                    }
                    lock.unlock();
                };
        inTurn(
                isRaced,
                make,
                () -> {
                    make.run();
                    Traced.touch("value", false); // Outside the lock.
                });
    }

    private static void stampedLock(boolean isRaced) throws InterruptedException {
        StampedLock lock = Traced.stampedLock();
        inTurn(isRaced, () -> lock.unlockWrite(lock.writeLock()), () -> lock.unlockRead(lock.readLock()));
    }

    private static void stampedTrust(boolean isRaced) throws InterruptedException {
        StampedLock lock = Traced.stampedLock();
        inTurn(
                isRaced,
                () -> lock.unlock(lock.writeLock()),
                () -> {
                    if (!lock.validate(lock.tryOptimisticRead())) {
                        throw new IllegalStateException("nobody writes");
                    }
                });
    }

    private static void stampedTurn(boolean isRaced) throws InterruptedException {
        StampedLock lock = Traced.stampedLock();
        inTurn(
                isRaced,
                () -> lock.unlockWrite(lock.tryConvertToWriteLock(lock.readLock())),
                () -> {
                    lock.asWriteLock().lock();
                    lock.asWriteLock().unlock();
                });
    }

    private static void priorityQueue(boolean isRaced) throws InterruptedException {
        Comparator<Carried<Integer>> least = Comparator.comparing(Carried::element);
        BlockingQueue<Integer> queue = Traced.queue(new PriorityBlockingQueue<>(4, least));
        two(isRaced, () -> queue.put(1), queue::take);
    }

    /** An order that is due at once. */
    private record Due(long time) implements Delayed {
        @Override
        public long getDelay(TimeUnit unit) {
            return unit.convert(time - System.nanoTime(), TimeUnit.NANOSECONDS);
        }

        @Override
        public int compareTo(Delayed other) {
            return Long.compare(time, ((Due) other).time);
        }
    }

    private static void delayQueue(boolean isRaced) throws InterruptedException {
        BlockingQueue<Due> queue = Traced.queue(new DelayQueue<>());
        long due = System.nanoTime() + TimeUnit.MILLISECONDS.toNanos(20);
        two(
                isRaced,
                () -> queue.put(new Due(due)),
                () -> {
                    if (queue.take().time > System.nanoTime()) {
                        throw new IllegalStateException("it is not due");
                    }
                });
    }

    private static void latch(boolean isRaced) throws InterruptedException {
        CountDownLatch latch = Traced.latch(1);
        two(isRaced, latch::countDown, latch::await);
    }

    private static void barrier(boolean isRaced) throws InterruptedException {
        CyclicBarrier barrier = Traced.barrier(2, () -> {});
        two(
                isRaced,
                () -> {
                    barrier.await();
                    barrier.await();
                },
                () -> {
                    barrier.await();
                    barrier.await(1, TimeUnit.MINUTES);
                });
    }

    private static void phaser(boolean isRaced) throws InterruptedException {
        Phaser phaser = Traced.phaser(2);
        two(isRaced, phaser::arriveAndDeregister, phaser::arriveAndAwaitAdvance);
    }

    private static void phases(boolean isRaced) throws InterruptedException {
        Phaser phaser = Traced.phaser(1);
        two(isRaced, phaser::arrive, () -> phaser.awaitAdvance(0));
    }

    private static void exchanger(boolean isRaced) throws InterruptedException {
        Exchanger<Integer> exchanger = Traced.exchanger();
        two(isRaced, () -> exchanger.exchange(1), () -> exchanger.exchange(2));
    }

    private static void semaphore(boolean isRaced) throws InterruptedException {
        Semaphore semaphore = Traced.semaphore(0);
        two(isRaced, semaphore::release, semaphore::acquire);
    }

    private static void flag(boolean isRaced) throws InterruptedException {
        TracedBoolean isReady = new TracedBoolean();
        two(
                isRaced,
                () -> isReady.set(true),
                () -> {
                    while (!isReady.get()) {
                        Thread.onSpinWait();
                    }
                });
    }

    /** The last one of several that count down comes after the others. */
    private static void countdown(boolean isRaced) throws InterruptedException {
        TracedInteger left = new TracedInteger(2);
        inTurn(isRaced, left::decrementAndGet, left::getAndDecrement);
    }

    private static void spinLock(boolean isRaced) throws InterruptedException {
        TracedLong turn = new TracedLong();
        two(
                isRaced,
                () -> turn.compareAndSet(0, 1),
                () -> {
                    while (!turn.compareAndSet(1, 2)) {
                        Thread.onSpinWait();
                    }
                });
    }

    private static void reference(boolean isRaced) throws InterruptedException {
        TracedReference<String> value = new TracedReference<>();
        two(
                isRaced,
                () -> value.set("ready"),
                () -> {
                    while (value.get() == null) {
                        Thread.onSpinWait();
                    }
                });
    }

    private static void computedOnce(boolean isRaced) throws InterruptedException {
        ConcurrentMap<String, Integer> prices = Traced.map(new ConcurrentHashMap<>());
        inTurn(isRaced, () -> prices.computeIfAbsent("apple", apple -> 1), () -> prices.computeIfAbsent("apple", apple -> 2));
    }

    private static void putValue(boolean isRaced) throws InterruptedException {
        ConcurrentMap<String, Integer> prices = Traced.map(new ConcurrentHashMap<>());
        two(
                isRaced,
                () -> prices.merge("apple", 1, Integer::sum),
                () -> {
                    while (!prices.containsValue(1)) {
                        Thread.onSpinWait();
                    }
                });
    }

    private static void scheduled(boolean isRaced) throws Exception {
        ScheduledExecutorService executor = Traced.scheduled(Executors.newScheduledThreadPool(2));
        Future<?> future = executor.schedule(Primitives::write, 5, TimeUnit.MILLISECONDS);
        if (isRaced) {
            read();
        }
        future.get();
        read();
        executor.shutdown();
    }

    /** Each run comes after its last one, and whoever sees the end of the executor after all. */
    private static void repeated(boolean isRaced) throws Exception {
        ScheduledExecutorService executor = Traced.scheduled(Executors.newScheduledThreadPool(4));
        CountDownLatch runs = new CountDownLatch(3);
        executor.scheduleAtFixedRate(
                () -> {
                    Traced.touch("stock", true); // race: raced
                    runs.countDown();
                },
                0,
                2,
                TimeUnit.MILLISECONDS);
        runs.await();
        if (isRaced) {
            read();
        }
        executor.shutdown();
        executor.awaitTermination(1, TimeUnit.MINUTES);
        read();
    }

    /** Two jobs of one thread are in order, and those of two are not. */
    private static void oneThread(boolean isRaced) throws Exception {
        ExecutorService executor = Traced.executor(isRaced ? Executors.newFixedThreadPool(2) : Executors.newSingleThreadExecutor());
        executor.execute(Primitives::write);
        executor.execute(Primitives::read);
        executor.shutdown();
        executor.awaitTermination(1, TimeUnit.MINUTES);
    }

    private static void completed(boolean isRaced) {
        if (!isRaced) {
            write();
        }
        CompletableFuture<Void> told = TracedFuture.completedFuture(1).thenAcceptAsync(value -> read());
        if (isRaced) {
            write();
        }
        told.join();
    }

    private static void parallelStream(boolean isRaced) throws InterruptedException {
        ForkJoinPool pool = new ForkJoinPool(4);
        TracedSection section = Traced.section();
        write();
        Function<Integer, Integer> next = section.function(number -> number + 1);
        Consumer<Integer> look = section.consumer(number -> read());
        pool.submit(() -> IntStream.range(0, 64).boxed().parallel().map(next).forEach(look)).join();
        if (isRaced) {
            write();
        }
        section.close();
        write();
        pool.shutdown();
    }

    /** Adds up a range by halves. */
    private static final class Sum extends TracedRecursiveTask<Integer> {
        private static final long serialVersionUID = 1;
        private final int from;
        private final int to;
        private final boolean isRaced;

        Sum(int from, int to, boolean isRaced) {
            this.from = from;
            this.to = to;
            this.isRaced = isRaced;
        }

        @Override
        protected Integer work() {
            if (to - from == 1) {
                Traced.touch("part " + from, true);
                if (isRaced && from == 2) {
                    read();
                }
                return from;
            }
            int middle = (from + to) / 2;
            TracedRecursiveTask<Integer> right = new Sum(middle, to, isRaced).start();
            int left = new Sum(from, middle, isRaced).start().result();
            if (isRaced && middle == 2) {
                write();
            }
            int both = left + right.result();
            for (int part = from; part < to; part++) {
                Traced.touch("part " + part, false);
            }
            return both;
        }
    }

    private static void pieces(boolean isRaced) {
        ForkJoinPool pool = new ForkJoinPool(2);
        if (pool.submit(() -> new Sum(0, 4, isRaced).start().result()).join() != 6) {
            throw new IllegalStateException("the sum is wrong");
        }
        pool.shutdown();
    }

    private static void token(boolean isRaced) throws InterruptedException {
        Object ready = new Object();
        inTurn(isRaced, () -> Traced.before(ready), () -> Traced.after(ready));
    }

    private static void isAlive(boolean isRaced) throws InterruptedException {
        TracedThread writer = Traced.start("writer", () -> giving(isRaced, () -> {}));
        if (isRaced) {
            read();
        }
        while (writer.isAlive()) {
            Thread.onSpinWait();
        }
        read();
    }

    static {
        PROGRAMS.put("monitor", Primitives::monitor);
        PROGRAMS.put("condition", Primitives::condition);
        PROGRAMS.put("read_lock", Primitives::readLock);
        PROGRAMS.put("polled_flag", Primitives::polledFlag);
        PROGRAMS.put("lazy_value", Primitives::lazyValue);
        PROGRAMS.put("stamped_lock", Primitives::stampedLock);
        PROGRAMS.put("stamped_trust", Primitives::stampedTrust);
        PROGRAMS.put("stamped_turn", Primitives::stampedTurn);
        PROGRAMS.put("priority_queue", Primitives::priorityQueue);
        PROGRAMS.put("delay_queue", Primitives::delayQueue);
        PROGRAMS.put("latch", Primitives::latch);
        PROGRAMS.put("barrier", Primitives::barrier);
        PROGRAMS.put("phaser", Primitives::phaser);
        PROGRAMS.put("phases", Primitives::phases);
        PROGRAMS.put("exchanger", Primitives::exchanger);
        PROGRAMS.put("semaphore", Primitives::semaphore);
        PROGRAMS.put("flag", Primitives::flag);
        PROGRAMS.put("countdown", Primitives::countdown);
        PROGRAMS.put("spin_lock", Primitives::spinLock);
        PROGRAMS.put("reference", Primitives::reference);
        PROGRAMS.put("computed_once", Primitives::computedOnce);
        PROGRAMS.put("put_value", Primitives::putValue);
        PROGRAMS.put("scheduled", Primitives::scheduled);
        PROGRAMS.put("repeated", Primitives::repeated);
        PROGRAMS.put("one_thread", Primitives::oneThread);
        PROGRAMS.put("completed", Primitives::completed);
        PROGRAMS.put("parallel_stream", Primitives::parallelStream);
        PROGRAMS.put("pieces", Primitives::pieces);
        PROGRAMS.put("token", Primitives::token);
        PROGRAMS.put("is_alive", Primitives::isAlive);
    }

    /** Runs one of them, or gives the names of all. */
    static void run(String name, boolean isRaced) throws Exception {
        if (PROGRAMS.containsKey(name)) {
            PROGRAMS.get(name).run(isRaced);
        } else {
            PROGRAMS.keySet().forEach(System.out::println);
        }
    }

    /** Many locks that one thread has, and a lock with readers that nobody writes under, leave next to nothing in the trace. */
    static void freeLocks() throws InterruptedException {
        List<Lock> locks = new ArrayList<>();
        for (int number = 0; number < OBJECTS; number++) {
            locks.add(Traced.lock(new ReentrantLock()));
        }
        for (int turn = 0; turn < 2; turn++) {
            for (Lock lock : locks) {
                lock.lock();
                lock.unlock();
            }
        }
        ReadWriteLock shared = Traced.lock(new ReentrantReadWriteLock());
        Runnable reading =
                () -> {
                    for (int section = 0; section < SECTIONS; section++) {
                        shared.readLock().lock();
                        Traced.touch("stock", false);
                        shared.readLock().unlock();
                    }
                };
        Traced.start("first", reading).join();
        Traced.start("second", reading).join();
        shared.writeLock().lock();
        shared.writeLock().unlock();
        Lock lock = Traced.lock(new ReentrantLock());
        for (int section = 0; section < SECTIONS; section++) {
            lock.lock();
            lock.unlock();
            Traced.touch("stock", true); // Outside the lock.
        }
        for (int section = 0; section < SECTIONS; section++) {
            Lock own = Traced.lock(new ReentrantLock()); // A lock that is no more hands over nothing.
            own.lock();
            own.unlock();
            Traced.touch("stock", true);
        }
    }

    private static void racing() throws InterruptedException {
        TracedThread writer = Traced.start("writer", () -> Traced.touch("stock", true)); // race: ends
        Traced.touch("stock", true); // race: ends
        writer.join();
    }

    /** Ends in this way, right behind a race. */
    static void end(String how) throws Exception {
        if (how.equals("hook")) { // It is the second hook that touches.
            Runtime.getRuntime().addShutdownHook(new Thread(() -> {}));
            Runtime.getRuntime().addShutdownHook(new Thread(Primitives::touchLate));
            Traced.touch("late", true); // race: hook
            Thread writer = new Thread(() -> Traced.touch("late", true)); // race: hook
            writer.start();
            writer.join();
            return;
        }
        racing();
        System.out.println("raced");
        switch (how) {
            case "exit" -> System.exit(0);
            case "halt" -> {
                Traced.finish();
                Traced.touch("stock", true);
                Runtime.getRuntime().halt(0);
            }
            case "panic" -> throw new IllegalStateException("on purpose");
            case "sleep" -> Thread.sleep(TimeUnit.MINUTES.toMillis(1));
            case "goes_on" -> {
                Thread endless = new Thread(Primitives::touchForEver);
                endless.setDaemon(true);
                endless.start();
                Thread.sleep(50);
            }
            default -> {}
        }
    }

    private static void touchForEver() {
        while (true) {
            Traced.touch("own", true); // The process ends in the middle.
        }
    }

    private static void touchLate() {
        doNow(() -> Thread.sleep(300)); // All other hooks are done.
        Traced.touch("late", true); // race: hook
    }

    /** Starts itself as a child process, and waits for it. */
    static void parent(String how) throws IOException, InterruptedException {
        Traced.touchAcross("row", true);
        Process kid = Traced.start(itself("kid"));
        if (how.equals("raced")) {
            Traced.touchAcross("row", true); // race: parent
        }
        if (kid.waitFor() != 0 || Traced.start(new ProcessBuilder("true")).waitFor() != 0) {
            throw new IllegalStateException("the child has failed");
        }
        Traced.touchAcross("row", true);
        Traced.touch("own", true);
    }

    private static ProcessBuilder itself(String program) {
        String java = ProcessHandle.current().info().command().orElseThrow();
        String classes = System.getProperty("java.class.path");
        return new ProcessBuilder(java, "-XX:TieredStopAtLevel=1", "-cp", classes, "Wrappers", program).inheritIO();
    }

    /** It starts a process of its own by plain means, which is another one. */
    static void kid() throws IOException, InterruptedException {
        Traced.touchAcross("row", true); // race: parent
        Traced.touch("own", true);
        if (itself("stranger").start().waitFor() != 0) {
            throw new IllegalStateException("the stranger has failed");
        }
    }

    static void stranger() {
        Traced.touch("own", true);
    }
}
