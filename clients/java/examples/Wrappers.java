import example.hometturi.itctrace.Reporter;
import example.hometturi.itctrace.Traced;
import example.hometturi.itctrace.TracedFuture;
import example.hometturi.itctrace.TracedMonitor;
import example.hometturi.itctrace.TracedRequest;
import example.hometturi.itctrace.TracedThread;
import java.nio.file.Files;
import java.nio.file.Path;
import java.util.ArrayList;
import java.util.Date;
import java.util.HashMap;
import java.util.List;
import java.util.Map;
import java.util.concurrent.BlockingQueue;
import java.util.concurrent.CancellationException;
import java.util.concurrent.CompletableFuture;
import java.util.concurrent.CompletionException;
import java.util.concurrent.ConcurrentHashMap;
import java.util.concurrent.CountDownLatch;
import java.util.concurrent.ExecutorService;
import java.util.concurrent.Executors;
import java.util.concurrent.Future;
import java.util.concurrent.LinkedBlockingQueue;
import java.util.concurrent.Semaphore;
import java.util.concurrent.ThreadFactory;
import java.util.concurrent.TimeUnit;
import java.util.concurrent.atomic.AtomicInteger;
import java.util.concurrent.locks.Condition;
import java.util.concurrent.locks.Lock;
import java.util.concurrent.locks.ReadWriteLock;
import java.util.concurrent.locks.ReentrantLock;
import java.util.concurrent.locks.ReentrantReadWriteLock;
import java.util.concurrent.locks.StampedLock;
import java.util.function.BiConsumer;
import java.util.function.Function;
import java.util.function.IntConsumer;
import java.util.stream.Stream;

/**
 * Small programs, each for one order that is reported by itself. A line that races says so in a comment, with the name of its program:
 * clients/wrappers.py looks whether these lines are listed, and no others.
 *
 * <p>Usage: java Wrappers NAME [WORDS]..
 */
public final class Wrappers {
    private static final int MANY = 100_000;
    private static final int FEW = 3_000;
    private static final int SOME = 1_000;
    /** More than a trace has room for. */
    private static final int TURNS = 20_000;
    /** Names of tasks: too long, the same again, without letters, and those of tasks that are there already. */
    private static final List<String> ODD = List.of("a".repeat(60), "a".repeat(60), "", "_", "ü 1-2", "root", "others");
    private static final String ODD_THING = "\"naïve\"\t\\ 😀";
    private static int stock = 2;

    private static void readStock() {
        Traced.touch("stock", false); // race: after_hand_off before_future before_end two_jobs callback_too_early cancelled_job
    }

    private static void writeStock() {
        Traced.touch("stock", true); // race: read_lock_race after_hand_off before_future before_end two_jobs callback_too_early cancelled_job
    }

    private static void sell() {
        Traced.touch("stock", false); // race: lost_update plain_threads
        int left = stock;
        Traced.touch("stock", true); // race: lost_update plain_threads
        stock = left - 1;
    }

    private static void inTwoThreads(Runnable body) throws InterruptedException {
        TracedThread first = Traced.start("alice", body);
        TracedThread second = Traced.start("bob", body);
        first.join();
        second.join();
        Traced.touch("stock", true);
    }

    private static void lostUpdate() throws InterruptedException {
        inTwoThreads(Wrappers::sell);
    }

    private static void plainThreads() throws InterruptedException {
        Thread first = new Thread(Wrappers::sellAndNote);
        Thread second = new Thread(Wrappers::sellAndNote);
        first.start();
        second.start();
        first.join();
        second.join();
    }

    private static void sellAndNote() {
        sell();
        String note = "note " + Thread.currentThread().getName();
        Traced.touch(note, true);
        Traced.touch(note, false); // Both are of one task.
    }

    private static void locked() throws InterruptedException {
        Lock lock = Traced.lock(new ReentrantLock());
        inTwoThreads(
                () -> {
                    lock.lock();
                    try {
                        lock.lock();
                        sell();
                        lock.unlock();
                        sell();
                    } finally {
                        lock.unlock();
                    }
                });
        lockTurns(TURNS); // A lock that nobody else acquires leaves nothing in the trace.
        crossedLocks();
        releasedLate();
    }

    /** The second thread begins once the first one is done, and nothing that is reported says so. */
    private static void oneAfterAnother(Runnable first, Runnable second) throws InterruptedException {
        Traced.start("first", first).thread().join();
        Traced.start("second", second).thread().join();
    }

    /** Two locks are acquired in both orders. With a gate around both, only one thread is there at once. */
    private static void twoOrders(boolean hasGate) throws InterruptedException {
        Lock gate = Traced.lock(new ReentrantLock());
        Lock one = Traced.lock(new ReentrantLock());
        Lock other = Traced.lock(new ReentrantLock());
        oneAfterAnother(
                () -> {
                    if (hasGate) {
                        gate.lock();
                    }
                    one.lock(); // deadlock: two_orders
                    other.lock(); // deadlock: two_orders
                    other.unlock();
                    one.unlock();
                    if (hasGate) {
                        gate.unlock();
                    }
                },
                () -> {
                    if (hasGate) {
                        gate.lock();
                    }
                    other.lock(); // deadlock: two_orders
                    one.lock(); // deadlock: two_orders
                    one.lock(); // Whoever has it does not wait.
                    one.unlock();
                    one.unlock();
                    other.unlock();
                    if (hasGate) {
                        gate.unlock();
                    }
                });
    }

    /** One thread writes under the lock that the other one reads under, or both read. */
    private static void readOrders(boolean bothRead) throws InterruptedException {
        ReadWriteLock table = Traced.lock(new ReentrantReadWriteLock());
        StampedLock stamped = Traced.stampedLock();
        oneAfterAnother(
                () -> {
                    table.readLock().lock(); // deadlock: read_orders
                    long stamp = stamped.writeLock(); // deadlock: read_orders
                    stamped.unlockWrite(stamp);
                    table.readLock().unlock();
                },
                () -> {
                    long stamp = stamped.writeLock(); // deadlock: read_orders
                    if (bothRead) {
                        table.readLock().lock();
                        table.readLock().unlock();
                    } else {
                        table.writeLock().lock(); // deadlock: read_orders
                        table.writeLock().unlock();
                    }
                    stamped.unlockWrite(stamp);
                });
    }

    /** A thread gives back what it holds, if it does not get the other lock at once or in time. */
    private static void triedOrder() throws InterruptedException {
        Lock one = Traced.lock(new ReentrantLock());
        Lock other = Traced.lock(new ReentrantLock());
        oneAfterAnother(
                () -> {
                    one.lock();
                    other.lock();
                    other.unlock();
                    one.unlock();
                },
                () -> {
                    other.lock();
                    if (one.tryLock()) {
                        one.unlock();
                    }
                    if (triedFor(one)) {
                        one.unlock();
                    }
                    other.unlock();
                });
    }

    private static boolean triedFor(Lock lock) {
        try {
            return lock.tryLock(1, TimeUnit.SECONDS);
        } catch (InterruptedException interrupted) {
            throw new IllegalStateException(interrupted);
        }
    }

    /** A monitor, and a lock at whose condition others wait. */
    private static void monitorOrders() throws InterruptedException {
        Object stock = new Object();
        Lock lock = Traced.lock(new ReentrantLock());
        Condition changed = lock.newCondition();
        oneAfterAnother(
                () -> {
                    synchronized (stock) {
                        try (TracedMonitor monitor = Traced.monitor(stock)) { // deadlock: monitor_orders
                            lock.lock(); // deadlock: monitor_orders
                            changed.signalAll();
                            lock.unlock();
                        }
                    }
                },
                () -> {
                    lock.lock(); // deadlock: monitor_orders
                    synchronized (stock) {
                        try (TracedMonitor monitor = Traced.monitor(stock)) { // deadlock: monitor_orders
                            Traced.touch("stock", true);
                        }
                    }
                    lock.unlock();
                });
    }

    /** Two locks are acquired in both orders, and the outer one is released first. */
    private static void crossedOrders() throws InterruptedException {
        Lock one = Traced.lock(new ReentrantLock());
        Lock other = Traced.lock(new ReentrantLock());
        oneAfterAnother(
                () -> {
                    one.lock(); // deadlock: crossed_orders
                    other.lock(); // deadlock: crossed_orders
                    one.unlock();
                    other.unlock();
                },
                () -> {
                    other.lock(); // deadlock: crossed_orders
                    one.lock(); // deadlock: crossed_orders
                    other.unlock();
                    one.unlock();
                });
    }

    /** Both threads acquire their first lock behind a gate, and their second one without it. */
    private static void gateThatIsLetGo() throws InterruptedException {
        Lock gate = Traced.lock(new ReentrantLock());
        Lock one = Traced.lock(new ReentrantLock());
        Lock other = Traced.lock(new ReentrantLock());
        BiConsumer<Lock, Lock> work =
                (first, second) -> {
                    gate.lock();
                    first.lock(); // deadlock: gate_let_go
                    gate.unlock();
                    second.lock(); // deadlock: gate_let_go
                    second.unlock();
                    first.unlock();
                };
        oneAfterAnother(() -> work.accept(one, other), () -> work.accept(other, one));
    }

    /** Each thread goes hand over hand, and begins at another end. */
    private static void bothEnds() throws InterruptedException {
        List<Lock> locks = Stream.generate(() -> Traced.lock(new ReentrantLock())).limit(3).toList();
        IntConsumer walk =
                step -> {
                    int at = step > 0 ? 0 : 2;
                    locks.get(at).lock(); // deadlock: both_ends
                    for (int next = at + step; next >= 0 && next < 3; next += step) {
                        locks.get(next).lock(); // deadlock: both_ends
                        locks.get(next - step).unlock();
                    }
                    locks.get(2 - at).unlock();
                };
        oneAfterAnother(() -> walk.accept(1), () -> walk.accept(-1));
    }

    /** A thread waits at a condition, or a monitor, and holds a lock that it acquired later. Woken, it wants the first one again. */
    private static void waitOrders() throws InterruptedException {
        Object stock = new Object();
        Lock lock = Traced.lock(new ReentrantLock());
        Lock inner = Traced.lock(new ReentrantLock());
        Condition changed = lock.newCondition();
        oneAfterAnother(
                () -> {
                    lock.lock();
                    inner.lock(); // deadlock: wait_orders
                    doStep(one -> one.await(1, TimeUnit.MILLISECONDS), changed); // deadlock: wait_orders
                    inner.unlock();
                    lock.unlock();
                    synchronized (stock) {
                        try (TracedMonitor monitor = Traced.monitor(stock)) {
                            inner.lock(); // deadlock: wait_orders
                            doStep(one -> one.await(1), monitor); // deadlock: wait_orders
                            inner.unlock();
                        }
                    }
                },
                () -> {
                    lock.lock(); // deadlock: wait_orders
                    inner.lock(); // deadlock: wait_orders
                    inner.unlock();
                    lock.unlock();
                    synchronized (stock) {
                        try (TracedMonitor monitor = Traced.monitor(stock)) { // deadlock: wait_orders
                            inner.lock(); // deadlock: wait_orders
                            inner.unlock();
                        }
                    }
                });
    }

    /** A latch puts two orders of a lock with a condition in order. It is counted down right before the lock is released. */
    private static void latchedOrders() throws InterruptedException {
        CountDownLatch latch = Traced.latch(1);
        Lock lock = Traced.lock(new ReentrantLock());
        Lock other = Traced.lock(new ReentrantLock());
        Condition changed = lock.newCondition();
        oneAfterAnother(
                () -> {
                    lock.lock();
                    other.lock();
                    other.unlock();
                    changed.signalAll();
                    latch.countDown();
                    lock.unlock();
                },
                () -> {
                    lock.lock();
                    lock.unlock();
                    doStep(CountDownLatch::await, latch);
                    other.lock();
                    lock.lock();
                    lock.unlock();
                    other.unlock();
                });
    }

    /** Each lock is released once the next one is held. The one that a thread acquires again waits for no other thread. */
    private static void handOverHand() throws InterruptedException {
        Lock one = Traced.lock(new ReentrantLock());
        Lock other = Traced.lock(new ReentrantLock());
        Runnable forth =
                () -> {
                    one.lock();
                    other.lock();
                    one.unlock();
                    one.lock();
                    other.unlock();
                    one.unlock();
                };
        oneAfterAnother(forth, forth);
    }

    /** Of each turn but the first ones nobody looks where the lock is acquired, until another one is acquired with it. */
    private static void lateOrders() throws InterruptedException {
        Lock one = Traced.lock(new ReentrantLock());
        Lock other = Traced.lock(new ReentrantLock());
        oneAfterAnother(
                () -> {
                    for (int turn = 0; turn < SOME; turn++) {
                        one.lock();
                        one.unlock();
                    }
                    for (int turn = 0; turn < 2; turn++) {
                        one.lock(); // deadlock: late_orders
                        other.lock(); // deadlock: late_orders
                        other.unlock();
                        one.unlock();
                    }
                },
                () -> {
                    other.lock(); // deadlock: late_orders
                    one.lock(); // deadlock: late_orders
                    one.unlock();
                    other.unlock();
                });
    }

    /** A lock that is released before one that was acquired later is meant to hand something over. */
    private static void crossedLocks() throws InterruptedException {
        Lock first = Traced.lock(new ReentrantLock());
        Lock second = Traced.lock(new ReentrantLock());
        TracedThread other =
                Traced.start(
                        "crossing",
                        () -> {
                            Traced.touch("crossed", true);
                            first.lock();
                            second.lock();
                            first.unlock();
                            second.unlock();
                        });
        other.thread().join(); // That is no order that is reported.
        first.lock();
        first.unlock();
        Traced.touch("crossed", true);
    }

    /** Its release returns once the next thread has acquired it. So the release has to be reported before. */
    private static final class Handing extends ReentrantLock {
        private final CountDownLatch released = new CountDownLatch(1);
        private final CountDownLatch acquired = new CountDownLatch(1);

        @Override
        public void unlock() {
            super.unlock();
            released.countDown();
            doStep(latch -> latch.await(1, TimeUnit.SECONDS), acquired);
        }
    }

    private static void releasedLate() throws InterruptedException {
        Handing handing = new Handing();
        Lock lock = Traced.lock(handing);
        TracedThread first =
                Traced.start(
                        "first",
                        () -> {
                            lock.lock();
                            Traced.touch("handed", true);
                            lock.unlock();
                        });
        handing.released.await();
        lock.lock();
        handing.acquired.countDown();
        Traced.touch("handed", true);
        lock.unlock();
        first.join();
    }

    /** Two threads acquire one lock by turns. */
    private static void contended() throws InterruptedException {
        Lock lock = Traced.lock(new ReentrantLock());
        inTwoThreads(
                () -> {
                    for (int turn = 0; turn < SOME; turn++) {
                        lock.lock();
                        Traced.touch("stock", true);
                        lock.unlock();
                    }
                });
    }

    private interface Step<T> {
        void on(T it) throws Exception;
    }

    private static <T> void doStep(Step<T> step, T it) {
        try {
            step.on(it);
        } catch (Exception failure) {
            throw new IllegalStateException(failure);
        }
    }

    /** Each other way to acquire a lock. */
    private static void triedLock() throws InterruptedException {
        List<Step<Lock>> ways = List.of(Wrappers::spin, Lock::lockInterruptibly, lock -> lock.tryLock(1, TimeUnit.MINUTES));
        for (Step<Lock> way : ways) {
            Lock lock = Traced.lock(new ReentrantLock());
            inTwoThreads(
                    () -> {
                        doStep(way, lock);
                        Traced.touch("stock", true);
                        lock.unlock();
                    });
        }
    }

    private static void spin(Lock lock) {
        while (!lock.tryLock()) {
            Thread.onSpinWait();
        }
    }

    private static void oddNames() throws InterruptedException {
        for (String name : ODD) {
            Traced.start(name, () -> Traced.touch(ODD_THING, true)).join();
        }
    }

    /** Each other way to put into a queue and to take from it, to wait for a thread, and to start one. */
    private static void otherCalls() throws InterruptedException {
        List<Step<BlockingQueue<Integer>>> ways =
                List.of(
                        BlockingQueue::poll,
                        queue -> queue.poll(1, TimeUnit.MINUTES),
                        BlockingQueue::peek,
                        queue -> queue.drainTo(new ArrayList<>()),
                        queue -> queue.remove(Integer.valueOf(1)),
                        queue -> queue.iterator().next());
        List<Step<BlockingQueue<Integer>>> puts =
                List.of(queue -> queue.offer(1), queue -> queue.offer(1, 1, TimeUnit.MINUTES), queue -> queue.put(1), queue -> queue.add(1));
        for (int turn = 0; turn < ways.size(); turn++) {
            Step<BlockingQueue<Integer>> way = ways.get(turn);
            BlockingQueue<Integer> queue = Traced.queue(new LinkedBlockingQueue<>());
            CountDownLatch given = new CountDownLatch(1);
            TracedThread taker =
                    Traced.start(
                            "taker",
                            () -> {
                                doStep(CountDownLatch::await, given);
                                doStep(way, queue);
                                readStock();
                            },
                            virtualThreads());
            writeStock();
            doStep(puts.get(turn % puts.size()), queue);
            given.countDown();
            taker.join(TimeUnit.MINUTES.toMillis(1));
        }
        failedTries();
        removedOnce();
        sharedLocks();
        requestsHere();
    }

    /** An element that equals itself once two threads have asked, or no other one has for some time. */
    private static final class Asked {
        private final CountDownLatch asked = new CountDownLatch(2);

        @Override
        public boolean equals(Object other) {
            asked.countDown();
            doStep(latch -> latch.await(200, TimeUnit.MILLISECONDS), asked);
            return this == other;
        }

        @Override
        public int hashCode() {
            return 0;
        }
    }

    /** Of two threads that take the same element away, one does. */
    private static void removedOnce() throws InterruptedException {
        BlockingQueue<Asked> queue = Traced.queue(new LinkedBlockingQueue<>());
        Asked element = new Asked();
        AtomicInteger removed = new AtomicInteger();
        queue.add(element);
        inTwoThreads(() -> removed.addAndGet(queue.remove(element) ? 1 : 0));
        if (removed.get() != 1) {
            throw new IllegalStateException(removed + " threads took one element away");
        }
    }

    /** A lock that several threads may hold at once is not taken for one that a single thread holds. */
    private static void sharedLocks() {
        for (Lock shared : List.of(new ReentrantReadWriteLock().readLock(), new StampedLock().asReadLock())) {
            try {
                Traced.lock(shared);
            } catch (IllegalArgumentException refused) {
                continue;
            }
            throw new IllegalStateException("a lock of readers is taken for one of a single thread");
        }
    }

    /** A thread goes on as itself behind each request, and behind a function that it ran for a future. */
    private static void requestsHere() {
        TracedRequest outer = Traced.request(null);
        TracedRequest inner = Traced.request(null);
        inner.close();
        readStock();
        outer.close();
        inner.close();
        readStock();
        CompletableFuture<Integer> future = new TracedFuture<>();
        future.thenRun(() -> {});
        future.complete(1);
        readStock();
    }

    /** What was not put leaves nothing in the trace: these tries would fill it. */
    private static void failedTries() {
        BlockingQueue<Integer> full = Traced.queue(new LinkedBlockingQueue<>(1));
        full.add(0);
        for (int turn = 0; turn < MANY; turn++) {
            if (full.offer(turn)) {
                throw new IllegalStateException("the queue has room");
            }
            Traced.touch("stock", false);
        }
    }

    /** A factory of virtual threads, where the JDK has them. */
    private static ThreadFactory virtualThreads() {
        try {
            Object builder = Thread.class.getMethod("ofVirtual").invoke(null);
            Class<?> type = Class.forName("java.lang.Thread$Builder");
            return (ThreadFactory) type.getMethod("factory").invoke(builder);
        } catch (ReflectiveOperationException | UnsupportedOperationException none) {
            return Thread::new;
        }
    }

    /** One thread is done with the stock before it acquires the lock, and the other one had it before. */
    private static void luckyLock() throws InterruptedException {
        Lock lock = Traced.lock(new ReentrantLock());
        TracedThread first =
                Traced.start(
                        "alice",
                        () -> {
                            Traced.touch("stock", true); // possible: lucky_lock
                            lock.lock();
                            lock.unlock();
                        });
        first.thread().join();
        lock.lock();
        lock.unlock();
        Traced.touch("stock", true); // possible: lucky_lock
    }

    private static void condition() throws InterruptedException {
        List<Step<Condition>> ways =
                List.of(
                        Condition::awaitUninterruptibly,
                        Condition::await,
                        condition -> condition.awaitNanos(TimeUnit.MINUTES.toNanos(1)),
                        condition -> condition.await(1, TimeUnit.MINUTES),
                        condition -> condition.awaitUntil(new Date(System.currentTimeMillis() + TimeUnit.MINUTES.toMillis(1))));
        for (Step<Condition> way : ways) {
            condition(way);
        }
    }

    private static void condition(Step<Condition> way) throws InterruptedException {
        Lock lock = Traced.lock(new ReentrantLock());
        Condition isReady = lock.newCondition();
        boolean[] ready = {false};
        CountDownLatch begun = new CountDownLatch(1); // That is no order that is reported.
        TracedThread waiting =
                Traced.start(
                        "waiting",
                        () -> {
                            lock.lock();
                            writeStock();
                            begun.countDown();
                            while (!ready[0]) {
                                doStep(way, isReady);
                            }
                            lock.unlock();
                            readStock();
                        });
        begun.await();
        lock.lock();
        writeStock();
        ready[0] = true;
        isReady.signalAll();
        lock.unlock();
        waiting.join();
    }

    private static void readLock(boolean isWrittenByBoth) throws InterruptedException {
        ReadWriteLock lock = Traced.lock(new ReentrantReadWriteLock());
        inTwoThreads(
                () -> {
                    if (isWrittenByBoth) {
                        lock.readLock().lock();
                        writeStock();
                        sleep(300); // Both hold the lock at once.
                        lock.readLock().unlock();
                        return;
                    }
                    lock.writeLock().lock();
                    writeStock();
                    lock.writeLock().unlock();
                    lock.readLock().lock();
                    readStock();
                    lock.readLock().unlock();
                });
    }

    /** One thread reads under the lock before the other one writes under it. */
    private static void readFirst() throws InterruptedException {
        ReadWriteLock lock = Traced.lock(new ReentrantReadWriteLock());
        TracedThread reader =
                Traced.start(
                        "reader",
                        () -> {
                            lock.readLock().lock();
                            readStock();
                            lock.readLock().unlock();
                        });
        reader.thread().join(); // That is no order that is reported.
        lock.writeLock().lock();
        writeStock();
        lock.writeLock().unlock();
    }

    /**
     * One thread writes and reads under the lock, and then touches the stock. Who reads under the lock comes after the writing, and not
     * after what the writer does next.
     */
    private static void writerGoesOn() throws InterruptedException {
        ReadWriteLock lock = Traced.lock(new ReentrantReadWriteLock());
        TracedThread writer =
                Traced.start(
                        "writer",
                        () -> {
                            lock.writeLock().lock();
                            lock.writeLock().unlock();
                            lock.readLock().lock();
                            lock.readLock().unlock();
                            Traced.touch("stock", true); // race: writer_goes_on
                        });
        writer.thread().join();
        lock.readLock().lock();
        Traced.touch("stock", false); // race: writer_goes_on
        lock.readLock().unlock();
    }

    private static void sleep(long milliseconds) {
        try {
            Thread.sleep(milliseconds);
        } catch (InterruptedException interrupted) {
            throw new IllegalStateException(interrupted);
        }
    }

    private static void handOff(boolean isTouchedAfter) throws InterruptedException {
        BlockingQueue<String> queue = Traced.queue(new LinkedBlockingQueue<>());
        TracedThread taker =
                Traced.start(
                        "taker",
                        () -> {
                            try {
                                queue.take();
                                readStock();
                            } catch (InterruptedException interrupted) {
                                throw new IllegalStateException(interrupted);
                            }
                        });
        if (!isTouchedAfter) {
            writeStock();
        }
        Lock lock = Traced.lock(new ReentrantLock()); // Its release and the item are two messages.
        lock.lock();
        lock.unlock();
        queue.put("item");
        if (isTouchedAfter) {
            writeStock();
        }
        taker.join();
    }

    private static void executor(boolean isTouchedBefore) throws Exception {
        ExecutorService executor = Traced.executor(Executors.newFixedThreadPool(2));
        Future<Integer> future =
                executor.submit(
                        () -> {
                            writeStock();
                            return 1;
                        });
        if (isTouchedBefore) {
            readStock();
        }
        future.get();
        readStock();
        executor.execute(Wrappers::writeStock);
        executor.shutdown();
        executor.awaitTermination(1, TimeUnit.MINUTES);
        readStock();
        ExecutorService polled = Traced.executor(Executors.newFixedThreadPool(1));
        polled.execute(Wrappers::writeStock);
        polled.shutdown();
        while (!polled.isTerminated()) {
            Thread.onSpinWait();
        }
        readStock();
    }

    /** Two jobs of one pool race, though one thread may have run both. */
    private static void twoJobs() throws Exception {
        ExecutorService executor = Traced.executor(Executors.newFixedThreadPool(2));
        Future<?> first = executor.submit(Wrappers::writeStock);
        Future<?> second = executor.submit(Wrappers::readStock);
        first.get();
        second.get();
        executor.shutdown();
    }

    /** Whoever takes the result of a cancelled job does not wait for the job. */
    private static void cancelledJob() throws Exception {
        ExecutorService executor = Traced.executor(Executors.newFixedThreadPool(1));
        CountDownLatch begun = new CountDownLatch(1);
        CountDownLatch done = new CountDownLatch(1);
        Future<?> future =
                executor.submit(
                        () -> {
                            begun.countDown();
                            while (!Thread.interrupted()) {
                                Thread.onSpinWait();
                            }
                            writeStock();
                            done.countDown();
                        });
        begun.await();
        future.cancel(true);
        done.await();
        Thread.sleep(200); // The job is over, and its task has ended.
        try {
            future.get();
        } catch (CancellationException cancelled) {
            readStock();
        }
        executor.shutdown();
    }

    private static void future() {
        CompletableFuture<Integer> written =
                TracedFuture.supplyAsync(
                        () -> {
                            writeStock();
                            return 1;
                        });
        CompletableFuture<Integer> doubled =
                written.thenApply(
                        value -> {
                            writeStock();
                            return 2 * value;
                        });
        CompletableFuture<Integer> composed = doubled.thenCompose(value -> TracedFuture.supplyAsync(() -> readAnd(value)));
        CompletableFuture<Integer> combined = composed.thenCombine(doubled, Integer::sum);
        TracedFuture.allOf(combined, doubled).join();
        writeStock();
        CompletableFuture<String> byHand = new TracedFuture<>();
        Traced.start(
                "completing",
                () -> {
                    writeStock();
                    byHand.complete("done");
                });
        byHand.join();
        readStock();
    }

    /** Each other way to be given a function, and to see that a future is done. */
    private static void futureCalls() throws Exception {
        CompletableFuture<Integer> written = TracedFuture.supplyAsync(Wrappers::writeAndGive);
        CompletableFuture<Integer> handled = written.handle((value, failure) -> writeAndGive());
        CompletableFuture<Integer> watched = handled.whenComplete((value, failure) -> writeStock());
        CompletableFuture<Integer> applied = watched.thenApplyAsync(value -> writeAndGive());
        CompletableFuture<Integer> composed = applied.thenComposeAsync(value -> TracedFuture.supplyAsync(Wrappers::writeAndGive));
        composed.thenRun(Wrappers::writeStock).get(1, TimeUnit.MINUTES);
        writeStock();
        CompletableFuture<Integer> failing = new TracedFuture<>();
        Traced.start(
                "failing",
                () -> {
                    writeStock();
                    failing.completeExceptionally(new IllegalStateException());
                });
        failing.exceptionally(failure -> writeAndGive()).join();
        CompletableFuture<Integer> polled = TracedFuture.supplyAsync(Wrappers::writeAndGive);
        while (polled.getNow(0) == 0) {
            Thread.onSpinWait();
        }
        writeStock();
        CompletableFuture<Integer> awaited = TracedFuture.supplyAsync(Wrappers::writeAndGive);
        while (!awaited.isDone()) {
            Thread.onSpinWait();
        }
        writeStock();
        otherCompletions();
        otherFunctions();
    }

    private static void otherCompletions() {
        CompletableFuture<Integer> later = new TracedFuture<Integer>().completeAsync(Wrappers::writeAndGive);
        later.copy().join();
        writeStock();
        CompletableFuture<Integer> failing = TracedFuture.supplyAsync(Wrappers::writeAndFail);
        Throwable told = failing.handle((value, failure) -> failure).join();
        if (!(told instanceof CompletionException) || !(told.getCause() instanceof IllegalStateException)) {
            throw new IllegalStateException("a function fails otherwise than by itself: " + told);
        }
        writeStock();
    }

    /** Functions for two futures, or for a failure. */
    private static void otherFunctions() {
        CompletableFuture<Integer> never = new TracedFuture<>();
        CompletableFuture<Integer> done = TracedFuture.supplyAsync(() -> 1);
        List<Function<CompletableFuture<Integer>, CompletableFuture<?>>> ways =
                List.of(
                        future -> TracedFuture.anyOf(never, future),
                        future -> future.applyToEither(never, value -> writeAndGive()),
                        future -> never.acceptEitherAsync(future, value -> writeStock()),
                        future -> future.runAfterEither(never, Wrappers::writeStock),
                        future -> future.thenAcceptBoth(done, (own, other) -> writeStock()),
                        future -> done.runAfterBothAsync(future, Wrappers::writeStock),
                        future -> future.whenCompleteAsync((value, failure) -> writeStock()),
                        future -> future.thenApply(value -> writeAndFail()).exceptionallyAsync(failure -> writeAndGive()),
                        future -> future.thenApply(value -> writeAndFail()).exceptionallyCompose(failure -> done));
        for (Function<CompletableFuture<Integer>, CompletableFuture<?>> way : ways) {
            way.apply(TracedFuture.supplyAsync(Wrappers::writeAndGive)).join();
            writeStock();
        }
        CompletableFuture<Integer> failing = TracedFuture.supplyAsync(Wrappers::writeAndFail);
        while (!failing.isCompletedExceptionally()) {
            Thread.onSpinWait();
        }
        writeStock();
    }

    private static int writeAndFail() {
        writeStock();
        throw new IllegalStateException("on purpose");
    }

    private static int writeAndGive() {
        writeStock();
        return 1;
    }

    private static int readAnd(int value) {
        readStock();
        return value;
    }

    /** The function comes after the completion of its future, and not after what its caller does next. */
    private static void callbackTooEarly() {
        CompletableFuture<Integer> written = TracedFuture.supplyAsync(() -> 1);
        CompletableFuture<Void> told = written.thenAccept(value -> readStock());
        writeStock();
        told.join();
        futureAsValue();
        timeouts();
        firstOfTwo();
    }

    /** Whoever takes a future as a value of another one has not seen its completion. */
    private static void futureAsValue() {
        CompletableFuture<Integer> inner = new TracedFuture<>();
        CompletableFuture<CompletableFuture<Integer>> outer = TracedFuture.supplyAsync(() -> inner);
        TracedThread completing =
                Traced.start(
                        "completing",
                        () -> {
                            Traced.touch("value", true); // race: callback_too_early
                            inner.complete(1);
                        });
        doStep(Thread::join, completing.thread()); // That is no order that is reported.
        outer.join();
        Traced.touch("value", false); // race: callback_too_early
    }

    /** Whoever sees that the time is over has not seen the completion of another future with a timeout, though one thread looks at both. */
    private static void timeouts() {
        CompletableFuture<Integer> other = new TracedFuture<Integer>().orTimeout(100, TimeUnit.MILLISECONDS);
        other.thenRun(() -> sleep(200)); // The timer goes on that long.
        TracedThread completing =
                Traced.start(
                        "completing",
                        () -> {
                            Traced.touch("time", true); // race: callback_too_early
                            other.complete(1);
                        });
        doStep(Thread::join, completing.thread()); // That is no order that is reported.
        try {
            new TracedFuture<Integer>().orTimeout(200, TimeUnit.MILLISECONDS).join();
        } catch (CompletionException late) {
            Traced.touch("time", false); // race: callback_too_early
        }
    }

    /** Whoever takes what the first one gave has not seen the other one. */
    private static void firstOfTwo() {
        CompletableFuture<Integer> first = new TracedFuture<>();
        CompletableFuture<Integer> second = new TracedFuture<>();
        CompletableFuture<Object> any = TracedFuture.anyOf(second, first);
        first.complete(1);
        TracedThread completing =
                Traced.start(
                        "completing",
                        () -> {
                            Traced.touch("second", true); // race: callback_too_early
                            second.complete(2);
                        });
        doStep(Thread::join, completing.thread()); // That is no order that is reported.
        any.join();
        Traced.touch("second", false); // race: callback_too_early
    }

    private static void beforeEnd() throws InterruptedException {
        TracedThread thread = Traced.start("writer", Wrappers::writeStock);
        readStock();
        thread.join();
    }

    private static void many() throws InterruptedException {
        inTwoThreads(
                () -> {
                    for (int turn = 0; turn < MANY; turn++) {
                        Traced.touch("own " + Thread.currentThread().getName(), true);
                    }
                });
    }

    /** Somebody may come after each of the places where something is put. */
    private static void filling() throws InterruptedException {
        BlockingQueue<Integer> queue = Traced.queue(new LinkedBlockingQueue<>());
        for (int turn = 0; turn < TURNS; turn++) {
            queue.put(turn);
            Traced.touch("stock", true);
        }
    }

    private static void lockTurns(int turns) {
        Lock lock = Traced.lock(new ReentrantLock());
        for (int turn = 0; turn < turns; turn++) {
            lock.lock();
            Traced.touch("stock", true);
            lock.unlock();
        }
    }

    /** Two threads acquire one lock by turns. What hands the turns on is no order that is reported. */
    private static void lockHanded() throws InterruptedException {
        Lock lock = Traced.lock(new ReentrantLock());
        Semaphore[] turns = {new Semaphore(1), new Semaphore(0)};
        List<TracedThread> threads = new ArrayList<>();
        for (int own : new int[] {0, 1}) {
            threads.add(
                    Traced.start(
                            "turns",
                            () -> {
                                for (int turn = 0; turn < FEW / 2; turn++) {
                                    turns[own].acquireUninterruptibly();
                                    lock.lock();
                                    Traced.touch("stock", true);
                                    lock.unlock();
                                    turns[1 - own].release();
                                }
                            }));
        }
        for (TracedThread thread : threads) {
            thread.join();
        }
    }

    private static void channelTurns() throws InterruptedException {
        BlockingQueue<Integer> queue = Traced.queue(new LinkedBlockingQueue<>());
        Semaphore done = new Semaphore(0);
        TracedThread taker =
                Traced.start(
                        "taker",
                        () -> {
                            for (int turn = 0; turn < FEW; turn++) {
                                doStep(BlockingQueue::take, queue);
                                Traced.touch("stock", true);
                                done.release();
                            }
                        });
        for (int turn = 0; turn < FEW; turn++) {
            Traced.touch("item", true);
            queue.put(turn);
            done.acquire();
        }
        taker.join();
    }

    private static void across() {
        Traced.touchAcross("row", false); // race: across
        Traced.touchAcross("row", true); // race: across
        Traced.touch("own \"row\"", true);
    }

    /** A second task of this process, and what both do. */
    private static void byHand() throws Exception {
        try (Reporter reporter = Reporter.fromEnvironment().orElseThrow()) {
            String own = reporter.task;
            String child = reporter.name("child");
            String message = reporter.name("message");
            reporter.spawn(own, child);
            reporter.touch(child, "stock", true); // race: by_hand
            reporter.touch(own, "stock", false); // race: by_hand
            reporter.touchAcross(own, "row", true);
            reporter.send(own, message);
            reporter.recv(child, message);
            reporter.touchAcross(child, "row", true);
            reporter.end(child);
            reporter.join(own, child);
            reporter.touch(own, "stock", true);
        }
    }

    /** Does the steps of a file one after the other, each in its own thread. What hands them to the threads is no order that is reported. */
    private static final class Steps {
        private static final Runnable END = () -> {};
        private final Map<String, BlockingQueue<Runnable>> inboxes = new HashMap<>();
        private final Map<String, TracedThread> threads = new ConcurrentHashMap<>();
        private final Semaphore done = new Semaphore(0);
        private final Lock[] locks = {Traced.lock(new ReentrantLock()), Traced.lock(new ReentrantLock())};
        private final ReadWriteLock[] readLocks = {
            Traced.lock(new ReentrantReadWriteLock()), Traced.lock(new ReentrantReadWriteLock())
        };
        private final List<BlockingQueue<Integer>> queues =
                List.of(Traced.queue(new LinkedBlockingQueue<>()), Traced.queue(new LinkedBlockingQueue<>()));

        void run(Path file) throws Exception {
            for (String line : Files.readAllLines(file)) {
                String[] words = line.split(" ");
                if (words[1].equals("end")) {
                    inboxes.get(words[0]).put(END);
                    continue;
                }
                if (words[1].equals("spawn")) {
                    inboxes.put(words[2], new LinkedBlockingQueue<>());
                }
                if (words[0].equals("main")) {
                    step(words);
                } else {
                    inboxes.get(words[0]).put(() -> step(words));
                    done.acquire();
                }
            }
        }

        private void work(BlockingQueue<Runnable> inbox) {
            try {
                for (Runnable step = inbox.take(); step != END; step = inbox.take()) {
                    step.run();
                    done.release();
                }
            } catch (InterruptedException interrupted) {
                throw new IllegalStateException(interrupted);
            }
        }

        private void step(String[] words) {
            switch (words[1]) {
                case "touch" -> Traced.touch(words[2], true);
                case "spawn" -> threads.put(words[2], Traced.start(words[2], () -> work(inboxes.get(words[2]))));
                case "join" -> join(threads.get(words[2]));
                default -> step(words[1], Integer.parseInt(words[2]));
            }
        }

        private static void join(TracedThread thread) {
            try {
                thread.join();
            } catch (InterruptedException interrupted) {
                throw new IllegalStateException(interrupted);
            }
        }

        private void step(String operation, int place) {
            switch (operation) {
                case "wait" -> sleep(place);
                case "lock" -> locks[place].lock();
                case "unlock" -> locks[place].unlock();
                case "write_lock" -> readLocks[place].writeLock().lock();
                case "write_unlock" -> readLocks[place].writeLock().unlock();
                case "read_lock" -> readLocks[place].readLock().lock();
                case "read_unlock" -> readLocks[place].readLock().unlock();
                case "put" -> queues.get(place).add(place);
                case "take" -> queues.get(place).remove();
                default -> throw new IllegalArgumentException(operation);
            }
        }
    }

    private static void receiver(Path file) throws Exception {
        while (!Files.exists(file)) {
            Thread.sleep(10);
        }
        Traced.incoming(Files.readString(file).strip());
        Traced.touchAcross("row", true);
    }

    private static void sender(Path file) throws Exception {
        Traced.touchAcross("row", true);
        Path written = Path.of(file + ".new");
        Files.writeString(written, Traced.outgoing().orElseThrow());
        Files.move(written, file);
    }

    public static void main(String[] words) throws Exception {
        switch (words[0]) {
            case "lost_update" -> lostUpdate();
            case "plain_threads" -> plainThreads();
            case "locked" -> locked();
            case "two_orders" -> twoOrders(false);
            case "two_orders_gate" -> twoOrders(true);
            case "read_orders" -> readOrders(false);
            case "read_orders_both" -> readOrders(true);
            case "tried_order" -> triedOrder();
            case "monitor_orders" -> monitorOrders();
            case "hand_over_hand" -> handOverHand();
            case "crossed_orders" -> crossedOrders();
            case "gate_let_go" -> gateThatIsLetGo();
            case "both_ends" -> bothEnds();
            case "wait_orders" -> waitOrders();
            case "latched_orders" -> latchedOrders();
            case "late_orders" -> lateOrders();
            case "lucky_lock" -> luckyLock();
            case "contended" -> contended();
            case "tried_lock" -> triedLock();
            case "odd_names" -> oddNames();
            case "other_calls" -> otherCalls();
            case "future_calls" -> futureCalls();
            case "condition" -> condition();
            case "read_lock" -> readLock(false);
            case "read_first" -> readFirst();
            case "read_lock_race" -> readLock(true);
            case "writer_goes_on" -> writerGoesOn();
            case "hand_off" -> handOff(false);
            case "after_hand_off" -> handOff(true);
            case "executor" -> executor(false);
            case "before_future" -> executor(true);
            case "two_jobs" -> twoJobs();
            case "cancelled_job" -> cancelledJob();
            case "future" -> future();
            case "callback_too_early" -> callbackTooEarly();
            case "before_end" -> beforeEnd();
            case "many" -> many();
            case "filling" -> filling();
            case "lock_turns" -> lockTurns(MANY);
            case "lock_handed" -> lockHanded();
            case "channel_turns" -> channelTurns();
            case "across" -> across();
            case "by_hand" -> byHand();
            case "steps" -> new Steps().run(Path.of(words[1]));
            case "receiver" -> receiver(Path.of(words[1]));
            case "sender" -> sender(Path.of(words[1]));
            case "primitives" -> Primitives.run(words[1], words.length > 2 && words[2].equals("raced"));
            case "free_locks" -> Primitives.freeLocks();
            case "ends" -> Primitives.end(words[1]);
            case "parent" -> Primitives.parent(words[1]);
            case "kid" -> Primitives.kid();
            case "stranger" -> Primitives.stranger();
            case "requests" -> WebPrograms.requests(Integer.parseInt(words[1]));
            case "jobs" -> Jobs.run(Integer.parseInt(words[1]));
            case "web_server" -> WebPrograms.serve(Path.of(words[1]), Integer.parseInt(words[2]), words[3]);
            case "web_client" -> WebPrograms.ask(Path.of(words[1]), words[2]);
            default -> throw new IllegalArgumentException(words[0]);
        }
        System.out.println("done");
    }
}
