import java.util.ArrayList;
import java.util.List;
import java.util.Timer;
import java.util.TimerTask;
import java.util.concurrent.CountDownLatch;
import java.util.concurrent.ExecutorService;
import java.util.concurrent.Executors;
import java.util.concurrent.Future;
import java.util.concurrent.FutureTask;
import java.util.concurrent.ScheduledExecutorService;
import java.util.concurrent.Semaphore;
import java.util.concurrent.TimeUnit;
import java.util.concurrent.atomic.AtomicBoolean;
import java.util.concurrent.atomic.AtomicInteger;
import java.util.concurrent.atomic.AtomicReference;
import java.util.concurrent.locks.Condition;
import java.util.concurrent.locks.Lock;
import java.util.concurrent.locks.ReentrantLock;

/** Programs as people write them, without a race. */
public final class Clean {
    static final class Store {
        int left = 2;
        static int sold;
        long total;
        String owner = "nobody";
        volatile boolean isReady;
        volatile long version;

        synchronized void sell() {
            left--;
        }

        synchronized int left() {
            return left;
        }

        static synchronized void count() {
            sold++;
        }

        synchronized void fail() {
            left--;
            throw new IllegalStateException("sold out");
        }
    }

    static void both(Runnable one, Runnable other) throws InterruptedException {
        Thread alice = new Thread(one, "alice");
        Thread bob = new Thread(other, "bob");
        alice.start();
        bob.start();
        alice.join();
        bob.join();
    }

    static void joined() throws InterruptedException {
        Store store = new Store();
        Thread alice = new Thread(() -> store.left--);
        alice.start();
        alice.join();
        Thread bob = new Thread(() -> store.left--);
        bob.start();
        bob.join();
        System.out.println(store.left);
    }

    static void alive() throws InterruptedException {
        Store store = new Store();
        Thread alice = new Thread(() -> store.left--);
        alice.start();
        while (alice.isAlive()) {
            Thread.onSpinWait();
        }
        System.out.println(store.left);
    }

    static void blocks() throws InterruptedException {
        Store store = new Store();
        Object lock = new Object();
        Runnable sell =
                () -> {
                    for (int turn = 0; turn < 100; turn++) {
                        synchronized (lock) {
                            store.left--;
                        }
                    }
                };
        both(sell, sell);
        System.out.println(store.left);
    }

    static void methods() throws InterruptedException {
        Store store = new Store();
        both(
                () -> {
                    store.sell();
                    Store.count();
                },
                () -> {
                    System.out.println(store.left() >= 0);
                    Store.count();
                });
    }

    static void thrown() throws InterruptedException {
        Store store = new Store();
        Runnable fail =
                () -> {
                    try {
                        store.fail();
                    } catch (IllegalStateException soldOut) {
                        System.out.println(soldOut.getMessage());
                    }
                };
        both(fail, fail);
    }

    static void waited() throws InterruptedException {
        Store store = new Store();
        List<String> orders = new ArrayList<>();
        both(
                () -> {
                    synchronized (orders) {
                        store.owner = "alice";
                        orders.add("one");
                        orders.notifyAll();
                    }
                },
                () -> {
                    synchronized (orders) {
                        while (orders.isEmpty()) {
                            try {
                                orders.wait();
                            } catch (InterruptedException interrupted) {
                                return;
                            }
                        }
                    }
                    System.out.println(store.owner);
                });
    }

    static void flag() throws InterruptedException {
        Store store = new Store();
        both(
                () -> {
                    store.left = 5;
                    store.version = 7;
                    store.isReady = true;
                },
                () -> {
                    while (!store.isReady) {
                        Thread.onSpinWait();
                    }
                    System.out.println(store.left + " " + store.version);
                });
    }

    static final class Singleton {
        static Singleton only;
        int made;

        static {
            only = new Singleton();
            only.made = 3;
        }

        static Singleton get() {
            return only;
        }
    }

    static void initialized() throws InterruptedException {
        Runnable use = () -> System.out.println(Singleton.get().made);
        both(use, use);
    }

    static final class Holder {
        static final int[] BOX = {1};
        static final Store STORE = new Store();
    }

    static void held() throws InterruptedException {
        Runnable use = () -> System.out.println(Holder.STORE.left);
        both(use, use);
    }

    static void locked() throws InterruptedException {
        Store store = new Store();
        Lock lock = new ReentrantLock();
        Runnable sell =
                () -> {
                    lock.lock();
                    try {
                        store.left--;
                    } finally {
                        lock.unlock();
                    }
                };
        both(sell, sell);
    }

    static void condition() throws InterruptedException {
        Store store = new Store();
        ReentrantLock lock = new ReentrantLock();
        Condition isFull = lock.newCondition();
        both(
                () -> {
                    lock.lock();
                    try {
                        store.left = 9;
                        isFull.signalAll();
                    } finally {
                        lock.unlock();
                    }
                },
                () -> {
                    lock.lock();
                    try {
                        while (store.left != 9) {
                            isFull.await(1, TimeUnit.SECONDS);
                        }
                    } catch (InterruptedException interrupted) {
                        return;
                    } finally {
                        lock.unlock();
                    }
                });
    }

    static void futures() throws Exception {
        Store store = new Store();
        ExecutorService pool = Executors.newFixedThreadPool(3);
        Future<Integer> sold =
                pool.submit(
                        () -> {
                            store.left--;
                            return 1;
                        });
        sold.get();
        Future<?> more = pool.submit(() -> store.left--);
        more.get();
        System.out.println(store.left);
        pool.shutdown();
    }

    static void terminated() throws Exception {
        Store store = new Store();
        ExecutorService pool = Executors.newFixedThreadPool(3);
        pool.execute(() -> store.left--);
        pool.execute(() -> store.owner = "bob");
        pool.shutdown();
        while (!pool.awaitTermination(1, TimeUnit.SECONDS)) {
            Thread.onSpinWait();
        }
        System.out.println(store.left + store.owner);
    }

    static void oneThread() throws Exception {
        Store store = new Store();
        ExecutorService pool = Executors.newSingleThreadExecutor();
        for (int turn = 0; turn < 50; turn++) {
            pool.execute(() -> store.left++);
        }
        pool.submit(() -> System.out.println(store.left)).get();
        pool.shutdown();
    }

    static void scheduled() throws Exception {
        Store store = new Store();
        ScheduledExecutorService pool = Executors.newScheduledThreadPool(2);
        store.left = 3;
        CountDownLatch turns = new CountDownLatch(3);
        pool.scheduleAtFixedRate(
                () -> {
                    store.left++;
                    turns.countDown();
                    if (turns.getCount() == 0) {
                        throw new IllegalStateException("enough");
                    }
                },
                1,
                1,
                TimeUnit.MILLISECONDS);
        turns.await();
        System.out.println(store.left);
        pool.shutdownNow();
    }

    static void latched() throws InterruptedException {
        Store store = new Store();
        CountDownLatch latch = new CountDownLatch(1);
        both(
                () -> {
                    store.owner = "alice";
                    latch.countDown();
                },
                () -> {
                    try {
                        latch.await();
                    } catch (InterruptedException interrupted) {
                        return;
                    }
                    System.out.println(store.owner);
                });
    }

    static void permitted() throws InterruptedException {
        Store store = new Store();
        Semaphore full = new Semaphore(0);
        both(
                () -> {
                    store.owner = "alice";
                    full.release();
                },
                () -> {
                    full.acquireUninterruptibly();
                    System.out.println(store.owner);
                });
    }

    static void counted() throws InterruptedException {
        Store store = new Store();
        AtomicInteger done = new AtomicInteger();
        AtomicReference<String> name = new AtomicReference<>();
        AtomicBoolean isOver = new AtomicBoolean();
        both(
                () -> {
                    store.left = 4;
                    name.set("alice");
                    done.incrementAndGet();
                    isOver.compareAndSet(false, true);
                },
                () -> {
                    while (done.get() == 0) {
                        Thread.onSpinWait();
                    }
                    System.out.println(store.left + name.get());
                });
    }

    static void task() throws Exception {
        Store store = new Store();
        FutureTask<Integer> task =
                new FutureTask<>(
                        () -> {
                            store.total = 8;
                            return 1;
                        });
        new Thread(task).start();
        task.get();
        System.out.println(store.total);
    }

    static void timer() throws InterruptedException {
        Store store = new Store();
        store.left = 6;
        CountDownLatch over = new CountDownLatch(1);
        Timer timer = new Timer("timer");
        timer.schedule(
                new TimerTask() {
                    @Override
                    public void run() {
                        System.out.println(store.left);
                        store.left++;
                        over.countDown();
                    }
                },
                5);
        over.await();
        System.out.println(store.left);
        timer.cancel();
    }

    static void hook() throws InterruptedException {
        Store store = new Store();
        Runtime.getRuntime().addShutdownHook(new Thread(() -> System.out.println(store.left + store.owner)));
        Thread bob = new Thread(() -> store.owner = "bob");
        bob.start();
        store.left = 1;
    }

    static void alone() {
        Store store = new Store();
        for (int turn = 0; turn < 1_000_000; turn++) {
            store.left += turn;
            store.total += store.left;
        }
        System.out.println(store.total);
    }

    private Clean() {}

    public static void main(String[] words) throws Exception {
        Clean.class.getDeclaredMethod(words[0]).invoke(null);
    }
}
