import java.util.concurrent.Callable;
import java.util.concurrent.CountDownLatch;
import java.util.concurrent.ExecutorService;
import java.util.concurrent.Executors;
import java.util.concurrent.Future;
import java.util.concurrent.TimeUnit;
import java.util.concurrent.atomic.AtomicBoolean;
import java.util.concurrent.locks.ReentrantLock;

/** Programs as people write them, each with a race. A line that races says so in a comment, with the name of its program. */
public final class Races {
    static final class Store {
        int left = 2;
        static int sold;
        long total;
        double price = 1.0;
        boolean isOpen = true;
        String owner = "nobody";
        volatile boolean isReady;
    }

    /** A hand-over by sleep alone. It orders nothing. */
    static void rest() {
        try {
            Thread.sleep(30);
        } catch (InterruptedException interrupted) {
            Thread.currentThread().interrupt();
        }
    }

    static void both(Runnable one, Runnable other) throws InterruptedException {
        Thread alice = new Thread(one, "alice");
        Thread bob = new Thread(other, "bob");
        alice.start();
        bob.start();
        alice.join();
        bob.join();
    }

    static void lostUpdate() throws InterruptedException {
        Store store = new Store();
        Runnable sell =
                () -> {
                    store.left = store.left - 1; // race: lostUpdate
                };
        both(sell, sell);
    }

    static void staticCount() throws InterruptedException {
        both(
                () -> Store.sold++, // race: staticCount
                () -> Store.sold += 2); // race: staticCount
    }

    static void wideFields() throws InterruptedException {
        Store store = new Store();
        both(
                () -> {
                    store.total += 5; // race: wideFields
                    store.price *= 2; // race: wideFields
                },
                () -> {
                    store.total = 7; // race: wideFields
                    store.price = 3; // race: wideFields
                });
    }

    static void beforeJoin() throws InterruptedException {
        Store store = new Store();
        Thread alice =
                new Thread(
                        () -> {
                            store.owner = "alice"; // race: beforeJoin
                        });
        alice.start();
        rest();
        System.out.println(store.owner); // race: beforeJoin
        alice.join();
    }

    static void wrongLock() throws InterruptedException {
        Store store = new Store();
        Object one = new Object();
        Object other = new Object();
        both(
                () -> {
                    synchronized (one) {
                        store.left--; // race: wrongLock
                    }
                },
                () -> {
                    synchronized (other) {
                        store.left--; // race: wrongLock
                    }
                });
    }

    static final class Account {
        private int balance;

        synchronized void pay(int sum) {
            balance += sum; // race: halfSynchronized
        }

        int read() {
            return balance; // race: halfSynchronized
        }
    }

    static void halfSynchronized() throws InterruptedException {
        Account account = new Account();
        both(() -> account.pay(1), () -> account.read());
    }

    static void plainFlag() throws InterruptedException {
        Store store = new Store();
        both(
                () -> {
                    store.isOpen = false; // race: plainFlag
                },
                () -> {
                    for (int turn = 0; turn < 1000 && store.isOpen; turn++) { // race: plainFlag
                        Thread.onSpinWait();
                    }
                });
    }

    static void behindTheFlag() throws InterruptedException {
        Store store = new Store();
        both(
                () -> {
                    store.isReady = true;
                    store.left = 5; // race: behindTheFlag
                },
                () -> {
                    while (!store.isReady) {
                        Thread.onSpinWait();
                    }
                    rest();
                    System.out.println(store.left); // race: behindTheFlag
                });
    }

    static void twoJobs() throws Exception {
        Store store = new Store();
        ExecutorService pool = Executors.newFixedThreadPool(2);
        Runnable sell =
                () -> {
                    store.left--; // race: twoJobs
                };
        Future<?> first = pool.submit(sell);
        Future<?> second = pool.submit(sell);
        first.get();
        second.get();
        pool.shutdown();
    }

    static void beforeGet() throws Exception {
        Store store = new Store();
        ExecutorService pool = Executors.newCachedThreadPool();
        Callable<Integer> sell =
                () -> {
                    store.left--; // race: beforeGet
                    return 1;
                };
        Future<Integer> sold = pool.submit(sell);
        rest();
        System.out.println(store.left); // race: beforeGet
        sold.get();
        pool.shutdown();
    }

    static void behindTheLatch() throws InterruptedException {
        Store store = new Store();
        CountDownLatch latch = new CountDownLatch(1);
        both(
                () -> {
                    latch.countDown();
                    store.owner = "alice"; // race: behindTheLatch
                },
                () -> {
                    try {
                        latch.await();
                    } catch (InterruptedException interrupted) {
                        return;
                    }
                    rest();
                    System.out.println(store.owner); // race: behindTheLatch
                });
    }

    static void oneSideLocked() throws InterruptedException {
        Store store = new Store();
        ReentrantLock lock = new ReentrantLock();
        both(
                () -> {
                    lock.lock();
                    try {
                        store.left--; // race: oneSideLocked
                    } finally {
                        lock.unlock();
                    }
                },
                () -> {
                    store.left--; // race: oneSideLocked
                });
    }

    static final class Lazy {
        static Lazy only;
        int made = 1;

        static Lazy get() {
            if (only == null) { // race: lazy
                only = new Lazy(); // race: lazy
            }
            return only; // race: lazy
        }
    }

    static void lazy() throws InterruptedException {
        both(Lazy::get, Lazy::get);
    }

    static void failedTry() throws InterruptedException {
        Store store = new Store();
        AtomicBoolean taken = new AtomicBoolean(true);
        both(
                () -> {
                    store.total = 4; // race: failedTry
                    taken.compareAndSet(false, true);
                },
                () -> {
                    rest();
                    taken.get();
                    System.out.println(store.total); // race: failedTry
                });
    }

    static void awaitTooShort() throws Exception {
        Store store = new Store();
        ExecutorService pool = Executors.newFixedThreadPool(2);
        CountDownLatch begun = new CountDownLatch(1);
        pool.execute(
                () -> {
                    store.left = 1;
                    begun.countDown();
                    rest();
                    store.left = 0; // race: awaitTooShort
                });
        begun.await();
        pool.shutdown();
        System.out.println(pool.awaitTermination(1, TimeUnit.NANOSECONDS));
        System.out.println(store.left); // race: awaitTooShort
    }

    private Races() {}

    public static void main(String[] words) throws Exception {
        Races.class.getDeclaredMethod(words[0]).invoke(null);
    }
}
