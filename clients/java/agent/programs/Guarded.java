import java.util.ArrayList;
import java.util.Collections;
import java.util.HashMap;
import java.util.Hashtable;
import java.util.List;
import java.util.Map;
import java.util.Vector;
import java.util.concurrent.atomic.AtomicIntegerArray;
import java.util.concurrent.atomic.AtomicReferenceArray;
import java.util.concurrent.atomic.AtomicStampedReference;
import java.util.concurrent.atomic.LongAdder;
import java.util.concurrent.locks.Condition;
import java.util.concurrent.locks.Lock;
import java.util.concurrent.locks.LockSupport;
import java.util.concurrent.locks.ReadWriteLock;
import java.util.concurrent.locks.ReentrantReadWriteLock;
import java.util.concurrent.locks.StampedLock;

/** Programs that guard what they share by locks, monitors of the JDK and atomics, without a race. */
public final class Guarded {
    static final class Store {
        int left = 2;
        int sold;
    }

    private static void both(Handed.Body one, Handed.Body other) throws InterruptedException {
        Handed.both(one, other);
    }

    static void readers() throws InterruptedException {
        ReadWriteLock lock = new ReentrantReadWriteLock();
        Store store = new Store();
        both(
                () -> {
                    for (int turn = 0; turn < 10; turn++) {
                        lock.writeLock().lock();
                        try {
                            store.left++;
                        } finally {
                            lock.writeLock().unlock();
                        }
                    }
                },
                () -> {
                    Lock reading = lock.readLock();
                    for (int turn = 0; turn < 10; turn++) {
                        reading.lock();
                        try {
                            System.out.println(store.left > 0);
                        } finally {
                            reading.unlock();
                        }
                    }
                });
    }

    static void conditionOfWriters() throws InterruptedException {
        ReentrantReadWriteLock lock = new ReentrantReadWriteLock();
        Condition isFull = lock.writeLock().newCondition();
        Store store = new Store();
        both(
                () -> {
                    Thread.sleep(30); // The other one waits by then.
                    lock.writeLock().lock();
                    try {
                        store.left = 9;
                        isFull.signalAll();
                    } finally {
                        lock.writeLock().unlock();
                    }
                },
                () -> {
                    lock.writeLock().lock();
                    try {
                        while (store.left != 9) {
                            isFull.awaitUninterruptibly();
                        }
                        System.out.println(store.left);
                    } finally {
                        lock.writeLock().unlock();
                    }
                });
    }

    static void downgraded() throws InterruptedException {
        ReentrantReadWriteLock lock = new ReentrantReadWriteLock();
        Store store = new Store();
        Handed.Body use =
                () -> {
                    for (int turn = 0; turn < 10; turn++) {
                        lock.writeLock().lock();
                        store.left++;
                        lock.readLock().lock();
                        lock.writeLock().unlock();
                        System.out.println(store.left > 0);
                        lock.readLock().unlock();
                    }
                };
        both(use, use);
    }

    static void stamped() throws InterruptedException {
        StampedLock lock = new StampedLock();
        Store store = new Store();
        both(
                () -> {
                    for (int turn = 0; turn < 20; turn++) {
                        long stamp = lock.writeLock();
                        try {
                            store.left++;
                        } finally {
                            lock.unlockWrite(stamp);
                        }
                    }
                },
                () -> {
                    for (int turn = 0; turn < 20; turn++) {
                        long stamp = lock.readLock();
                        try {
                            System.out.println(store.left > 0);
                        } finally {
                            lock.unlock(stamp);
                        }
                    }
                });
    }

    /** Reads that are validated are as good as those under the lock. Those that are not are done again. */
    static void onTrust() throws InterruptedException {
        StampedLock lock = new StampedLock();
        Store store = new Store();
        both(
                () -> {
                    for (int turn = 0; turn < 300; turn++) {
                        long stamp = lock.writeLock();
                        store.left++;
                        store.sold--;
                        lock.unlockWrite(stamp);
                    }
                },
                () -> {
                    for (int turn = 0; turn < 300; turn++) {
                        long stamp = lock.tryOptimisticRead();
                        int left = store.left;
                        int sold = store.sold;
                        if (!lock.validate(stamp)) {
                            stamp = lock.readLock();
                            try {
                                left = store.left;
                                sold = store.sold;
                            } finally {
                                lock.unlockRead(stamp);
                            }
                        }
                        if (left + sold != 2) {
                            System.out.println(left + sold);
                        }
                    }
                });
    }

    static void converted() throws InterruptedException {
        StampedLock lock = new StampedLock();
        Store store = new Store();
        Handed.Body use =
                () -> {
                    for (int turn = 0; turn < 50; turn++) {
                        long stamp = lock.readLock();
                        try {
                            while (store.left < 40) {
                                long writing = lock.tryConvertToWriteLock(stamp);
                                if (writing != 0) {
                                    stamp = writing;
                                    store.left++;
                                    break;
                                }
                                lock.unlockRead(stamp);
                                stamp = lock.writeLock();
                            }
                        } finally {
                            lock.unlock(stamp);
                        }
                    }
                };
        both(use, use);
    }

    static void viewed() throws InterruptedException {
        StampedLock lock = new StampedLock();
        Store store = new Store();
        both(
                () -> {
                    Lock writing = lock.asWriteLock();
                    writing.lock();
                    store.left++;
                    writing.unlock();
                },
                () -> {
                    Lock reading = lock.asReadWriteLock().readLock();
                    reading.lock();
                    System.out.println(store.left > 0);
                    reading.unlock();
                });
    }

    static void byVector() throws InterruptedException {
        Vector<Store> stores = new Vector<>();
        Hashtable<String, Store> named = new Hashtable<>();
        StringBuffer text = new StringBuffer();
        both(
                () -> {
                    Store store = new Store();
                    store.left = 7;
                    text.append("north");
                    named.put("north", store);
                    stores.add(store);
                },
                () -> {
                    while (stores.isEmpty()) {
                        Thread.onSpinWait();
                    }
                    System.out.println(stores.get(0).left + named.get("north").left + text.length());
                });
    }

    static void bySynchronizedList() throws InterruptedException {
        List<Store> stores = Collections.synchronizedList(new ArrayList<>());
        Map<String, Store> named = Collections.synchronizedMap(new HashMap<>());
        Store total = new Store();
        Handed.Body use =
                () -> {
                    stores.add(new Store());
                    stores.forEach(store -> store.left++);
                    synchronized (stores) {
                        for (Store store : stores) {
                            total.left += store.left;
                        }
                    }
                    named.computeIfAbsent("north", name -> new Store());
                    named.compute(
                            "north",
                            (name, store) -> {
                                store.sold++;
                                return store;
                            });
                };
        both(use, use);
        System.out.println(named.get("north").sold);
    }

    static void countedInArray() throws InterruptedException {
        AtomicIntegerArray counts = new AtomicIntegerArray(4);
        AtomicReferenceArray<Store> stores = new AtomicReferenceArray<>(4);
        both(
                () -> {
                    Store store = new Store();
                    store.left = 7;
                    stores.set(1, store);
                    counts.incrementAndGet(2);
                },
                () -> {
                    while (counts.get(2) == 0) {
                        Thread.onSpinWait();
                    }
                    System.out.println(stores.get(1).left);
                });
    }

    /** Who asks for an element that is not there keeps nobody out. */
    static void beyondTheArray() throws InterruptedException {
        AtomicIntegerArray counts = new AtomicIntegerArray(4);
        Handed.Body look =
                () -> {
                    try {
                        counts.incrementAndGet(4);
                    } catch (IndexOutOfBoundsException expected) {
                        counts.incrementAndGet(3);
                    }
                };
        both(look, look);
        System.out.println(counts.get(3));
    }

    static void stampedReference() throws InterruptedException {
        AtomicStampedReference<Store> last = new AtomicStampedReference<>(new Store(), 0);
        Handed.Body push =
                () -> {
                    Store store = new Store();
                    int[] stamp = new int[1];
                    Store before;
                    do {
                        before = last.get(stamp);
                        store.left = before.left + 1;
                    } while (!last.compareAndSet(before, store, stamp[0], stamp[0] + 1));
                };
        both(push, push);
        System.out.println(last.getReference().left);
    }

    static void addedUp() throws InterruptedException {
        LongAdder done = new LongAdder();
        Store one = new Store();
        Store other = new Store();
        Thread waiting =
                new Thread(
                        () -> {
                            while (done.sum() < 2) {
                                Thread.onSpinWait();
                            }
                            System.out.println(one.left + other.left);
                        });
        waiting.start();
        both(
                () -> {
                    one.left = 4;
                    done.increment();
                },
                () -> {
                    other.left = 5;
                    done.add(1);
                });
        waiting.join();
    }

    static void unparked() throws InterruptedException {
        Store store = new Store();
        Thread waiting =
                new Thread(
                        () -> {
                            LockSupport.park();
                            System.out.println(store.left);
                        });
        waiting.start();
        store.left = 9;
        LockSupport.unpark(waiting);
        waiting.join();
    }

    private Guarded() {}

    public static void main(String[] words) throws Exception {
        Guarded.class.getDeclaredMethod(words[0]).invoke(null);
    }
}
