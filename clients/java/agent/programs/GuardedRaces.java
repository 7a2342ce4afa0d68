import java.util.ArrayList;
import java.util.Collections;
import java.util.List;
import java.util.Vector;
import java.util.concurrent.atomic.AtomicIntegerArray;
import java.util.concurrent.atomic.LongAdder;
import java.util.concurrent.locks.LockSupport;
import java.util.concurrent.locks.ReentrantReadWriteLock;
import java.util.concurrent.locks.StampedLock;

/** Programs that guard what they share by locks, monitors of the JDK and atomics, each with a race. */
public final class GuardedRaces {
    static final class Store {
        int left = 2;
        int sold;
    }

    private static void both(Handed.Body one, Handed.Body other) throws InterruptedException {
        Handed.both(one, other);
    }

    static void writtenByReaders() throws InterruptedException {
        ReentrantReadWriteLock lock = new ReentrantReadWriteLock();
        Store store = new Store();
        Handed.Body use =
                () -> {
                    lock.readLock().lock();
                    try {
                        store.sold++; // race: writtenByReaders
                    } finally {
                        lock.readLock().unlock();
                    }
                };
        both(use, use);
    }

    static void readWithoutLock() throws InterruptedException {
        ReentrantReadWriteLock lock = new ReentrantReadWriteLock();
        Store store = new Store();
        both(
                () -> {
                    lock.writeLock().lock();
                    store.left = 4; // race: readWithoutLock
                    lock.writeLock().unlock();
                },
                () -> System.out.println(store.left)); // race: readWithoutLock
    }

    static void writtenByStampedReaders() throws InterruptedException {
        StampedLock lock = new StampedLock();
        Store store = new Store();
        Handed.Body use =
                () -> {
                    long stamp = lock.readLock();
                    store.sold++; // race: writtenByStampedReaders
                    lock.unlockRead(stamp);
                };
        both(use, use);
    }

    static void neverValidated() throws InterruptedException {
        StampedLock lock = new StampedLock();
        Store store = new Store();
        both(
                () -> {
                    Thread.sleep(600); // The other one has read by then.
                    long stamp = lock.writeLock();
                    store.left++; // race: neverValidated
                    lock.unlockWrite(stamp);
                },
                () -> {
                    if (lock.tryOptimisticRead() != 0) {
                        System.out.println(store.left); // race: neverValidated
                    }
                });
    }

    static void writtenOnTrust() throws InterruptedException {
        StampedLock lock = new StampedLock();
        Store store = new Store();
        Handed.Body use =
                () -> {
                    long stamp = lock.tryOptimisticRead();
                    store.sold = 3; // race: writtenOnTrust
                    System.out.println(lock.validate(stamp));
                };
        both(use, use);
    }

    static void behindTheVector() throws InterruptedException {
        Vector<String> names = new Vector<>();
        List<String> others = Collections.synchronizedList(new ArrayList<>());
        Store store = new Store();
        Handed.Body add =
                () -> {
                    names.add("one");
                    others.add("one");
                    store.sold++; // race: behindTheVector
                };
        both(add, add);
    }

    static void otherElementOfArray() throws InterruptedException {
        AtomicIntegerArray counts = new AtomicIntegerArray(2);
        Store store = new Store();
        both(
                () -> {
                    store.sold++; // race: otherElementOfArray
                    counts.set(0, 1);
                },
                () -> {
                    counts.incrementAndGet(1);
                    store.sold++; // race: otherElementOfArray
                });
    }

    static void bothAdd() throws InterruptedException {
        LongAdder sum = new LongAdder();
        Store store = new Store();
        both(
                () -> {
                    store.sold++; // race: bothAdd
                    sum.increment();
                },
                () -> {
                    sum.increment();
                    store.sold++; // race: bothAdd
                });
        System.out.println(sum.sum());
    }

    static void behindTheUnpark() throws InterruptedException {
        Store store = new Store();
        Thread waiting =
                new Thread(
                        () -> {
                            LockSupport.park();
                            System.out.println(store.left); // race: behindTheUnpark
                        });
        waiting.start();
        LockSupport.unpark(waiting);
        store.left = 9; // race: behindTheUnpark
        waiting.join();
    }

    private GuardedRaces() {}

    public static void main(String[] words) throws Exception {
        GuardedRaces.class.getDeclaredMethod(words[0]).invoke(null);
    }
}
