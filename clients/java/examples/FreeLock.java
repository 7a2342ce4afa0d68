import example.hometturi.itctrace.Traced;
import java.lang.management.ManagementFactory;
import java.lang.management.ThreadMXBean;
import java.util.Locale;
import java.util.concurrent.locks.Lock;
import java.util.concurrent.locks.ReentrantLock;
import java.util.concurrent.locks.ReentrantReadWriteLock;

/**
 * What a turn of a lock costs that nobody else wants: that of the JDK, and that which is wrapped, by turns, in nanoseconds of the
 * processor's time. {@code clients/measure.py} runs it with a trace and without one.
 */
final class FreeLock {
    private static final ThreadMXBean CLOCK = ManagementFactory.getThreadMXBean();
    private static final int TURNS = 1_000_000;
    private static final int ROUNDS = 9;
    private static long value;

    private FreeLock() {}

    private static double own(Lock lock) {
        long begun = CLOCK.getCurrentThreadCpuTime();
        for (int turn = 0; turn < TURNS; turn++) {
            lock.lock();
            value++;
            lock.unlock();
        }
        return (CLOCK.getCurrentThreadCpuTime() - begun) / (double) TURNS;
    }

    /** The same, so that the compiler knows each loop by one kind of lock. */
    private static double wrapped(Lock lock) {
        long begun = CLOCK.getCurrentThreadCpuTime();
        for (int turn = 0; turn < TURNS; turn++) {
            lock.lock();
            value++;
            lock.unlock();
        }
        return (CLOCK.getCurrentThreadCpuTime() - begun) / (double) TURNS;
    }

    private static void measure(String name, Lock own, Lock wrapped) {
        double least = Double.MAX_VALUE;
        double leastWrapped = Double.MAX_VALUE;
        for (int round = 0; round < ROUNDS; round++) {
            least = Math.min(least, own(own));
            leastWrapped = Math.min(leastWrapped, wrapped(wrapped));
        }
        System.out.printf(Locale.ROOT, "%s %.1f %.1f%n", name, least, leastWrapped);
    }

    public static void main(String[] words) {
        Traced.touch("value", true);
        if (words[0].equals("lock")) {
            measure("lock", new ReentrantLock(), Traced.lock(new ReentrantLock()));
        } else {
            measure("reader", new ReentrantReadWriteLock().readLock(), Traced.lock(new ReentrantReadWriteLock()).readLock());
        }
    }
}
