package example.hometturi.itctrace;

import java.util.concurrent.TimeUnit;
import java.util.concurrent.locks.Condition;
import java.util.concurrent.locks.Lock;

/** A lock that reports each time that it was acquired, and each time before it is released. Who comes after whom is said by its kind. */
abstract class ReportingLock implements Lock {
    private final Lock lock;

    ReportingLock(Lock lock) {
        this.lock = lock;
    }

    /** This thread holds it from now on. It would have waited for it for ever, or had a way back. */
    abstract void acquired(boolean hasWaited);

    /**
     * This thread is about to release it, or to lend it for the time of a wait. Reports nothing if the thread does not hold it: the lock
     * itself says what is wrong.
     */
    abstract void releasing(boolean isLent);

    /** Others wait for more than the lock, as for a condition. Then its hand-over is meant, and no luck. */
    abstract void becomeGuard();

    /** Reports that the lock is released, however often it is held. Gives what reports that it is acquired again. */
    abstract Runnable lend();

    @Override
    public final void lock() {
        lock.lock();
        acquired(true);
    }

    @Override
    public final void lockInterruptibly() throws InterruptedException {
        lock.lockInterruptibly();
        acquired(true);
    }

    @Override
    public final boolean tryLock() {
        return acquiredIf(lock.tryLock());
    }

    @Override
    public final boolean tryLock(long time, TimeUnit unit) throws InterruptedException {
        return acquiredIf(lock.tryLock(time, unit));
    }

    private boolean acquiredIf(boolean isAcquired) {
        if (isAcquired) {
            acquired(false);
        }
        return isAcquired;
    }

    @Override
    public final void unlock() {
        releasing(false);
        lock.unlock();
    }

    @Override
    public final Condition newCondition() {
        Condition condition = lock.newCondition();
        becomeGuard();
        return new TracedCondition(condition, this::lend);
    }
}
