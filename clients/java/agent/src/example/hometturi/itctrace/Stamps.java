package example.hometturi.itctrace;

import example.hometturi.itctrace.Traced.Own;
import java.util.concurrent.TimeUnit;
import java.util.concurrent.locks.StampedLock;

/**
 * What stands in the place of a call of a lock with stamps. What is read on trust counts as read under the lock, if it
 * is valid.
 */
public final class Stamps {
    private static final long FOR_EVER = Long.MAX_VALUE;

    private Stamps() {}

    /** A call as the program has it. */
    private interface Call<T, X extends Exception> {
        T run() throws X;
    }

    private static <T, X extends Exception> T plain(Call<T, X> call) throws X {
        try {
            return call.run();
        } catch (Exception | Error thrown) {
            Watched.strip(thrown);
            throw thrown;
        }
    }

    private static ReadWriteOrder orderOf(StampedLock lock) {
        return Watched.orderOf(lock);
    }

    private static long acquired(StampedLock lock, boolean isWriter, boolean hasWaited, long stamp) {
        endTrust(true);
        if (stamp != 0) {
            orderOf(lock).acquired(isWriter, hasWaited);
        }
        return stamp;
    }

    private static void endTrust(boolean count) {
        if (Traced.isOn()) {
            Trusting.end(Traced.own(), count);
        }
    }

    private static void releasing(StampedLock lock, boolean isWriter, boolean isHeld) {
        if (isHeld) {
            orderOf(lock).releasing(isWriter, false);
        }
    }

    public static long writeLock(StampedLock lock) {
        return acquired(lock, true, true, plain(lock::writeLock));
    }

    public static long tryWriteLock(StampedLock lock) {
        return acquired(lock, true, false, plain(lock::tryWriteLock));
    }

    public static long tryWriteLock(StampedLock lock, long time, TimeUnit unit) throws InterruptedException {
        return acquired(lock, true, time == FOR_EVER, plain(() -> lock.tryWriteLock(time, unit)));
    }

    public static long writeLockInterruptibly(StampedLock lock) throws InterruptedException {
        return acquired(lock, true, true, plain(lock::writeLockInterruptibly));
    }

    public static long readLock(StampedLock lock) {
        return acquired(lock, false, true, plain(lock::readLock));
    }

    public static long tryReadLock(StampedLock lock) {
        return acquired(lock, false, false, plain(lock::tryReadLock));
    }

    public static long tryReadLock(StampedLock lock, long time, TimeUnit unit) throws InterruptedException {
        return acquired(lock, false, time == FOR_EVER, plain(() -> lock.tryReadLock(time, unit)));
    }

    public static long readLockInterruptibly(StampedLock lock) throws InterruptedException {
        return acquired(lock, false, true, plain(lock::readLockInterruptibly));
    }

    public static long tryOptimisticRead(StampedLock lock) {
        long stamp = plain(lock::tryOptimisticRead);
        endTrust(true);
        if (Traced.isOn()) {
            if (stamp != 0) {
                orderOf(lock).seen();
            }
            Trusting.begin(Traced.own());
        }
        return stamp;
    }

    public static boolean validate(StampedLock lock, long stamp) {
        return trusted(lock, stamp, () -> lock.validate(stamp));
    }

    /**
     * Does what says whether this thread may trust what it has read. Whoever writes next has to find that this thread
     * has read before, so that is noted while it is still valid.
     */
    private static boolean trusted(StampedLock lock, long stamp, Call<Boolean, RuntimeException> call) {
        Own own = Traced.isOn() ? Traced.own() : null;
        boolean isTrusting = own != null && own.trusting != null;
        if (isTrusting && lock.validate(stamp)) {
            orderOf(lock).trusted();
        }
        boolean isValid = plain(call);
        if (isTrusting) {
            orderOf(lock).held(() -> Trusting.end(own, isValid));
        }
        return isValid;
    }

    public static void unlockWrite(StampedLock lock, long stamp) {
        plain(
                () -> {
                    releasing(lock, true, StampedLock.isWriteLockStamp(stamp) && lock.validate(stamp));
                    lock.unlockWrite(stamp);
                    return null;
                });
    }

    public static void unlockRead(StampedLock lock, long stamp) {
        plain(
                () -> {
                    releasing(lock, false, StampedLock.isReadLockStamp(stamp) && lock.validate(stamp));
                    lock.unlockRead(stamp);
                    return null;
                });
    }

    public static void unlock(StampedLock lock, long stamp) {
        plain(
                () -> {
                    boolean isWriter = StampedLock.isWriteLockStamp(stamp);
                    releasing(lock, isWriter, (isWriter || StampedLock.isReadLockStamp(stamp)) && lock.validate(stamp));
                    lock.unlock(stamp);
                    return null;
                });
    }

    public static boolean tryUnlockWrite(StampedLock lock) {
        return plain(
                () -> {
                    releasing(lock, true, lock.isWriteLocked());
                    return lock.tryUnlockWrite();
                });
    }

    public static boolean tryUnlockRead(StampedLock lock) {
        return plain(
                () -> {
                    releasing(lock, false, lock.isReadLocked());
                    return lock.tryUnlockRead();
                });
    }

    /** A stamp, once the call has given it. */
    private static long converted(StampedLock lock, long stamp, Call<Long, RuntimeException> call) {
        long[] given = new long[1];
        trusted(
                lock,
                stamp,
                () -> {
                    given[0] = call.run();
                    return given[0] != 0;
                });
        return given[0];
    }

    public static long tryConvertToWriteLock(StampedLock lock, long stamp) {
        long converted = converted(lock, stamp, () -> lock.tryConvertToWriteLock(stamp));
        if (converted != 0 && !StampedLock.isWriteLockStamp(stamp)) {
            if (StampedLock.isReadLockStamp(stamp)) {
                orderOf(lock).releasing(false, false);
            }
            orderOf(lock).acquired(true, false);
        }
        return converted;
    }

    public static long tryConvertToReadLock(StampedLock lock, long stamp) {
        releasing(lock, true, plain(() -> StampedLock.isWriteLockStamp(stamp) && lock.validate(stamp)));
        long converted = converted(lock, stamp, () -> lock.tryConvertToReadLock(stamp));
        if (converted != 0 && !StampedLock.isReadLockStamp(stamp)) {
            orderOf(lock).acquired(false, false);
        }
        return converted;
    }

    public static long tryConvertToOptimisticRead(StampedLock lock, long stamp) {
        boolean isValid = plain(() -> lock.validate(stamp));
        releasing(lock, true, isValid && StampedLock.isWriteLockStamp(stamp));
        releasing(lock, false, isValid && StampedLock.isReadLockStamp(stamp));
        long converted = converted(lock, stamp, () -> lock.tryConvertToOptimisticRead(stamp));
        if (converted != 0 && Traced.isOn()) {
            Trusting.begin(Traced.own());
        }
        return converted;
    }
}
