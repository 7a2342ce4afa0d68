package example.hometturi.itctrace;

import java.util.concurrent.TimeUnit;
import java.util.concurrent.locks.Condition;
import java.util.concurrent.locks.Lock;
import java.util.concurrent.locks.ReadWriteLock;
import java.util.concurrent.locks.StampedLock;
import java.util.function.LongPredicate;
import java.util.function.LongSupplier;

/** A lock with stamps. A reader on trust comes after the last writer once its stamp is valid. */
final class TracedStampedLock extends StampedLock {
    private static final long serialVersionUID = 1;
    private static final long FOR_EVER = Long.MAX_VALUE;

    private final transient ReadWriteOrder order = new ReadWriteOrder();

    private long acquired(boolean isWriter, boolean hasWaited, long stamp) {
        if (stamp != 0) {
            order.acquired(isWriter, hasWaited);
        }
        return stamp;
    }

    private void releasing(boolean isWriter, boolean isHeld) {
        if (isHeld) {
            order.releasing(isWriter, false);
        }
    }

    @Override
    public long writeLock() {
        return acquired(true, true, super.writeLock());
    }

    @Override
    public long tryWriteLock() {
        return acquired(true, false, super.tryWriteLock());
    }

    @Override
    public long tryWriteLock(long time, TimeUnit unit) throws InterruptedException {
        return acquired(true, time == FOR_EVER, super.tryWriteLock(time, unit));
    }

    @Override
    public long writeLockInterruptibly() throws InterruptedException {
        return acquired(true, true, super.writeLockInterruptibly());
    }

    @Override
    public long readLock() {
        return acquired(false, true, super.readLock());
    }

    @Override
    public long tryReadLock() {
        return acquired(false, false, super.tryReadLock());
    }

    @Override
    public long tryReadLock(long time, TimeUnit unit) throws InterruptedException {
        return acquired(false, time == FOR_EVER, super.tryReadLock(time, unit));
    }

    @Override
    public long readLockInterruptibly() throws InterruptedException {
        return acquired(false, true, super.readLockInterruptibly());
    }

    @Override
    public boolean validate(long stamp) {
        boolean isValid = super.validate(stamp);
        if (isValid) {
            order.seen();
        }
        return isValid;
    }

    @Override
    public void unlockWrite(long stamp) {
        releasing(true, isWriteLockStamp(stamp) && super.validate(stamp));
        super.unlockWrite(stamp);
    }

    @Override
    public void unlockRead(long stamp) {
        releasing(false, isReadLockStamp(stamp) && super.validate(stamp));
        super.unlockRead(stamp);
    }

    @Override
    public void unlock(long stamp) {
        if (isWriteLockStamp(stamp)) {
            unlockWrite(stamp);
        } else {
            unlockRead(stamp);
        }
    }

    @Override
    public boolean tryUnlockWrite() {
        releasing(true, isWriteLocked());
        return super.tryUnlockWrite();
    }

    @Override
    public boolean tryUnlockRead() {
        releasing(false, isReadLocked());
        return super.tryUnlockRead();
    }

    @Override
    public long tryConvertToWriteLock(long stamp) {
        boolean isWriter = isWriteLockStamp(stamp);
        long converted = super.tryConvertToWriteLock(stamp);
        if (converted != 0 && !isWriter) {
            order.acquired(true, false);
        }
        return converted;
    }

    @Override
    public long tryConvertToReadLock(long stamp) {
        boolean isWriter = isWriteLockStamp(stamp);
        releasing(true, isWriter && super.validate(stamp));
        long converted = super.tryConvertToReadLock(stamp);
        if (converted != 0 && !isReadLockStamp(stamp)) {
            order.acquired(false, false);
        }
        return converted;
    }

    @Override
    public long tryConvertToOptimisticRead(long stamp) {
        boolean isValid = super.validate(stamp);
        releasing(true, isValid && isWriteLockStamp(stamp));
        releasing(false, isValid && isReadLockStamp(stamp));
        return super.tryConvertToOptimisticRead(stamp);
    }

    @Override
    public Lock asReadLock() {
        return new View(this::readLock, this::tryReadLock, this::tryReadLock, stamp -> tryUnlockRead());
    }

    @Override
    public Lock asWriteLock() {
        return new View(this::writeLock, this::tryWriteLock, this::tryWriteLock, stamp -> tryUnlockWrite());
    }

    @Override
    public ReadWriteLock asReadWriteLock() {
        return new ReadWriteLock() {
            @Override
            public Lock readLock() {
                return asReadLock();
            }

            @Override
            public Lock writeLock() {
                return asWriteLock();
            }
        };
    }

    private interface Timed {
        long acquire(long time, TimeUnit unit) throws InterruptedException;
    }

    /** The lock without its stamps. */
    private record View(LongSupplier acquire, LongSupplier tried, Timed timed, LongPredicate release) implements Lock {
        @Override
        public void lock() {
            acquire.getAsLong();
        }

        @Override
        public void lockInterruptibly() throws InterruptedException {
            timed.acquire(FOR_EVER, TimeUnit.NANOSECONDS);
        }

        @Override
        public boolean tryLock() {
            return tried.getAsLong() != 0;
        }

        @Override
        public boolean tryLock(long time, TimeUnit unit) throws InterruptedException {
            return timed.acquire(time, unit) != 0;
        }

        @Override
        public void unlock() {
            if (!release.test(0)) {
                throw new IllegalMonitorStateException();
            }
        }

        @Override
        public Condition newCondition() {
            throw new UnsupportedOperationException();
        }
    }
}
