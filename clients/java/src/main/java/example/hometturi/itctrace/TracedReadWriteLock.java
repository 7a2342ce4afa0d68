package example.hometturi.itctrace;

import java.util.concurrent.locks.Lock;
import java.util.concurrent.locks.ReadWriteLock;
import java.util.concurrent.locks.ReentrantReadWriteLock;
import java.util.function.BooleanSupplier;

/** A lock that several threads may read under at once. */
final class TracedReadWriteLock implements ReadWriteLock {
    private final Lock reading;
    private final Lock writing;
    private final ReadWriteOrder order = new ReadWriteOrder();

    TracedReadWriteLock(ReentrantReadWriteLock lock) {
        reading = new Side(lock.readLock(), false, () -> lock.getReadHoldCount() > 0);
        writing = new Side(lock.writeLock(), true, lock::isWriteLockedByCurrentThread);
    }

    @Override
    public Lock readLock() {
        return reading;
    }

    @Override
    public Lock writeLock() {
        return writing;
    }

    /** The lock of those who read, or of those who write. */
    private final class Side extends ReportingLock {
        private final boolean isWriter;
        private final BooleanSupplier isHeld;

        Side(Lock lock, boolean isWriter, BooleanSupplier isHeld) {
            super(lock);
            this.isWriter = isWriter;
            this.isHeld = isHeld;
        }

        @Override
        void acquired(boolean hasWaited) {
            order.acquired(isWriter, hasWaited);
        }

        @Override
        void releasing(boolean isLent) {
            if (Traced.isOn() && isHeld.getAsBoolean()) {
                order.releasing(isWriter, isLent);
            }
        }

        @Override
        void becomeGuard() {
            order.becomeGuard();
        }

        @Override
        Runnable lend() {
            if (!isHeld.getAsBoolean()) {
                return () -> {};
            }
            releasing(true);
            return () -> acquired(true);
        }
    }
}
