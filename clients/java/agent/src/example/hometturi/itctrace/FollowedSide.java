package example.hometturi.itctrace;

/**
 * One side of a lock for readers and writers, as the agent follows it: that of those who read, or of those who write.
 */
final class FollowedSide extends ReportingLock {
    private final ReadWriteOrder order;
    private final boolean isWriter;

    /** It keeps the lock itself from nothing. */
    FollowedSide(ReadWriteOrder order, boolean isWriter) {
        super(null);
        this.order = order;
        this.isWriter = isWriter;
    }

    @Override
    void acquired(boolean hasWaited) {
        order.acquired(isWriter, hasWaited);
    }

    @Override
    void releasing(boolean isLent) {
        if (order.isHeld()) {
            order.releasing(isWriter, isLent);
        }
    }

    @Override
    void becomeGuard() {
        order.becomeGuard();
    }

    @Override
    Runnable lend() {
        if (!order.isHeld()) {
            return () -> {}; // The condition itself says what is wrong.
        }
        releasing(true);
        return () -> acquired(true);
    }
}
