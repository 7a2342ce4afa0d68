package example.hometturi.itctrace;

import example.hometturi.itctrace.Place.Gives;
import java.util.concurrent.Semaphore;
import java.util.concurrent.TimeUnit;

/** A semaphore. Whoever acquires comes after all who have released. */
final class TracedSemaphore extends Semaphore {
    private static final long serialVersionUID = 1;
    private static final Gives PERMIT = Gives.order("permit", "release semaphore", "acquire semaphore");

    private final transient Givers givers = new Givers();

    TracedSemaphore(int permits, boolean isFair) {
        super(permits, isFair);
    }

    private boolean acquiredIf(boolean isAcquired) {
        if (isAcquired) {
            givers.take(Traced.site());
        }
        return isAcquired;
    }

    @Override
    public void acquire() throws InterruptedException {
        super.acquire();
        acquiredIf(true);
    }

    @Override
    public void acquire(int permits) throws InterruptedException {
        super.acquire(permits);
        acquiredIf(true);
    }

    @Override
    public void acquireUninterruptibly() {
        super.acquireUninterruptibly();
        acquiredIf(true);
    }

    @Override
    public void acquireUninterruptibly(int permits) {
        super.acquireUninterruptibly(permits);
        acquiredIf(true);
    }

    @Override
    public boolean tryAcquire() {
        return acquiredIf(super.tryAcquire());
    }

    @Override
    public boolean tryAcquire(int permits) {
        return acquiredIf(super.tryAcquire(permits));
    }

    @Override
    public boolean tryAcquire(long time, TimeUnit unit) throws InterruptedException {
        return acquiredIf(super.tryAcquire(time, unit));
    }

    @Override
    public boolean tryAcquire(int permits, long time, TimeUnit unit) throws InterruptedException {
        return acquiredIf(super.tryAcquire(permits, time, unit));
    }

    @Override
    public int drainPermits() {
        int drained = super.drainPermits();
        acquiredIf(drained > 0);
        return drained;
    }

    @Override
    public void release() {
        givers.give(PERMIT, Traced.site());
        super.release();
    }

    @Override
    public void release(int permits) {
        givers.give(PERMIT, Traced.site());
        super.release(permits);
    }
}
