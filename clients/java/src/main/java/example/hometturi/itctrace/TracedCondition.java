package example.hometturi.itctrace;

import java.util.Date;
import java.util.concurrent.TimeUnit;
import java.util.concurrent.locks.Condition;
import java.util.function.Supplier;

/** A condition. Whoever waits releases its lock, and acquires it from the one who has signalled or from a later one. */
final class TracedCondition implements Condition {
    private final Condition condition;
    private final Supplier<Runnable> lend;

    /** The lock is lent for the time of waiting. What lends it gives what takes it back. */
    TracedCondition(Condition condition, Supplier<Runnable> lend) {
        this.condition = condition;
        this.lend = lend;
    }

    private interface Waiting<T> {
        T await() throws InterruptedException;
    }

    private <T> T waiting(Waiting<T> waiting) throws InterruptedException {
        Runnable takeBack = lend.get();
        try {
            return waiting.await();
        } finally {
            takeBack.run();
        }
    }

    @Override
    public void await() throws InterruptedException {
        waiting(
                () -> {
                    condition.await();
                    return null;
                });
    }

    @Override
    public void awaitUninterruptibly() {
        Runnable takeBack = lend.get();
        try {
            condition.awaitUninterruptibly();
        } finally {
            takeBack.run();
        }
    }

    @Override
    public long awaitNanos(long nanoseconds) throws InterruptedException {
        return waiting(() -> condition.awaitNanos(nanoseconds));
    }

    @Override
    public boolean await(long time, TimeUnit unit) throws InterruptedException {
        return waiting(() -> condition.await(time, unit));
    }

    @Override
    public boolean awaitUntil(Date deadline) throws InterruptedException {
        return waiting(() -> condition.awaitUntil(deadline));
    }

    @Override
    public void signal() {
        condition.signal();
    }

    @Override
    public void signalAll() {
        condition.signalAll();
    }
}
