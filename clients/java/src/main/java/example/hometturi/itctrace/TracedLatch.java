package example.hometturi.itctrace;

import example.hometturi.itctrace.Place.Gives;
import java.util.concurrent.CountDownLatch;
import java.util.concurrent.TimeUnit;

/** A latch. Whoever has waited for it comes after all who have counted it down. */
final class TracedLatch extends CountDownLatch {
    private static final Gives COUNT = Gives.order("latch", "count down latch", "see latch open");

    private final Givers givers = new Givers();

    TracedLatch(int count) {
        super(count);
    }

    @Override
    public void countDown() {
        givers.give(COUNT, Traced.site());
        super.countDown();
    }

    @Override
    public void await() throws InterruptedException {
        super.await();
        givers.take(Traced.site());
    }

    @Override
    public boolean await(long time, TimeUnit unit) throws InterruptedException {
        boolean isOpen = super.await(time, unit);
        if (isOpen) {
            givers.take(Traced.site());
        }
        return isOpen;
    }

    @Override
    public long getCount() {
        long count = super.getCount();
        if (count == 0) {
            givers.take(Traced.site());
        }
        return count;
    }
}
