package example.hometturi.itctrace;

import example.hometturi.itctrace.Place.Gives;
import example.hometturi.itctrace.Place.Mark;
import example.hometturi.itctrace.Row.Site;
import java.util.concurrent.BrokenBarrierException;
import java.util.concurrent.CyclicBarrier;
import java.util.concurrent.TimeUnit;
import java.util.concurrent.TimeoutException;

/** A barrier. Whoever leaves it comes after all who arrived at it. The last one that arrives comes after the others, and they after it. */
final class TracedBarrier extends CyclicBarrier {
    private static final Gives ARRIVAL = Gives.order("arrive", "arrive at barrier", "see arrival");
    private static final Gives OPENING = Gives.order("open", "open barrier", "leave barrier");

    private final int parties;
    private final Runnable action;
    private Round round = new Round();
    private int arrived;

    /** Those that leave together. */
    private static final class Round {
        private final Givers givers = new Givers();
        private Mark opened;
        private boolean isOpen;
        private boolean isBroken;
    }

    TracedBarrier(int parties, Runnable action) {
        super(parties);
        this.parties = parties;
        this.action = action;
    }

    @Override
    public int await() throws InterruptedException, BrokenBarrierException {
        try {
            return await(0);
        } catch (TimeoutException late) {
            throw new IllegalStateException(late);
        }
    }

    @Override
    public int await(long time, TimeUnit unit) throws InterruptedException, BrokenBarrierException, TimeoutException {
        return await(Math.max(1, unit.toNanos(time)));
    }

    /** With 0 nanoseconds it waits for ever. */
    private synchronized int await(long nanoseconds) throws InterruptedException, BrokenBarrierException, TimeoutException {
        Site site = Traced.site();
        Round own = round;
        if (own.isBroken) {
            throw new BrokenBarrierException();
        }
        if (Thread.interrupted()) {
            breakNow(own);
            throw new InterruptedException();
        }
        int place = parties - ++arrived;
        if (place == 0) {
            open(own, site);
            return 0;
        }
        own.givers.give(ARRIVAL, site);
        waitFor(own, nanoseconds);
        Traced.take(own.opened, site);
        return place;
    }

    private void open(Round own, Site site) {
        own.givers.takeAway(site);
        boolean isDone = false;
        try {
            if (action != null) {
                action.run();
            }
            isDone = true;
        } finally {
            if (!isDone) {
                breakNow(own);
            }
        }
        own.opened = Traced.mark(OPENING, site);
        own.isOpen = true;
        next();
    }

    private void next() {
        round = new Round();
        arrived = 0;
        notifyAll();
    }

    private void breakNow(Round own) {
        own.isBroken = true;
        arrived = 0;
        notifyAll();
    }

    private void waitFor(Round own, long nanoseconds) throws InterruptedException, BrokenBarrierException, TimeoutException {
        long until = System.nanoTime() + nanoseconds;
        while (!own.isOpen && !own.isBroken) {
            try {
                if (nanoseconds == 0) {
                    wait();
                } else {
                    TimeUnit.NANOSECONDS.timedWait(this, Math.max(1, until - System.nanoTime()));
                }
            } catch (InterruptedException interrupted) {
                if (own.isOpen) {
                    Thread.currentThread().interrupt();
                    return;
                }
                breakNow(own);
                throw interrupted;
            }
            if (nanoseconds > 0 && System.nanoTime() >= until && !own.isOpen && !own.isBroken) {
                breakNow(own);
                throw new TimeoutException();
            }
        }
        if (own.isBroken) {
            throw new BrokenBarrierException();
        }
    }

    @Override
    public synchronized boolean isBroken() {
        return round.isBroken;
    }

    @Override
    public synchronized void reset() {
        round.isBroken = arrived > 0;
        next();
    }

    @Override
    public synchronized int getNumberWaiting() {
        return arrived;
    }
}
