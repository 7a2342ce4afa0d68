package example.hometturi.itctrace;

import example.hometturi.itctrace.Place.Gives;
import example.hometturi.itctrace.Place.Mark;
import example.hometturi.itctrace.Row.Site;
import java.util.Map;
import java.util.TreeMap;
import java.util.concurrent.Phaser;
import java.util.concurrent.TimeUnit;
import java.util.concurrent.TimeoutException;

/** A phaser. Whoever sees that a phase is over comes after all who arrived in it. The last one that arrives comes after the others. */
final class TracedPhaser extends Phaser {
    private static final Gives ARRIVAL = Gives.order("arrive", "arrive at phaser", "see arrival");
    private static final Gives ADVANCE = Gives.order("phase", "end phase", "see phase over");
    /** So many phases are known that are over. */
    private static final int MOST_PHASES = 64;

    private final Givers arrived = new Givers();
    private final TreeMap<Integer, Mark> over = new TreeMap<>();

    TracedPhaser(int parties) {
        super(parties);
    }

    private void arrives() {
        if (getPhase() >= 0) {
            arrived.give(ARRIVAL, Traced.site());
        }
    }

    /** The last one that arrives calls this, while all others wait. */
    @Override
    protected boolean onAdvance(int phase, int registered) {
        arrived.takeAway(Traced.site());
        Mark mark = Traced.mark(ADVANCE, Traced.site());
        if (mark != null) {
            synchronized (over) {
                over.put(phase, mark);
                while (over.size() > MOST_PHASES) {
                    Mark.endShared(over.pollFirstEntry().getValue());
                }
            }
        }
        return super.onAdvance(phase, registered);
    }

    /** This thread has seen that the phase is over. */
    private int seen(int phase, int next) {
        Site site = Traced.site();
        Map.Entry<Integer, Mark> ended;
        synchronized (over) {
            ended = next == phase ? null : over.ceilingEntry(phase);
        }
        if (ended != null) {
            Traced.take(ended.getValue(), site);
        }
        return next;
    }

    @Override
    public int arrive() {
        arrives();
        return super.arrive();
    }

    @Override
    public int arriveAndDeregister() {
        arrives();
        return super.arriveAndDeregister();
    }

    @Override
    public int arriveAndAwaitAdvance() {
        int phase = getPhase();
        arrives();
        return seen(phase, super.arriveAndAwaitAdvance());
    }

    @Override
    public int awaitAdvance(int phase) {
        return seen(phase, super.awaitAdvance(phase));
    }

    @Override
    public int awaitAdvanceInterruptibly(int phase) throws InterruptedException {
        return seen(phase, super.awaitAdvanceInterruptibly(phase));
    }

    @Override
    public int awaitAdvanceInterruptibly(int phase, long time, TimeUnit unit) throws InterruptedException, TimeoutException {
        return seen(phase, super.awaitAdvanceInterruptibly(phase, time, unit));
    }
}
