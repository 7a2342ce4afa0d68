package example.hometturi.itctrace;

import example.hometturi.itctrace.Traced.Own;
import java.util.ArrayList;
import java.util.List;

/** What a thread reads on trust, until a lock with stamps says whether somebody has written meanwhile. */
final class Trusting {
    /** So many reads wait at most. */
    private static final int MOST = 4096;
    /** So many of the last ones are looked at for the same one. */
    private static final int FEW = 8;
    /** What was read, from which number on, and what tells of that. */
    private record Read(Run run, Touched things, int from, Runnable telling) {}

    private final List<Read> reads = new ArrayList<>();

    /** Whether the read of the things of these numbers waits. If it counts, it is told by this. */
    static boolean keeps(Run run, Touched things, int from, Runnable telling) {
        if (!(run.own().trusting instanceof Trusting trusting) || run.place.writes()) {
            return false;
        }
        if (trusting.reads.size() >= MOST) {
            end(run.own(), true);
            return false;
        }
        trusting.add(new Read(run, things, from, telling));
        return true;
    }

    private void add(Read read) {
        for (int place = reads.size() - 1; place >= 0 && place >= reads.size() - FEW; place--) {
            Read one = reads.get(place);
            if (one.run == read.run && one.things == read.things && one.from == read.from) {
                return;
            }
        }
        reads.add(read);
    }

    static void begin(Own own) {
        own.trusting = new Trusting();
    }

    /** The reads are told if they count. */
    static void end(Own own, boolean count) {
        if (own.trusting instanceof Trusting trusting) {
            own.trusting = null;
            for (Read one : count ? trusting.reads : List.<Read>of()) {
                if (one.run.task == own.task()) {
                    one.telling.run();
                }
            }
        }
    }
}
