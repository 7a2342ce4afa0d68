package example.hometturi.itctrace;

import example.hometturi.itctrace.Place.Gives;
import example.hometturi.itctrace.Row.Site;
import java.util.Map;
import java.util.TreeMap;

/**
 * Who has arrived in which phase of a phaser. The last one that arrives comes after the others, and after the phase
 * before.
 */
final class Phases {
    private static final Gives ARRIVAL = Gives.order("arrive", "arrive at phaser", "see arrival");
    private static final int MOST = 64;

    private final TreeMap<Integer, Givers> arrived = new TreeMap<>();

    synchronized void arrive(int phase, Site site) {
        arrived.computeIfAbsent(phase, fresh -> new Givers()).give(ARRIVAL, site);
        while (arrived.size() > MOST) {
            arrived.pollFirstEntry().getValue().clear();
        }
    }

    /** This thread has seen that the phaser is in this phase, or that it has ended if that is below zero. */
    synchronized void see(int phase, Site site) {
        Map.Entry<Integer, Givers> over = phase < 0 ? arrived.lastEntry() : arrived.lowerEntry(phase);
        if (over != null) {
            over.getValue().take(site);
        }
    }

    /** This thread has arrived last in the phase, which ends now. */
    synchronized void advance(int phase, Site site) {
        see(phase, site);
        Givers all = arrived.get(phase);
        if (all != null) {
            all.take(site);
        }
    }
}
