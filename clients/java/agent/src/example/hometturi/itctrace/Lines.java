package example.hometturi.itctrace;

import example.hometturi.itctrace.Row.Site;
import java.util.Arrays;

/** The lines that have touched what one owner has. All of it counts as one thing. */
final class Lines {
    /** Those behind them are not counted. */
    private static final int MOST = 64;

    private static final Site[] NONE = {};

    /** The only task that has touched it. Null if there are several, or none. */
    private volatile Task only;

    private volatile Site[] sites = NONE;

    /** The run touches it. */
    void touch(Run run) {
        Site[] known = sites;
        boolean isKnownTask = only == run.task || only == null && known != NONE;
        if (!isKnownTask || !has(known, run.place.site())) {
            add(run.task, run.place.site());
        }
    }

    private static boolean has(Site[] known, Site site) {
        for (Site one : known) {
            if (one == site || one.isLineOf(site)) {
                return true;
            }
        }
        return known.length == MOST;
    }

    private synchronized void add(Task task, Site site) {
        boolean wasShared = only == null && sites != NONE;
        boolean isNew = !has(sites, site);
        if (sites == NONE) {
            only = task;
        }
        if (isNew) {
            sites = Arrays.copyOf(sites, sites.length + 1);
            sites[sites.length - 1] = site;
        }
        if (!wasShared && only != task) {
            only = null;
            Counted.addThing(sites.length);
        } else if (wasShared && isNew) {
            Counted.addLine();
        }
    }
}
