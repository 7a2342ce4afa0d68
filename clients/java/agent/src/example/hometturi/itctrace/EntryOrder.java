package example.hometturi.itctrace;

import example.hometturi.itctrace.Place.Gives;
import example.hometturi.itctrace.Place.Mark;
import example.hometturi.itctrace.Row.Site;
import java.util.ArrayList;
import java.util.List;

/**
 * The order of one entry of a map: who sees what it has comes after those who have changed it, and each change comes
 * after the one before. A change is known before it is made, so that nobody sees it earlier.
 */
final class EntryOrder {
    private static final Gives ENTRY = Gives.order("entry", "put entry", "see entry");

    /** A change that a thread is about to make, or has made. */
    static final class Change {
        private final Mark mark;
        private boolean isDone;

        Change(Mark mark) {
            this.mark = mark;
        }
    }

    private final List<Change> changes = new ArrayList<>();

    /** This thread is about to change it, or to find that it may not. */
    synchronized Change begin(Site site) {
        Change change = new Change(Traced.mark(ENTRY, site));
        changes.add(change);
        return change;
    }

    /** This thread has changed it. Its place stands for all before. */
    synchronized void end(Change own, Site site) {
        drop(own);
        takeAll(true, site);
        changes.removeIf(
                change -> {
                    if (change.isDone) {
                        Mark.endIfAny(change.mark);
                    }
                    return change.isDone;
                });
        Change last = begin(site);
        last.isDone = true;
    }

    /** It was not changed. */
    synchronized void drop(Change own) {
        if (own != null && changes.remove(own)) {
            Mark.endIfAny(own.mark);
        }
    }

    /** This thread sees what it has. If that is nothing, no change that is about to be made is seen. */
    synchronized void see(boolean isThere, Site site) {
        takeAll(isThere, site);
    }

    private void takeAll(boolean alsoBegun, Site site) {
        for (Change change : changes) {
            if (change.isDone || alsoBegun) {
                Traced.take(change.mark, site);
            }
        }
    }
}
