package example.hometturi.itctrace;

import example.hometturi.itctrace.Place.Gives;
import example.hometturi.itctrace.Row.Site;
import java.util.concurrent.locks.ReentrantLock;

/**
 * The order of one variable that is volatile. An access and its report are one, so that nobody comes after a value that it has not read:
 * whoever begins an access ends it.
 */
final class VolatileCell {
    private final ReentrantLock lock = new ReentrantLock();
    private final Givers givers = new Givers();

    void begin() {
        lock.lock();
    }

    void beginWrite(Gives gives, Site site) {
        lock.lock();
        if (Traced.isOn()) {
            givers.give(gives, site);
        }
    }

    void end() {
        lock.unlock();
    }

    void endWrite(Gives gives, Site site) {
        try {
            if (Traced.isOn()) {
                givers.give(gives, site);
            }
        } finally {
            lock.unlock();
        }
    }

    void endRead(Site site) {
        try {
            if (Traced.isOn()) {
                givers.take(site);
            }
        } finally {
            lock.unlock();
        }
    }

    /** The access has read what was there, and goes on. */
    void take(Site site) {
        if (Traced.isOn()) {
            givers.take(site);
        }
    }

    /** The access has written, or is about to, and goes on. If it has come after all before, this place stands for them. */
    void give(Gives gives, Site site, boolean isBehindAll) {
        if (Traced.isOn() && isBehindAll) {
            givers.replace(gives, site);
        } else if (Traced.isOn()) {
            givers.give(gives, site);
        }
    }

    /** The access has read what was there, and has written. This place stands for all before. */
    void endChange(Gives gives, Site site) {
        try {
            if (Traced.isOn()) {
                givers.take(site);
                givers.replace(gives, site);
            }
        } finally {
            lock.unlock();
        }
    }
}
