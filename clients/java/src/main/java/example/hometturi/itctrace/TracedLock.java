package example.hometturi.itctrace;

import example.hometturi.itctrace.Place.Noted;
import example.hometturi.itctrace.Row.Site;
import java.lang.ref.Cleaner;
import java.util.concurrent.locks.Lock;
import java.util.concurrent.locks.ReentrantReadWriteLock;
import java.util.concurrent.locks.StampedLock;

/** A lock whose releases come before the next time that it is acquired. All that it knows is read and written with the lock held. */
final class TracedLock extends ReportingLock {
    private static final Class<?> READ_VIEW = new StampedLock().asReadLock().getClass();

    private static final Cleaner CLEANER = Cleaner.create();

    private final LockName name = new LockName();
    private final Released last = new Released();
    private boolean isWatched;
    private Noted release;
    /** How often one task alone has acquired it in a row. */
    private int turns;

    private int depth;
    private Thread owner;
    /** What the owner knows of itself. */
    private Traced.Own own;

    /** Where a lock was released last, if it is not held. Nobody comes after that once the lock is no more. */
    private static final class Released implements Runnable {
        private Place place;

        @Override
        public void run() {
            if (place != null) {
                place.removeMark();
            }
        }
    }

    TracedLock(Lock lock) {
        super(lock);
        if (lock instanceof ReentrantReadWriteLock.ReadLock || READ_VIEW.isInstance(lock)) {
            throw new IllegalArgumentException("several threads may hold the lock at once: wrap the lock that it is of");
        }
    }

    @Override
    void acquired(boolean hasWaited) {
        owner = Thread.currentThread();
        if (depth++ == 0 && Traced.isOn()) {
            own = Traced.own();
            Place place = last.place;
            boolean isHandedOver = place != null && place.task != own.task();
            turns = isHandedOver ? 0 : turns + 1;
            Site at = name.acquiredAt(own, turns);
            last.place = null;
            if (isHandedOver) {
                Traced.take(place, release, at);
                place.removeMark();
            } else if (place != null) {
                own.keep(place);
            }
            name.hold(own, at, false, hasWaited);
        }
    }

    @Override
    void releasing(boolean isLent) {
        if (!isOwner() || --depth > 0) {
            return;
        }
        owner = null; // Else this thread could take itself for the owner while another one is.
        if (Traced.isOn()) {
            own = own == null ? Traced.own() : own; // It may have been acquired before there was a trace.
            name.letGo(own, isLent);
            Place here = own.task().here;
            release = name.release(here, release, turns);
            if (!own.takesKept(here)) {
                here.addMark();
            }
            last.place = here;
            if (!isWatched) {
                isWatched = true;
                CLEANER.register(this, last);
            }
        }
    }

    private boolean isOwner() {
        return depth > 0 && owner == Thread.currentThread();
    }

    @Override
    void becomeGuard() {
        name.becomeGuard();
    }

    @Override
    Runnable lend() {
        if (!isOwner()) {
            return () -> {}; // The condition itself says what is wrong.
        }
        int before = depth;
        depth = 1;
        releasing(true);
        return () -> {
            acquired(true);
            depth = before;
        };
    }
}
