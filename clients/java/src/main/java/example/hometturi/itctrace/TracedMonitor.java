package example.hometturi.itctrace;

import example.hometturi.itctrace.Place.Noted;
import example.hometturi.itctrace.Row.Site;
import java.lang.ref.WeakReference;

/**
 * The monitor of an object, as long as this thread has it. Whoever enters comes after the last one that has left. It is looked at by
 * whoever has the monitor alone.
 */
public final class TracedMonitor implements AutoCloseable {
    private final LockName name = new LockName();
    private final WeakReference<Object> object;
    private Place released;
    private Noted release;
    private int turns;
    private int depth;

    TracedMonitor(Object object) {
        this.object = new WeakReference<>(object);
    }

    TracedMonitor enter() {
        if (depth++ == 0) {
            acquired();
        }
        return this;
    }

    private void acquired() {
        if (!Traced.isOn()) {
            return;
        }
        Place place = released;
        if (place != null) {
            turns = place.task == Traced.current() ? turns + 1 : 0;
        }
        Traced.Own own = Traced.own();
        Site at = name.acquiredAt(own, turns);
        if (place != null) {
            if (turns == 0) {
                Traced.take(place, release, at);
            }
            place.removeMark();
            released = null;
        }
        name.hold(own, at, false, true);
    }

    private void releasing(boolean isLent) {
        if (Traced.isOn()) {
            name.letGo(Traced.own(), isLent);
            released = Traced.here();
            release = name.release(released, release, turns);
            released.addMark();
        }
    }

    /** Waits until somebody notifies, as {@code Object.wait} does. The monitor is left meanwhile. */
    public void await() throws InterruptedException {
        await(0);
    }

    /** The same, for at most so many milliseconds. With 0 it waits for ever. */
    public void await(long milliseconds) throws InterruptedException {
        Object own = object.get();
        int before = depth;
        name.becomeGuard();
        releasing(true);
        depth = 0;
        try {
            own.wait(milliseconds);
        } finally {
            acquired();
            depth = before;
        }
    }

    /** Leaves the monitor. It stands in front of the end of {@code synchronized}. */
    @Override
    public void close() {
        if (depth > 0 && --depth == 0) { // It may have been entered before anybody asked for it.
            releasing(false);
        }
    }
}
