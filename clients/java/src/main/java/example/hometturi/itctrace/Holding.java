package example.hometturi.itctrace;

import example.hometturi.itctrace.Task.Held;
import example.hometturi.itctrace.Task.HeldLock;
import java.util.ArrayList;
import java.util.List;

/** The locks that a thread holds, the last one first, and where it has acquired each. */
final class Holding {
    private final LockName name;
    private final HeldLock lock;
    private final Holding others;
    /** The locks that the thread has acquired before the last one, and released since. */
    private final List<String> outlived;
    /** The locks alone, once a touch needs them. */
    private Held locks;

    Holding(LockName name, HeldLock lock, Holding others) {
        this(name, lock, others, List.of());
    }

    private Holding(LockName name, HeldLock lock, Holding others, List<String> outlived) {
        this.name = name;
        this.lock = lock;
        this.others = others;
        this.outlived = outlived;
    }

    Holding others() {
        return others;
    }

    boolean isOf(String other) {
        return lock.lock().equals(other);
    }

    /** Whether the last one was acquired there, and so. */
    boolean isAt(Row.Site site, boolean isShared) {
        return lock.isShared() == isShared && lock.site().equals(site);
    }

    /** From now on it is looked where each of the outer ones is acquired. */
    void tellNested() {
        for (Holding one = others; one != null; one = one.others) {
            one.name.becomeNested();
        }
    }

    /**
     * The last one, which the thread has waited for, behind those that it held meanwhile. Two locks may be a lock of readers: one of them
     * has the other acquired, is released, and is acquired once more to release that. Readers do not wait for each other by that.
     */
    List<HeldLock> awaited() {
        List<HeldLock> held = new ArrayList<>();
        for (Holding one = this; one != null; one = one.others) {
            if (!one.outlived.contains(lock.lock())) {
                held.add(0, one.lock);
            }
        }
        return held;
    }

    /** The same locks, without where they were acquired. Null if there is none. */
    static Held locks(Holding holding) {
        if (holding != null && holding.locks == null) {
            holding.locks = new Held(holding.lock.lock(), holding.lock.isShared(), locks(holding.others));
        }
        return holding == null ? null : holding.locks;
    }

    static boolean isIn(Holding holding, String lock) {
        return holding != null && (holding.isOf(lock) || isIn(holding.others, lock));
    }

    /** The same without this lock. If it is lent for the time of a wait, no later one outlives it. */
    static Holding without(Holding holding, String lock, boolean isLent) {
        if (holding == null || holding.isOf(lock)) {
            return holding == null ? null : holding.others;
        }
        Holding others = without(holding.others, lock, isLent);
        return others == holding.others ? holding : holding.above(others, isLent ? List.of() : List.of(lock));
    }

    private Holding above(Holding others, List<String> released) {
        List<String> all = new ArrayList<>(outlived);
        all.addAll(released);
        return new Holding(name, lock, others, all);
    }
}
