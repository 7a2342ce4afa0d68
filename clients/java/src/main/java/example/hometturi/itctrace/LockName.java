package example.hometturi.itctrace;

import example.hometturi.itctrace.Place.Gives;
import example.hometturi.itctrace.Place.Kind;
import example.hometturi.itctrace.Place.Noted;
import example.hometturi.itctrace.Row.Site;
import example.hometturi.itctrace.Task.HeldLock;

/** What a lock is called, in labels and as one of those that a task holds. It is looked at with the lock held. */
final class LockName {
    /** After so many turns of one task alone, nobody looks for the line that releases the lock any more. */
    static final int FEW_TURNS = 16;

    private final Site made = Traced.site();
    private String name;
    private Gives luck;
    private Gives guard;
    /** Whether others wait for more than the lock: for a condition, or for one that was acquired later and was held at its release. */
    private volatile boolean isGuard;
    /** Whether another one was acquired while it was held. Then it is looked where each task acquires it. */
    private volatile boolean isNested;
    /** What a thread held that had acquired it alone, to be held again. */
    private Holding alone;

    private String name() {
        if (name == null) {
            name = Traced.lockName(made);
            String told = "lock (" + made + ")";
            String hint = "lock" + Math.max(0, made.line()); // A class may have no lines.
            luck = new Gives(hint, "release " + told, "acquire " + told, name, Kind.LUCK);
            guard = new Gives(hint, "release " + told, "acquire " + told, name, Kind.GUARD);
        }
        return name;
    }

    /** Whether this thread holds it. */
    boolean isHeldBy(Traced.Own own) {
        return name != null && own.holds(name);
    }

    /** Has its name be known. */
    void prepare() {
        name();
    }

    /** Whether a release would give this now. */
    boolean gives(Noted noted) {
        return noted.gives() == gives();
    }

    private Gives gives() {
        return isGuard ? guard : luck;
    }

    /** Others wait for more than the lock, as for a condition. Then its hand-over is meant, and no luck. */
    void becomeGuard() {
        isGuard = true;
    }

    /** Where this thread acquires it. Nobody looks if its task alone acquires it again and again, and no other one with it. */
    Site acquiredAt(Traced.Own own, int turns) {
        return turns < FEW_TURNS || isNested || own.holdsAny() ? Traced.site() : Site.NONE;
    }

    /** This thread's task holds it from now on. It has waited for it, if it would have. */
    void hold(Traced.Own own, Site at, boolean isShared, boolean hasWaited) {
        Holding held = own.holdsAny() ? null : alone; // Else a lock would keep those that it was acquired within.
        if (held == null || !held.isAt(at, isShared)) {
            held = own.with(this, new HeldLock(name(), at, isShared));
            alone = own.holdsAny() ? alone : held;
        }
        own.hold(held, hasWaited);
    }

    /** Another one was acquired while it was held. */
    void becomeNested() {
        isNested = true;
    }

    /** This thread's task no longer holds it, or lends it for the time of a wait. */
    void letGo(Traced.Own own, boolean isLent) {
        if (own.letGo(name(), isLent)) {
            isGuard = true; // One that was acquired later stays, as in a lock made of two.
        }
    }

    /**
     * Notes that this thread releases the lock here. If its task alone has acquired the lock for many turns, the line of an earlier
     * release stands for this one.
     */
    Noted release(Place here, Noted last, int turns) {
        name();
        Gives gives = gives();
        if (isGuard || Task.keepsLuck()) {
            here.keepAges();
        }
        Place.Slot slot = here.slot(gives.kind());
        if (turns < FEW_TURNS || last == null) {
            slot.noted = new Noted(gives, Traced.site(), Row.now());
        } else if (slot.noted == null || slot.noted.gives() != gives) {
            slot.noted = new Noted(gives, last.site(), 0);
        }
        return slot.noted;
    }
}
