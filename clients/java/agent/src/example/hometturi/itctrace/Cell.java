package example.hometturi.itctrace;

import example.hometturi.itctrace.Row.Called;
import example.hometturi.itctrace.Row.Site;
import example.hometturi.itctrace.Tracer.Watching;
import java.util.concurrent.atomic.AtomicLong;
import java.util.concurrent.atomic.AtomicReferenceFieldUpdater;
import jdk.internal.vm.annotation.DontInline;

/** What is known of one variable. It has rows for touches that may race. */
final class Cell implements Touched {
    private static final AtomicLong NUMBERS = new AtomicLong();
    private static final AtomicReferenceFieldUpdater<Cell, History> HISTORY = AtomicReferenceFieldUpdater.newUpdater(Cell.class, History.class, "history");

    private final Called called;
    private final boolean isOnly;
    private String thing;
    private volatile History history = History.empty();

    /**
     * A line of the program that reads or writes a field, or an object that is watched as a whole. Then there is no field. It is inner
     * if nobody knows which part of the object it is of, or what is done with it. It is atomic if it is done by a handle in such a mode.
     */
    record Place(Field field, boolean writes, boolean isInner, boolean isAtomic, Site site, Place inner) {
        /** One of a field. */
        Place(Field field, boolean writes, Site site) {
            this(field, writes, false, false, site, null);
        }

        /** One of an object of the JDK, or of an element. It knows what it is if nobody knows which part it is of. */
        Place(boolean writes, Site site) {
            this(null, writes, false, false, site, new Place(null, writes, true, false, site, null));
        }

        /** One that does not race with another one of this kind. */
        static Place atomic(boolean writes, Site site) {
            return new Place(null, writes, false, true, site, new Place(null, writes, true, false, site, null));
        }

        String kind() {
            return (isInner ? "inner " : isAtomic ? "atomic " : "") + (writes ? "write" : "read");
        }
    }

    /** One field of one object, or a static one, of which there is only one. */
    Cell(Field field) {
        this(field.called, field.isStatic());
    }

    /** An object that is watched as a whole. */
    Cell(Called called) {
        this(called, false);
    }

    private Cell(Called called, boolean isOnly) {
        this.called = called;
        this.isOnly = isOnly;
    }

    /** This thread touches the variable. */
    void touch(Place place) {
        if (!history.hasNow(place) && Traced.isOn()) {
            touchFirst(place);
        }
    }

    /** It does so for the first time in its stretch. */
    @DontInline
    private void touchFirst(Place place) {
        Run run = Run.of(place);
        if (run != null && !Trusting.keeps(run, this, 0, () -> add(run.underLocksOfNow()).count(run))) {
            add(run).count(run);
        }
    }

    /** It was touched so. Gives who has touched it before. */
    History add(Run run) {
        History before = history;
        while (!HISTORY.compareAndSet(this, before, before.with(run, this, 0))) {
            before = history;
        }
        return before;
    }

    @Override
    public void meet(Run before, Run after, int index) {
        before.tell(this, index);
        after.tell(this, index);
    }

    @Override
    public void forget(Run run, int index) {
        run.tell(this, index);
    }

    @Override
    public void meetForgotten(Run run, int index, boolean isWritten) {
        run.tell(this, index);
    }

    @Override
    public History known(History fresh) {
        return fresh;
    }

    /** What tells a thing from others of its name. */
    static long nextNumber() {
        return NUMBERS.incrementAndGet();
    }

    @Override
    public synchronized Watching watching(int index, Place place) {
        if (thing == null) {
            thing = called.name() + (isOnly ? "" : " " + nextNumber());
        }
        return new Watching(thing, called, place.kind());
    }
}
