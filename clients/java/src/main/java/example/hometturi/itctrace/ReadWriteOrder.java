package example.hometturi.itctrace;

import example.hometturi.itctrace.Place.Gives;
import example.hometturi.itctrace.Place.Mark;
import example.hometturi.itctrace.Place.Noted;
import java.util.HashMap;
import java.util.List;
import java.util.Map;

/** The order of a lock that several threads may read under at once. They come after the last one that wrote, and before the next one. */
final class ReadWriteOrder {
    private final LockName name = new LockName();
    /** It stays as it is while somebody reads. */
    private volatile Mark byWriter;
    /** Of each task where it was done reading last. What the last one did is at hand, as it may be the only one. */
    private final Map<Integer, Mark> byReaders = new HashMap<>();

    private volatile Mark byLastReader;
    /** Whether the line of an earlier release stands for the next ones. */
    private volatile boolean isSettled;

    private volatile boolean isNamed;
    private int swept;
    /** A task that comes after readers that have ended, so that one mark stands for all of them. */
    private Task keeper;

    private Noted lastOfReader;
    private Noted lastOfWriter;
    /** How often the lock was acquired in a row after nobody else. */
    private int turns;

    /** This thread holds it from now on. */
    void acquired(boolean isWriter, boolean hasWaited) {
        if (!Traced.isOn()) {
            return;
        }
        if (!isNamed) {
            nameIt();
        }
        if (isWriter) {
            takeAll();
        } else {
            read(Traced.own());
        }
        Traced.Own own = Traced.own();
        name.hold(own, name.acquiredAt(own, turns), !isWriter, hasWaited);
    }

    private synchronized void nameIt() {
        name.prepare();
        isNamed = true;
    }

    private synchronized void takeAll() {
        turns++;
        take(byWriter);
        take(byLastReader);
        byReaders.values().forEach(this::take);
        byReaders.values().forEach(Mark::end);
        byReaders.clear();
        Mark.endIfAny(byLastReader);
        Mark.endIfAny(byWriter);
        byLastReader = null;
        byWriter = null;
    }

    /** What this thread gave when it was done reading before stays up to its next release. */
    private void read(Traced.Own own) {
        Mark writer = byWriter;
        if (writer != null && writer.place.task != own.task() && !own.hasTaken(writer)) {
            synchronized (this) {
                take(writer);
            }
            own.tookLast(writer);
        }
    }

    private void addReader(Mark mark) {
        Mark before = byLastReader;
        byLastReader = mark;
        if (before != null && before.place.task == mark.place.task) {
            before.end();
        } else if (before != null) {
            Mark.endIfAny(byReaders.put(before.place.task.number, before));
            Mark.endIfAny(byReaders.remove(mark.place.task.number));
            if (byReaders.size() > 2 * swept + Givers.MANY) {
                sweep(mark.noted.gives());
            }
        }
    }

    private void sweep(Gives gives) {
        List<Mark> ended = byReaders.values().stream().filter(mark -> mark.place.task.isEnded).toList();
        if (!ended.isEmpty()) {
            Mark kept = Traced.keep(keeper, ended, gives);
            keeper = kept.place.task;
            ended.forEach(mark -> byReaders.remove(mark.place.task.number).end());
            Mark.endIfAny(byReaders.put(keeper.number, kept));
        }
        swept = byReaders.size();
    }

    private void take(Mark mark) {
        if (mark != null && mark.place.task != Traced.current()) {
            turns = 0;
            isSettled = false;
            Traced.take(mark, Traced.site());
        }
    }

    /** This thread has read without holding it, and nobody has written meanwhile. */
    synchronized void seen() {
        if (Traced.isOn()) {
            take(byWriter);
        }
    }

    /** This thread has read without holding it. Whoever writes next comes after that. */
    void trusted() {
        if (Traced.isOn()) {
            if (!isNamed) {
                nameIt();
            }
            release(Traced.own().task().here, false);
        }
    }

    /** Does this as if this thread held it for reading. */
    void held(Runnable body) {
        if (!isNamed) {
            nameIt();
        }
        Traced.Own own = Traced.own();
        name.hold(own, Traced.site(), true, false);
        body.run();
        name.letGo(own, false);
    }

    boolean isHeld() {
        return Traced.isOn() && name.isHeldBy(Traced.own());
    }

    /** This thread is about to release it, or to lend it for the time of a wait. */
    void releasing(boolean isWriter, boolean isLent) {
        if (!Traced.isOn()) {
            return;
        }
        if (!isNamed) {
            nameIt(); // It may have been acquired before there was a trace.
        }
        Traced.Own own = Traced.own();
        name.letGo(own, isLent);
        Mark last = byLastReader;
        boolean isThere = !isWriter && isSettled && last != null && last.place == own.task().here && name.gives(last.noted);
        if (!isThere) {
            release(own.task().here, isWriter);
        }
    }

    private synchronized void release(Place here, boolean isWriter) {
        turns++;
        Noted noted = name.release(here, isWriter ? lastOfWriter : lastOfReader, turns);
        isSettled = turns >= LockName.FEW_TURNS;
        if (isWriter) {
            lastOfWriter = noted;
            Mark.endIfAny(byWriter);
            byWriter = new Mark(here, noted);
        } else {
            lastOfReader = noted;
            addReader(new Mark(here, noted));
        }
    }

    void becomeGuard() {
        name.becomeGuard();
    }
}
