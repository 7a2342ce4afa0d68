package example.hometturi.itctrace;

import example.hometturi.itctrace.Row.Handed;
import example.hometturi.itctrace.Row.Site;
import example.hometturi.itctrace.Task.Ages;
import java.util.List;
import java.util.concurrent.atomic.AtomicIntegerFieldUpdater;

/** A place in a task, behind all that it did until then. Somebody may come after it as long as it has marks. */
final class Place {
    /** Whether an order is meant, or a lock's that others wait for, too, or a lock's that only luck hands over. */
    enum Kind {
        MEANT,
        GUARD,
        LUCK
    }

    /** What an order is called: its message, its giving and its taking. A lock is named. */
    record Gives(String hint, String giving, String taking, String lock, Kind kind) {
        static Gives order(String hint, String giving, String taking) {
            return new Gives(hint, giving, taking, null, Kind.MEANT);
        }

        /** What a row names of it. */
        Handed handed() {
            return lock == null ? null : new Handed(lock, kind == Kind.LUCK);
        }
    }

    /** What has marked a place last, and where and when. The time is 0 if nobody has asked for it. */
    record Noted(Gives gives, Site site, long time) {}

    /** One of the messages that a place may be sent as: of each kind one, so that the order without locks is told in full. */
    static final class Slot {
        volatile Noted noted;
        /** Once it is sent. */
        volatile String message;
        /** By which it is told that nobody can receive the message any more. Null if nobody wants to know. */
        Gone.Watched watched;

        /** What has marked the place, if that is not sent yet. */
        Noted unsent() {
            return message == null ? noted : null;
        }
    }

    private static final AtomicIntegerFieldUpdater<Place> MARKS = AtomicIntegerFieldUpdater.newUpdater(Place.class, "marks");

    final Task task;
    final Slot luck = new Slot();
    final Slot guard = new Slot();
    final Slot meant = new Slot();
    private volatile int marks;
    /** Whether it is looked at, as it was sent and has lost its last mark. */
    private volatile boolean isUnmarked;
    /** How many places of the task were sent up to this one. It is 0 as long as it is not sent. */
    volatile long position;

    /** What whoever comes after it comes after. It is null if nobody can, and if that is luck alone, of which nobody asks. */
    private volatile Ages ages;

    Place(Task task) {
        this.task = task;
    }

    /** Somebody may come after it by more than luck, or is asked for what luck orders. */
    void keepAges() {
        ages = task.growOlder();
    }

    Ages ages() {
        return ages;
    }

    Slot slot(Kind kind) {
        return kind == Kind.LUCK ? luck : kind == Kind.GUARD ? guard : meant;
    }

    boolean hasMark() {
        return marks > 0;
    }

    void addMark() {
        MARKS.getAndIncrement(this);
    }

    /** Who had the mark does not come after the place any more, and nobody else does so by that mark. */
    void removeMark() {
        if (MARKS.decrementAndGet(this) == 0 && position > 0 && !isUnmarked) {
            isUnmarked = true;
            Traced.unmark(this);
        }
    }

    /** Looks whether it has a mark again. If it has, it is looked at once more when that is removed. */
    boolean isMarkedAgain() {
        isUnmarked = false;
        boolean isMarked = hasMark();
        isUnmarked = !isMarked;
        return isMarked;
    }

    List<Slot> slots() {
        return List.of(luck, guard, meant);
    }

    boolean hasUnsent() {
        return luck.unsent() != null || guard.unsent() != null || meant.unsent() != null;
    }

    /** A place that somebody may come after, and what has marked it. It counts up to its end. */
    static final class Mark {
        final Place place;
        final Noted noted;
        private boolean isOver;

        Mark(Place place, Noted noted) {
            this.place = place;
            this.noted = noted;
            place.addMark();
            if (noted.gives().kind() != Kind.LUCK || Task.keepsLuck()) {
                place.keepAges();
            }
        }

        /** Nobody comes after it any more. */
        synchronized void end() {
            if (!isOver) {
                isOver = true;
                place.removeMark();
            }
        }

        static void endIfAny(Mark mark) {
            if (mark != null) {
                mark.end();
            }
        }

        /** The same where another thread may be about to come after it. If the place was sent, its message stays as long as the place. */
        static void endShared(Mark mark) {
            if (mark != null && mark.place.position == 0) {
                mark.end();
            }
        }
    }
}
