package example.hometturi.itctrace;

import example.hometturi.itctrace.Place.Gives;
import example.hometturi.itctrace.Place.Mark;
import example.hometturi.itctrace.Row.Site;
import java.util.ArrayDeque;
import java.util.Deque;
import java.util.concurrent.ArrayBlockingQueue;
import java.util.concurrent.LinkedBlockingDeque;
import java.util.concurrent.LinkedBlockingQueue;
import jdk.internal.misc.Unsafe;

/**
 * The room in a small queue. Whoever takes an element makes room, and comes before whoever puts one there. The room of the beginning is
 * used first, and then each one as it was made: so many have to be made before.
 */
final class Rooms {
    /** A queue that has room for more gives no such order. */
    private static final int MOST = 16;

    private static final Gives ROOM = Gives.order("room", "make room", "use room");
    private static final Unsafe UNSAFE = Unsafe.getUnsafe();
    private static final long ITEMS = UNSAFE.objectFieldOffset(ArrayBlockingQueue.class, "items");
    private static final long COUNT = UNSAFE.objectFieldOffset(ArrayBlockingQueue.class, "count");
    private static final long OF_NODES = UNSAFE.objectFieldOffset(LinkedBlockingQueue.class, "capacity");
    private static final long OF_DEQUE = UNSAFE.objectFieldOffset(LinkedBlockingDeque.class, "capacity");

    private static final Keyed<Rooms> ALL = new Keyed<>();

    private int fresh;
    private final Deque<Mark> made = new ArrayDeque<>();

    private Rooms(int fresh) {
        this.fresh = fresh;
    }

    /** That of a queue, before an element comes or goes. Null if the queue is large. */
    static Rooms of(Object queue) {
        int most = mostOf(queue);
        return most > MOST ? null : ALL.of(queue, () -> new Rooms(most - countOf(queue)));
    }

    private static int mostOf(Object queue) {
        if (queue instanceof ArrayBlockingQueue) {
            return ((Object[]) UNSAFE.getReference(queue, ITEMS)).length;
        }
        return UNSAFE.getInt(queue, queue instanceof LinkedBlockingQueue ? OF_NODES : OF_DEQUE);
    }

    /** How many elements a queue has that it was made with. One of nodes has room for any number then. */
    static int countOf(Object queue) {
        return queue instanceof ArrayBlockingQueue ? UNSAFE.getInt(queue, COUNT) : 0;
    }

    /** This thread takes an element. */
    synchronized void make(Site site) {
        Mark mark = Traced.mark(ROOM, site);
        if (mark != null) {
            made.add(mark);
        }
    }

    /** This thread puts an element. */
    synchronized void use(Site site) {
        if (fresh > 0) {
            fresh--;
        } else {
            Mark mark = made.poll();
            Traced.take(mark, site);
            Mark.endIfAny(mark);
        }
    }
}
