package example.hometturi.itctrace;

import example.hometturi.itctrace.Place.Mark;
import java.util.concurrent.ArrayBlockingQueue;
import java.util.concurrent.Phaser;
import java.util.concurrent.atomic.AtomicInteger;

/**
 * What queues, exchangers, barriers and phasers of the JDK call by the agent: who hands something over, and who gets
 * it.
 */
public final class Handovers {
    /** Of each node of a queue where its element was put. */
    private static final Keyed<Mark> NODES = new Keyed<>();

    /** So many elements of queues have an order of their own. Those behind them have one in common, and are named. */
    private static final int MOST = 10_000;

    private static final AtomicInteger COUNT = new AtomicInteger();
    private static final Object LATER = new Object();

    private static final Keyed<Elements> ELEMENTS = new Keyed<>();
    private static final Keyed<Phases> PHASES = new Keyed<>();

    private Handovers() {}

    // Queues that have a node for each element

    public static void putsNode(Object node, Object item) {
        if (hasOwnOrder(item)) {
            NODES.put(node, Traced.mark(Elements.ITEM, Traced.site()));
        }
    }

    /** Whether an element that is about to be put gets an order of its own. A job that an executor got has one. */
    private static boolean hasOwnOrder(Object item) {
        if (item == null || !Traced.isOn() || item instanceof Runnable job && Watched.isSubmitted(job)) {
            return false;
        }
        int number = COUNT.get() > MOST ? MOST + 2 : COUNT.incrementAndGet();
        if (number > MOST) {
            Traced.before(LATER);
        }
        if (number == MOST + 1) {
            Traced.tracer().passOver("which element of a queue was put where, behind the first " + MOST, Traced.site());
        }
        return number <= MOST;
    }

    public static Object seesItem(Object node, Object item) {
        Mark mark = item == null || !Traced.isOn() ? null : NODES.known(node);
        if (mark != null && mark.place.task != Traced.current()) {
            Traced.take(mark, Traced.site());
        } else if (mark == null && item != null && COUNT.get() > MOST) {
            Traced.after(LATER);
        }
        return item;
    }

    /** The element of the node has left. The queue is locked. */
    public static void losesItem(Object node) {
        if (Traced.isOn()) {
            Mark.endIfAny(NODES.remove(node));
        }
    }

    /** The same of a queue that others may look into meanwhile. They may still find where the element was put. */
    public static void leavesIf(boolean hasLeft, Object node) {
        if (hasLeft && Traced.isOn()) {
            Mark.endShared(NODES.known(node));
        }
    }

    // Nodes at which two threads meet

    public static void meets(Object node) {
        Traced.before(node);
    }

    public static void met(Object node) {
        Traced.after(node);
    }

    /** Whether this thread has met the one that waits there. */
    public static void metIf(boolean isMet, Object node) {
        if (isMet) {
            Traced.after(node);
        }
    }

    /** What stands in the node if it is not what this thread brings. */
    public static Object meetsItem(Object node, Object item, Object own) {
        if (item != own) {
            Traced.after(node);
        }
        return item;
    }

    public static Object seesOffer(Object node, Object item) {
        if (item != null) {
            Traced.after(node);
        }
        return item;
    }

    /** The node that this one was matched with. One that matches itself was cancelled. */
    public static Object meetsNode(Object node, Object match) {
        if (match != null && match != node) {
            Traced.after(match);
        }
        return match;
    }

    // Queues without nodes

    private static Elements of(Object queue) {
        return ELEMENTS.of(queue, () -> new Elements(queue instanceof ArrayBlockingQueue));
    }

    public static void puts(Object queue, Object element) {
        if (hasOwnOrder(element)) {
            of(queue).put(element, Traced.site());
        }
    }

    /** The same of a queue that compares its elements. What it looks into has an order of its own. */
    public static void putsCompared(Object queue, Object element) {
        puts(queue, element);
        if (element != null && Traced.isOn() && Elements.mayBeLookedInto(element)) {
            Traced.before(of(queue));
        }
    }

    /** The queue is about to compare some of its elements. */
    public static void compares(Object queue) {
        if (Traced.isOn()) {
            Traced.after(of(queue));
        }
    }

    public static void took(Object element, Object queue) {
        takes(element, queue, true);
    }

    public static void saw(Object element, Object queue) {
        takes(element, queue, false);
    }

    private static void takes(Object element, Object queue, boolean isGone) {
        if (element != null && Traced.isOn()) {
            of(queue).take(element, isGone, Traced.site());
            takesLater();
        }
    }

    private static void takesLater() {
        if (COUNT.get() > MOST) {
            Traced.after(LATER);
        }
    }

    public static void sawAll(Object queue) {
        if (Traced.isOn()) {
            of(queue).takeAll(Traced.site());
            takesLater();
        }
    }

    public static void muddles(Object queue) {
        if (Traced.isOn()) {
            sawAll(queue);
            of(queue).muddle();
        }
    }

    public static void clears(Object queue) {
        if (Traced.isOn()) {
            of(queue).clear();
        }
    }

    // Room in a queue, which is locked

    public static void makesRoom(Object queue) {
        Rooms rooms = Traced.isOn() ? Rooms.of(queue) : null;
        if (rooms != null) {
            rooms.make(Traced.site());
        }
    }

    public static void usesRoom(Object queue) {
        Rooms rooms = Traced.isOn() ? Rooms.of(queue) : null;
        if (rooms != null) {
            rooms.use(Traced.site());
        }
    }

    public static void usesRoomIf(boolean isPut, Object queue) {
        if (isPut) {
            usesRoom(queue);
        }
    }

    /** An array has so many elements from now on. */
    public static void keeps(Object queue, int count) {
        for (int more = Rooms.countOf(queue) - count; more > 0; more--) {
            makesRoom(queue);
        }
    }

    // Phasers

    private static Phases of(Phaser phaser) {
        return PHASES.of(phaser.getRoot(), Phases::new);
    }

    /** A party cannot miss the phase that it is about to arrive in. */
    public static void arrives(Phaser phaser) {
        if (Traced.isOn() && phaser.getPhase() >= 0) {
            of(phaser).arrive(phaser.getPhase(), Traced.site());
        }
    }

    public static void advances(Phaser phaser) {
        if (Traced.isOn()) {
            of(phaser).advance(phaser.getPhase(), Traced.site());
        }
    }

    public static void sawPhase(int phase, Phaser phaser) {
        if (Traced.isOn()) {
            of(phaser).see(phase, Traced.site());
        }
    }

    public static void sawEnd(boolean isTerminated, Phaser phaser) {
        if (isTerminated) {
            sawPhase(-1, phaser);
        }
    }
}
