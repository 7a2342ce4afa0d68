package example.hometturi.itctrace;

import java.lang.ref.PhantomReference;
import java.lang.ref.ReferenceQueue;
import java.util.ArrayList;
import java.util.HashSet;
import java.util.List;
import java.util.Set;
import java.util.concurrent.atomic.AtomicReference;

/**
 * What gives no order any more, which the relay of a trace in parts is told: messages that nobody can receive, and tasks that nobody can
 * wait for. Most are known to be so by the last mark of a place, or by the end of a task. A collection of garbage finds the others. All
 * but {@code unmarked} is looked at with the tracer's lock held.
 */
final class Gone {
    /**
     * After so many more it is looked which of those that are kept are gone. A part of a trace has room for 2048 tasks, and each message
     * that goes on from part to part takes its task along.
     */
    private static final int MANY = 1_000;

    private final ReferenceQueue<Object> queue = new ReferenceQueue<>();
    private final Set<Watched> kept = new HashSet<>();
    /** Places that were sent and have lost their last mark. No queue of the JDK is used, as the agent follows those. */
    private final AtomicReference<Unmarked> unmarked = new AtomicReference<>();
    /** The same, where it is not told yet that nobody can receive their messages: a task may mark its last place once more. */
    private final List<Place> idle = new ArrayList<>();
    /** What is told next. */
    private final StringBuilder lines = new StringBuilder();
    private int limit = MANY;

    /** A place, and those that were added before it. */
    private record Unmarked(Place place, Unmarked next) {}

    /** A message or a task that somebody may come after. */
    static final class Watched extends PhantomReference<Object> {
        private final String line;

        private Watched(Object of, ReferenceQueue<Object> queue, String line) {
            super(of, queue);
            this.line = line;
        }
    }

    /** Nobody can receive the message once its place is gone. */
    Watched watch(Place place, String message) {
        return watched(place, "forget " + message);
    }

    /** Nobody can wait for the task once it is gone. */
    Watched watch(Task task) {
        return watched(task, "leave " + task.name);
    }

    /** Nobody can join this nursery once it is gone. */
    Watched watch(Nurseries.Offspring nursery, String task) {
        return watched(nursery, "leave " + task);
    }

    /** The message was for one task alone, which has received it. */
    void received(String message) {
        lines.append("forget ").append(message).append('\n');
    }

    private Watched watched(Object of, String line) {
        Watched made = new Watched(of, queue, line);
        kept.add(made);
        return made;
    }

    /** The place was sent, and has no mark any more. */
    void unmark(Place place) {
        unmarked.updateAndGet(next -> new Unmarked(place, next));
    }

    /** Nobody can come after it any more, and the relay knows that. */
    boolean forget(Watched watched) {
        if (watched == null) {
            return false;
        }
        watched.clear();
        return kept.remove(watched);
    }

    /** Nobody can come after it any more, and the relay is to be told. */
    void leave(Watched watched) {
        if (forget(watched)) {
            lines.append(watched.line).append('\n');
        }
    }

    /** Adds a line for each that is gone since the last time. */
    void tell(StringBuilder unsent) {
        for (Unmarked one = unmarked.getAndSet(null); one != null; one = one.next) {
            idle.add(one.place);
        }
        idle.removeIf(place -> place.isMarkedAgain() || leaves(place));
        for (Object gone = queue.poll(); gone != null; gone = queue.poll()) {
            leave((Watched) gone);
        }
        limit = Math.min(limit, kept.size() + MANY);
        unsent.append(lines);
        lines.setLength(0);
    }

    private boolean leaves(Place place) {
        if (place.task.here == place && !place.task.isEnded) {
            return false;
        }
        place.slots().forEach(slot -> leave(slot.watched));
        return true;
    }

    /** Whether so many are kept that a collection of garbage has to look which of them are gone. */
    boolean areMany() {
        if (kept.size() <= limit) {
            return false;
        }
        limit = kept.size() + MANY;
        return true;
    }
}
