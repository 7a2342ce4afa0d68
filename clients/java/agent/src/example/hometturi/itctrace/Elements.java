package example.hometturi.itctrace;

import example.hometturi.itctrace.Place.Gives;
import example.hometturi.itctrace.Place.Mark;
import example.hometturi.itctrace.Row.Site;
import java.util.ArrayDeque;
import java.util.Deque;

/**
 * What is in a queue that has no nodes: where each element was put. An element is told by what it is, and may be there
 * several times.
 */
final class Elements {
    static final Gives ITEM = Gives.order("item", "put item", "take item");

    /** Whether the one that was put first leaves first. */
    private final boolean isInOrder;
    private final Keyed<Deque<Mark>> marks = new Keyed<>();
    /** Whether some have left of which nobody knows which they were. */
    private boolean isMuddled;

    Elements(boolean isInOrder) {
        this.isInOrder = isInOrder;
    }

    /** Whether what compares the element may look into what others have changed. */
    static boolean mayBeLookedInto(Object element) {
        Class<?> type = element.getClass();
        return type.isArray() || !Kinds.isOfJdk(type) || Kinds.of(element).isLookedAt();
    }

    synchronized void put(Object element, Site site) {
        Mark mark = Traced.mark(ITEM, site);
        if (mark != null) {
            marks.of(element, ArrayDeque::new).add(mark);
        }
    }

    /** This thread sees an element that stays, or takes it. */
    synchronized void take(Object element, boolean isGone, Site site) {
        Deque<Mark> all = marks.known(element);
        if (all == null) {
            return;
        }
        if (isInOrder && isGone && !isMuddled) {
            Traced.take(all.peek(), site);
        } else {
            all.forEach(mark -> Traced.take(mark, site));
        }
        if (isGone && !isMuddled) {
            Mark.endIfAny(all.poll());
            if (all.isEmpty()) {
                marks.remove(element);
            }
        }
    }

    synchronized void takeAll(Site site) {
        marks.all().forEach(of -> of.forEach(mark -> Traced.take(mark, site)));
    }

    synchronized void muddle() {
        isMuddled = true;
    }

    synchronized void clear() {
        marks.all().forEach(of -> of.forEach(Mark::end));
        marks.all().clear();
    }
}
