package example.hometturi.itctrace;

import example.hometturi.itctrace.Place.Gives;
import example.hometturi.itctrace.Place.Mark;
import java.util.AbstractQueue;
import java.util.ArrayList;
import java.util.Collection;
import java.util.Iterator;
import java.util.List;
import java.util.Objects;
import java.util.concurrent.BlockingQueue;
import java.util.concurrent.Delayed;
import java.util.concurrent.TimeUnit;

/** A blocking queue whose elements carry the place where they were put. Whoever takes one comes after that place. */
public final class TracedQueue<E> extends AbstractQueue<E> implements BlockingQueue<E> {
    private static final Gives ITEM = Gives.order("item", "put item", "take item");

    /** An element, and where it was put. It compares as the element does, and is due when the element is. */
    public static final class Carried<E> implements Delayed {
        private final E element;
        private final Mark mark;

        private Carried(E element, Mark mark) {
            this.element = element;
            this.mark = mark;
        }

        /** The element, as for a comparator of a priority queue: {@code Comparator.comparing(Carried::element)}. */
        public E element() {
            return element;
        }

        @Override
        @SuppressWarnings("unchecked")
        public int compareTo(Delayed other) {
            return ((Comparable<? super E>) element).compareTo(((Carried<E>) other).element);
        }

        /** How long the element of a delay queue has to wait. Any other one is due at once. */
        @Override
        public long getDelay(TimeUnit unit) {
            return element instanceof Delayed delayed ? delayed.getDelay(unit) : 0;
        }

        @Override
        public boolean equals(Object other) {
            return other instanceof Carried<?> carried && element.equals(carried.element);
        }

        @Override
        public int hashCode() {
            return element.hashCode();
        }
    }

    /** What equals an element that is looked for, and the one that was found last. */
    private static final class Sought {
        private final Object element;
        private Carried<?> found;

        private Sought(Object element) {
            this.element = element;
        }

        @Override
        public boolean equals(Object other) {
            boolean isFound = other instanceof Carried<?> carried && carried.element.equals(element);
            found = isFound ? (Carried<?>) other : found;
            return isFound;
        }

        @Override
        public int hashCode() {
            return element.hashCode();
        }
    }

    private final BlockingQueue<Carried<E>> queue;
    /** Whether somebody looks at elements that stay. Then who takes one away may not be the only one who comes after it. */
    private volatile boolean isLookedAt;

    TracedQueue(BlockingQueue<Carried<E>> queue) {
        if (!queue.isEmpty()) {
            throw new IllegalArgumentException("the queue has elements already");
        }
        this.queue = queue;
    }

    private Carried<E> carried(E element) {
        return new Carried<>(Objects.requireNonNull(element), Traced.mark(ITEM, Traced.site()));
    }

    /** Nobody can come after the place of an element that was not put. */
    private boolean wasPut(boolean isPut, Carried<E> carried) {
        if (!isPut) {
            Mark.endIfAny(carried.mark);
        }
        return isPut;
    }

    private E taken(Carried<E> carried) {
        if (carried == null) {
            return null;
        }
        Traced.take(carried.mark, Traced.site());
        return carried.element;
    }

    /** The same of an element that nobody takes any more. */
    private E takenAway(Carried<E> carried) {
        E element = taken(carried);
        if (carried != null) {
            endOfTaken(carried.mark);
        }
        return element;
    }

    private void endOfTaken(Mark mark) {
        if (isLookedAt) {
            Mark.endShared(mark);
        } else {
            Mark.endIfAny(mark);
        }
    }

    @Override
    public void put(E element) throws InterruptedException {
        queue.put(carried(element));
    }

    @Override
    public boolean offer(E element) {
        Carried<E> carried = carried(element);
        return wasPut(queue.offer(carried), carried);
    }

    @Override
    public boolean offer(E element, long time, TimeUnit unit) throws InterruptedException {
        Carried<E> carried = carried(element);
        return wasPut(queue.offer(carried, time, unit), carried);
    }

    @Override
    public E take() throws InterruptedException {
        return takenAway(queue.take());
    }

    @Override
    public E poll() {
        return takenAway(queue.poll());
    }

    @Override
    public E poll(long time, TimeUnit unit) throws InterruptedException {
        return takenAway(queue.poll(time, unit));
    }

    /** The head, which stays. Whoever sees it comes after the place where it was put. */
    @Override
    public E peek() {
        isLookedAt = true;
        return taken(queue.peek());
    }

    @Override
    public int drainTo(Collection<? super E> elements) {
        return drainTo(elements, Integer.MAX_VALUE);
    }

    @Override
    public int drainTo(Collection<? super E> elements, int most) {
        if (elements == this) {
            throw new IllegalArgumentException("a queue cannot be drained to itself");
        }
        List<Carried<E>> drained = new ArrayList<>();
        queue.drainTo(drained, most);
        drained.forEach(carried -> elements.add(takenAway(carried)));
        return drained.size();
    }

    /** Takes one away that equals the element, and comes after the place where it was put. No two threads take the same one. */
    @Override
    public boolean remove(Object element) {
        Sought sought = new Sought(element);
        boolean isRemoved = element != null && queue.remove(sought);
        if (isRemoved) {
            Traced.take(sought.found.mark, Traced.site());
            endOfTaken(sought.found.mark);
        }
        return isRemoved;
    }

    /** Goes over the elements. Whoever sees one comes after the place where it was put. */
    @Override
    public Iterator<E> iterator() {
        isLookedAt = true;
        Iterator<Carried<E>> carried = queue.iterator();
        return new Iterator<>() {
            @Override
            public boolean hasNext() {
                return carried.hasNext();
            }

            @Override
            public E next() {
                return taken(carried.next());
            }

            @Override
            public void remove() {
                carried.remove();
            }
        };
    }

    @Override
    public int size() {
        return queue.size();
    }

    @Override
    public int remainingCapacity() {
        return queue.remainingCapacity();
    }
}
