package example.hometturi.itctrace;

import example.hometturi.itctrace.Cell.Place;
import example.hometturi.itctrace.Tracer.Watching;
import java.util.Arrays;
import java.util.Objects;
import jdk.internal.misc.Unsafe;
import jdk.internal.vm.annotation.DontInline;

/**
 * What is known of the elements of an array or of a collection, each by its number. A page has 64 elements. If all of a page were touched
 * alike, it is one history, else an array of these. A list or a map has blocks of pages, each twice as long as the one before.
 */
final class Parts implements Touched {
    /** Behind the last element, of whatever there are. */
    static final int ALL = Integer.MAX_VALUE;

    private static final int SHIFT = 6;
    static final int PAGE = 1 << SHIFT;
    private static final int BLOCKS = 25;
    private static final int MOST_PAIRS = 64;
    private static final int MOST_HISTORIES = 64;
    private static final Unsafe UNSAFE = Unsafe.getUnsafe();

    private final Content content;
    private final Lines lines = new Lines();
    /** Pages of an array, or blocks of pages. */
    private final Object[] top;

    private final boolean isArray;
    /** Those that came of touches last, so that what was touched alike has one. Null if there are few elements. */
    private final History[] histories;
    /** Two lines of which was told, by the places of their numbers. */
    private Pair[] pairs;
    /** What was touched by ended tasks, of which nobody knows by now which elements it was. Null if that is all known. */
    private Cell forgotten;

    /** Two lines of which was told: by a touch of the first one, and by the first touch of the other one since. */
    private record Pair(Run before, Run after) {
        boolean isOf(Run earlier, Run later) {
            return before == earlier && (after == later || later.replaces(after));
        }
    }

    Parts(Content content) {
        this.content = content;
        isArray = content.form == Content.Form.ARRAY;
        top = new Object[isArray ? content.length() + PAGE - 1 >>> SHIFT : BLOCKS];
        Arrays.fill(top, History.empty());
        histories = isArray && top.length == 1 ? null : new History[MOST_HISTORIES];
    }

    @Override
    public History known(History fresh) {
        if (histories == null) {
            return fresh;
        }
        int hash = fresh.likeness();
        int at = (hash ^ hash >>> 8) & MOST_HISTORIES - 1;
        History known = histories[at];
        if (known != null && known.isLike(fresh)) {
            return known;
        }
        histories[at] = fresh;
        return fresh;
    }

    private static Object at(Object[] nodes, int index) {
        return UNSAFE.getReferenceAcquire(nodes, offset(nodes, index));
    }

    private static boolean replace(Object[] nodes, int index, Object before, Object after) {
        return before == after || UNSAFE.compareAndSetReference(nodes, offset(nodes, index), before, after);
    }

    private static void put(Object[] nodes, int index, Object node) {
        UNSAFE.putReferenceRelease(nodes, offset(nodes, index), node);
    }

    private static long offset(Object[] nodes, int index) {
        return Unsafe.ARRAY_OBJECT_BASE_OFFSET + (long) Objects.checkIndex(index, nodes.length) * Unsafe.ARRAY_OBJECT_INDEX_SCALE;
    }

    /** Which block an element is of. */
    private static int blockOf(int index) {
        return Integer.SIZE - 1 - Integer.numberOfLeadingZeros((index >>> SHIFT) + 1);
    }

    /** The first page of a block. It has as many pages, and one more. */
    private static int firstPage(int block) {
        return (1 << block) - 1;
    }

    /** Whether this thread has done the same in the same stretch. It has not if there is no such element. */
    boolean isNoted(Place place, int index) {
        if (index < 0 || index >= content.length()) {
            return false;
        }
        int page = index >>> SHIFT;
        Object node;
        if (isArray) {
            node = at(top, page);
        } else {
            int block = blockOf(index);
            node = at(top, block);
            node = node instanceof Object[] pages ? at(pages, page - firstPage(block)) : node;
        }
        node = node instanceof Object[] elements ? at(elements, index & PAGE - 1) : node;
        return ((History) node).hasNow(place);
    }

    /** This thread touches the elements from the first number on, up to the last one. */
    @DontInline
    void touch(Place place, int from, int to) {
        boolean isNoted = from >= to || to - from == 1 && isNoted(place, from);
        Run run = isNoted || !Traced.isOn() ? null : Run.of(place);
        if (run != null && !Trusting.keeps(run, this, from, () -> touch(run.underLocksOfNow(), from, to))) {
            touch(run, from, to);
        }
    }

    private void touch(Run run, int from, int to) {
        lines.touch(run);
        if (isArray) {
            touchPages(top, 0, run, from, to);
            return;
        }
        int last = Math.min(blockOf(to - 1), BLOCKS - 1);
        for (int block = blockOf(from); block <= last; block++) {
            int base = firstPage(block) << SHIFT;
            long behind = (long) firstPage(block + 1) << SHIFT;
            touchBlock(block, run, Math.max(from, base), (int) Math.min(to, behind), from <= base && to >= behind);
        }
    }

    private void touchBlock(int block, Run run, int from, int to, boolean isWhole) {
        int base = firstPage(block);
        Object node = at(top, block);
        while (node instanceof History before) {
            boolean isDone = replace(top, block, before, isWhole ? before.with(run, this, from) : filled(before, base + 1));
            if (isDone && isWhole) {
                return;
            }
            node = at(top, block);
        }
        touchPages((Object[]) node, base, run, from, to);
    }

    private static Object[] filled(History history, int length) {
        Object[] nodes = new Object[length];
        Arrays.fill(nodes, history);
        return nodes;
    }

    /** Touches elements of some pages, the first of which has this number. */
    private void touchPages(Object[] pages, int first, Run run, int from, int to) {
        int last = to - 1 >>> SHIFT;
        for (int page = from >>> SHIFT; page <= last; page++) {
            int base = page << SHIFT;
            int end = isArray ? Math.min(PAGE, content.length() - base) : PAGE;
            touchPage(pages, page - first, run, base, Math.max(from - base, 0), Math.min(to - base, end), end);
        }
    }

    @DontInline
    private void touchPage(Object[] pages, int page, Run run, int base, int from, int to, int end) {
        boolean isWhole = from == 0 && to == end;
        Object node = at(pages, page);
        while (node instanceof History before) {
            History after = isWhole || before.hasNow(run.place) ? before.with(run, this, base + from) : null;
            boolean isDone = replace(pages, page, before, after == null ? filled(before, end) : after);
            if (isDone && after != null) {
                return;
            }
            node = at(pages, page);
        }
        Object[] elements = (Object[]) node;
        for (int index = from; index < to; index++) {
            touchElement(elements, index, run, base + index);
        }
    }

    @DontInline
    private void touchElement(Object[] elements, int at, Run run, int index) {
        History before = (History) at(elements, at);
        while (!replace(elements, at, before, before.with(run, this, index))) {
            before = (History) at(elements, at);
        }
    }

    /** Nothing is known of the element any more: another one has its number from now on. */
    void clear(int index) {
        int block = blockOf(index);
        Object node = at(top, block);
        while (node instanceof History before) {
            replace(top, block, before, filled(before, firstPage(block) + 1));
            node = at(top, block);
        }
        Object[] pages = (Object[]) node;
        int page = (index >>> SHIFT) - firstPage(block);
        node = at(pages, page);
        while (node instanceof History before) {
            replace(pages, page, before, filled(before, PAGE));
            node = at(pages, page);
        }
        put((Object[]) node, index & PAGE - 1, History.empty());
    }

    /** Nothing is known of any element any more. */
    void clear() {
        History empty = History.empty();
        for (int at = 0; at < top.length; at++) {
            put(top, at, empty);
        }
    }

    /** Tells of both, unless it was told of the two lines since the first of these touches. */
    @Override
    public synchronized void meet(Run before, Run after, int index) {
        if (pairs == null) {
            pairs = new Pair[MOST_PAIRS];
        }
        int hash = System.identityHashCode(before) + 31 * System.identityHashCode(after.place) + after.task.number;
        int at = (hash ^ hash >>> 8) & MOST_PAIRS - 1;
        if (pairs[at] == null || !pairs[at].isOf(before, after)) {
            pairs[at] = new Pair(before, after);
            before.tell(this, index);
            after.tell(this, index);
        }
    }

    /** From now on nobody knows which elements these were. */
    @Override
    public synchronized void forget(Run run, int index) {
        if (forgotten == null) {
            forgotten = new Cell(content.calledAll());
        }
        forgotten.add(run.place.isInner() ? run : run.inner());
    }

    @Override
    public synchronized void meetForgotten(Run run, int index, boolean isWritten) {
        forgotten.add(run.place.isInner() ? run : run.inner());
    }

    @Override
    public Watching watching(int index, Place place) {
        return content.watching(index, place);
    }
}
