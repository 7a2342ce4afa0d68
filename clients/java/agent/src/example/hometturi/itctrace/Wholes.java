package example.hometturi.itctrace;

import example.hometturi.itctrace.Content.Form;
import example.hometturi.itctrace.Kinds.How;
import example.hometturi.itctrace.Kinds.Kind;
import example.hometturi.itctrace.Row.Called;
import java.lang.ref.Reference;
import java.lang.ref.ReferenceQueue;
import java.lang.ref.WeakReference;
import java.lang.reflect.Array;
import java.util.Map;
import jdk.internal.vm.annotation.DontInline;

/** What is known of arrays, of collections, and of objects of the JDK that are watched as a whole. */
final class Wholes {
    /** So many are known without a look into the map of all. */
    private static final int MOST_RECENT = 2048;

    private static final Keyed<Cells> CELLS = new Keyed<>();
    private static final Recent[] RECENT = new Recent[MOST_RECENT];
    private static final ReferenceQueue<Object> GONE = new ReferenceQueue<>();

    /** What is known of one object: of what it has, which others may have, too, and of its own position in that. */
    static final class Cells {
        final Content content;
        /** What has the first element of a view, by the numbers of what it shows. */
        final int offset;
        /** Whether it shows keys alone. */
        final boolean isOfKeys;
        /** Whether it shows entries, of which somebody may read the values. */
        final boolean isOfEntries;
        /** Whether not each element of what it shows comes out of it, as of a part of a list. */
        final boolean isCut;

        private Cell position;

        Cells(Content content) {
            this(content, 0, false, false, false);
        }

        private Cells(Content content, int offset, boolean isOfKeys, boolean isOfEntries, boolean isCut) {
            this.content = content;
            this.offset = offset;
            this.isOfKeys = isOfKeys;
            this.isOfEntries = isOfEntries;
            this.isCut = isCut;
        }

        synchronized Cell position(String name) {
            position = position == null ? new Cell(new Called(name, name, null)) : position;
            return position;
        }

        boolean isKnown() {
            return content.isKnown();
        }
    }

    /** What was touched last. Each place has one object. Once that is gone, what was known of it is, too. */
    static final class Recent extends WeakReference<Object> {
        private Cells cells;
        private final int place;

        Recent(Object object, Cells cells, int place) {
            super(object, GONE);
            this.cells = cells;
            this.place = place;
        }
    }

    private Wholes() {}

    /** The same of an object that a call is often done with. A lock that is held has to be asked for its hash each time. */
    private static Cells cellsOf(Object object, Use use) {
        Recent known = use.recent;
        if (known == null || !known.refersTo(object)) {
            known = recent(object);
            use.recent = known;
        }
        Cells cells = known.cells;
        return cells == null ? cellsOfAny(object) : cells; // Another thread may have put it there, and nothing orders the two.
    }

    static Cells cellsOf(Object object) {
        Cells cells = recent(object).cells;
        return cells == null ? cellsOfAny(object) : cells;
    }

    @DontInline
    private static Recent recent(Object object) {
        int place = System.identityHashCode(object) & MOST_RECENT - 1;
        Recent known = RECENT[place];
        if (known == null || !known.refersTo(object)) {
            known = new Recent(object, cellsOfAny(object), place);
            RECENT[place] = known;
            forgetGone();
        }
        return known;
    }

    private static void forgetGone() {
        for (Reference<?> old = GONE.poll(); old != null; old = GONE.poll()) {
            Recent one = (Recent) old;
            one.cells = null;
            if (RECENT[one.place] == one) {
                RECENT[one.place] = null;
            }
        }
    }

    private static Cells cellsOfAny(Object object) {
        return CELLS.of(object, () -> new Cells(contentOf(object, new Called(Kinds.of(object).name(), Kinds.of(object).name(), null))));
    }

    private static Content contentOf(Object object, Called called) {
        int length = object.getClass().isArray() ? lengthOf(object) : Parts.ALL - Parts.PAGE;
        return new Content(Collected.of(object).form(), called, length, Keys.of(object));
    }

    /** The object is made by the program. */
    static void made(Object object, Use use) {
        if (Traced.isOn() && Collected.of(object).form() != Form.WHOLE) {
            CELLS.of(object, () -> new Cells(contentOf(object, use.called(Kinds.of(object).name()))));
        }
    }

    /** This thread touches the object, if it is of those. */
    static void touch(Object object, Use use) {
        if (object == null || !Traced.isOn()) {
            return;
        }
        Kind kind = Kinds.of(object);
        if (!kind.isLookedAt()) {
            return;
        }
        Cells cells = cellsOf(object, use);
        if (kind.isStepping()) {
            cells.position(kind.positionName()).touch(use.whole(use.role != Use.Role.LOOKED_INTO && Kind.steps(use.method)));
        }
        switch (kind.how()) {
            case NONE -> {}
            case OWN, VIEW -> touchContent(cells, object, use);
            case FOLLOWED -> touchFollowed(cells, kind, use);
            case BUFFER -> touchBuffer(cells, kind, use);
            case UNKNOWN -> touchUnknown(cells, use);
        }
    }

    private static void touchContent(Cells cells, Object object, Use use) {
        if (cells.isKnown()) {
            Touching.begin(cells, object, use);
        } else {
            cells.content.shape.touch(use.inner(use.changes));
        }
    }

    private static void touchUnknown(Cells cells, Use use) {
        if (cells.content.shape == null) {
            cells.content.elements.touch(use.inner(true), 0, cells.content.length());
        } else {
            cells.content.shape.touch(use.inner(true));
        }
    }

    /** A call of a collection begins. Gives what its end has to know. */
    static int begin(Object object, Use use) {
        touch(object, use);
        return object instanceof Map ? Steps.changes(object) : 0;
    }

    /** The call is over, and has given something, or has said whether it did something. */
    static void end(Object object, Use use, Touching.End end) {
        if (Traced.isOn() && Kinds.of(object).isLookedAt()) {
            Cells cells = cellsOf(object, use);
            if (cells.isKnown()) {
                Touching.end(cells, object, use, end);
            }
        }
    }

    /** The same of a call that is given the number of an element. */
    static void endAt(Object object, Use use, int index) {
        if (Traced.isOn() && Kinds.of(object).isLookedAt()) {
            Cells cells = cellsOf(object, use);
            if (cells.isKnown()) {
                Touching.endAt(cells, object, use, index);
            }
        }
    }

    /**
     * What another object does with one that it is given is not known, unless it only looks into it. What a method may have worked out
     * of what the object has is another thing than that.
     */
    private static void touchFollowed(Cells cells, Kind kind, Use use) {
        Cell content = cells.content.shape;
        switch (use.role) {
            case OWNER, SUPER -> {
                Use.Effect effect = use.on(kind);
                content.touch(use.whole(effect.changes()));
                if (effect.mayChange()) {
                    cells.position(kind.name()).touch(use.inner(true));
                }
            }
            case GIVEN -> content.touch(kind.isReadWhereGiven() ? use.whole(false) : use.inner(true));
            case LOOKED_INTO -> content.touch(use.whole(false));
        }
    }

    private static void touchBuffer(Cells cells, Kind kind, Use use) {
        Cell.Place ofPosition = use.ofPosition();
        Cell.Place ofContent = use.ofContent();
        if (ofPosition != null) {
            cells.position(kind.name()).touch(ofPosition);
        }
        if (ofContent != null && cells.content.shape == null) {
            cells.content.elements.touch(ofContent, 0, cells.content.length());
        } else if (ofContent != null) {
            cells.content.shape.touch(ofContent);
        }
    }

    // Arrays

    /** This thread touches an element of an array, as the next instruction does. That throws if there is none. */
    static void touchElement(Object array, int index, Use use) {
        Content content = cellsOf(array, use).content;
        if (content.elements == null || !content.elements.isNoted(use.whole(use.changes), index)) {
            touchRange(array, index, index + 1, use, true);
        }
    }

    /** The same by a place of its own. There is such an element. */
    static void touchElement(Object array, int index, Cell.Place place) {
        Content content = cellsOf(array).content;
        if (content.elements == null) {
            content.shape.touch(place.inner());
        } else {
            content.elements.touch(place, index, index + 1);
        }
    }

    /** The same of the elements from a number on up to another one. A call throws if there are none. */
    static void touchRange(Object array, int from, int to, Use use, boolean isSure) {
        if (array.getClass().isArray() && Traced.isOn() && from >= 0 && from <= to && to <= lengthOf(array)) {
            Content content = cellsOf(array, use).content;
            if (content.elements == null) {
                content.shape.touch(use.inner(use.changes)); // It is that of a buffer.
            } else {
                content.elements.touch(isSure ? use.whole(use.changes) : use.inner(use.changes), from, to);
            }
        }
    }

    static int lengthOf(Object array) {
        return Array.getLength(array);
    }

    /** Whether elements may be copied from one to the other, if they fit. */
    static boolean canCopy(Object from, Object to) {
        if (from == null || to == null || !from.getClass().isArray() || !to.getClass().isArray()) {
            return false;
        }
        Class<?> one = from.getClass().getComponentType();
        Class<?> other = to.getClass().getComponentType();
        return one == other || !one.isPrimitive() && !other.isPrimitive();
    }

    /** Whether each element of the one fits into the other. */
    static boolean fits(Object from, Object to) {
        return to.getClass().getComponentType().isAssignableFrom(from.getClass().getComponentType());
    }

    /** This thread looks into what an array has. */
    static void touchElements(Object[] array, Use use) {
        for (Object one : array == null ? new Object[0] : array) {
            touch(one, use);
        }
    }

    // Views

    /** What a call has given may show what an object has that it was given. Of a part of a list, it says where that begins. */
    static void derive(Object given, Object shown, int from, boolean isCutting) {
        if (given != null && shown != null && given != shown && isShown(given, shown)) {
            Cells known = cellsOfAny(shown);
            Collected collected = Collected.of(given);
            CELLS.of(
                    given,
                    () ->
                            new Cells(
                                    known.content,
                                    known.offset + from,
                                    known.isOfKeys || collected.isOfKeys(),
                                    known.isOfEntries || collected.isOfEntries(),
                                    known.isCut || isCutting));
        }
    }

    private static boolean isShown(Object given, Object shown) {
        How how = Kinds.of(given).how();
        How ofShown = Kinds.of(shown).how();
        return switch (how) {
            case VIEW -> ofShown != How.NONE && (!(given instanceof Map.Entry) || isOfMap(shown));
            case BUFFER -> ofShown == How.BUFFER || shown.getClass().isArray();
            case OWN -> given.getClass().isArray() && ofShown == How.BUFFER;
            case UNKNOWN -> ofShown == How.UNKNOWN && Kinds.isInternal(given.getClass());
            default -> false;
        };
    }

    private static boolean isOfMap(Object shown) {
        Cells cells = cellsOf(shown);
        return cells.content.form == Form.MAP && cells.isOfEntries;
    }
}
