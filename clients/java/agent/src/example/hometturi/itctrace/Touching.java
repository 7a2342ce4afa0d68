package example.hometturi.itctrace;

import example.hometturi.itctrace.Content.Form;
import example.hometturi.itctrace.Use.On;
import example.hometturi.itctrace.Wholes.Cells;
import java.util.Collection;
import java.util.LinkedHashMap;
import java.util.Map;
import jdk.internal.vm.annotation.DontInline;

/**
 * Touches the parts of a collection that a call does something with. What it does in any case is noted as it begins, and what it may do
 * once it is over. A call that throws has looked at the structure alone. What is not in line would be compiled anew with each of its
 * callers, which takes longer than what a call of it does.
 */
final class Touching {
    private Touching() {}

    /** What is known of a call that is over. */
    record End(Object key, int changes, Object given, int told) {
        boolean isTrue() {
            return told != 0;
        }
    }

    /** The call begins. */
    static void begin(Cells cells, Object object, Use use) {
        On on = use.on(object);
        if (on.isOverridden()) {
            return;
        }
        if (use.isOfObject() && on.deed().changesBefore()) {
            Unfinished.begin(use);
        }
        switch (on.deed()) {
            case NOTHING, VALUE, SET_VALUE -> {}
            case UNKNOWN -> touchUnknown(cells, use);
            case WHOLE -> {
                touchShape(cells, use, false);
                touchAll(cells, use, false, isSure(cells, use));
            }
            case SOME -> {
                touchShape(cells, use, false);
                touchAll(cells, use, false, false);
            }
            case SORT -> touchSorted(cells, use);
            case REPLACE_ALL -> {
                touchShape(cells, use, false);
                touchAll(cells, use, true, !cells.isCut);
            }
            case STRUCTURE -> touchShape(cells, use, !use.isOfObject());
            default -> touchShape(cells, use, false);
        }
    }

    /** Whether all elements come to what looks at the object as a whole. Who gets an entry may read its value, or not. */
    private static boolean isSure(Cells cells, Use use) {
        boolean looksInto = use.role == Use.Role.LOOKED_INTO || use.method.equals("toString") || use.method.equals("hashCode");
        return !cells.isCut && (looksInto || !cells.isOfEntries);
    }

    private static void touchShape(Cells cells, Use use, boolean writes) {
        if (cells.content.shape != null) {
            cells.content.shape.touch(use.whole(writes));
        }
    }

    private static void touchAll(Cells cells, Use use, boolean writes, boolean isSure) {
        Parts elements = cells.content.elements;
        if (elements != null && !cells.isOfKeys) {
            int end = cells.content.form == Form.ARRAY ? cells.content.length() : Parts.ALL;
            elements.touch(isSure ? use.whole(writes) : use.inner(writes), 0, end);
        }
    }

    private static void touchUnknown(Cells cells, Use use) {
        if (cells.content.shape != null) {
            cells.content.shape.touch(use.inner(true));
        } else {
            touchAll(cells, use, true, false);
        }
    }

    private static void touchSorted(Cells cells, Use use) {
        if (cells.content.form == Form.ARRAY) {
            touchAll(cells, use, true, true);
        } else {
            touchShape(cells, use, true);
        }
    }

    /** The call has not thrown. */
    static void end(Cells cells, Object object, Use use, End end) {
        On on = use.on(object);
        if (!on.isOverridden()) {
            end(cells, object, use, end, on.deed());
            endOpen(use, on.deed());
        }
    }

    private static void endOpen(Use use, Deed deed) {
        if (deed.changesBefore()) {
            Unfinished.end(use);
        }
    }

    private static void end(Cells cells, Object object, Use use, End end, Deed deed) {
        switch (deed) {
            case STRUCTURE -> change(cells, use);
            case SORT -> touchSorted(cells, use);
            case IF_TRUE -> changeIf(end.isTrue(), cells, use);
            case IF_GIVEN -> changeIf(end.given != null, cells, use);
            case SEARCH -> endSearch(cells, use, end);
            case FIRST, LAST -> endAtEnd(cells, object, use, end, deed == Deed.FIRST);
            case GET -> endGet(cells, object, use, end);
            case PUT, ABSENT, COMPUTE, REPLACE, REMOVE_KEY, PUT_ALL -> endPut(cells, object, use, end, deed);
            case ENTRY -> endEntry(cells, use, end.given);
            case VALUE, SET_VALUE -> touchEntry(cells, use, (Map.Entry<?, ?>) object, deed == Deed.SET_VALUE);
            case STEP -> endStep(cells, object, use);
            case SET_STEP -> touchNumber(cells, use, Steps.index(object), true);
            case REPLACE_ALL -> touchAll(cells, use, true, !cells.isCut);
            default -> {}
        }
    }

    private static void changeIf(boolean isChanged, Cells cells, Use use) {
        if (isChanged) {
            change(cells, use);
        } else if (!use.method.startsWith("add") && !use.method.startsWith("poll")) {
            touchAll(cells, use, false, !cells.isOfEntries && !cells.isCut);
        }
    }

    @DontInline
    private static void endSearch(Cells cells, Use use, End end) {
        boolean isByNumber = use.method.equals("indexOf") || use.method.equals("lastIndexOf");
        if (isByNumber && end.told >= 0 && cells.content.elements != null) {
            boolean isFirst = use.method.equals("indexOf") && !cells.isCut;
            cells.content.elements.touch(isFirst ? use.whole(false) : use.inner(false), 0, isFirst ? end.told + 1 : cells.content.length());
        } else {
            boolean isEach = isByNumber || !end.isTrue() && !use.method.equals("containsAll");
            touchAll(cells, use, false, isEach && !cells.isCut);
        }
    }

    /** The structure is another one now. What was known of the keys is of no use: who comes to a key later comes behind this. */
    @DontInline
    private static void change(Cells cells, Use use) {
        touchShape(cells, use, true);
        if (cells.content.form == Form.MAP) {
            cells.content.keys.clear();
            cells.content.elements.clear();
        } else if (cells.content.form == Form.ARRAY) {
            touchAll(cells, use, true, false);
        }
    }

    static void endAt(Cells cells, Object object, Use use, int index) {
        On on = use.on(object);
        if (!on.isOverridden() && (on.deed() == Deed.AT || on.deed() == Deed.SET_AT)) {
            touchNumber(cells, use, cells.offset + index, on.deed() == Deed.SET_AT);
            endOpen(use, on.deed());
        }
    }

    /** The number may be unknown. */
    private static void touchNumber(Cells cells, Use use, int index, boolean writes) {
        Content content = cells.content;
        if (content.form == Form.LIST || content.form == Form.ARRAY) {
            if (index < 0) {
                touchAll(cells, use, writes, false);
            } else {
                content.elements.touch(use.whole(writes), index, index + 1);
            }
        } else if (content.form == Form.MAP) {
            touchAll(cells, use, writes, false);
        }
    }

    /** The first or the last element is looked at, if there is one. */
    private static void endAtEnd(Cells cells, Object object, Use use, End end, boolean isFirst) {
        if (end.given != null && cells.content.form == Form.LIST) {
            boolean isCounted = Kinds.isOfJdk(object.getClass());
            int last = isCounted && !isFirst ? ((Collection<?>) object).size() - 1 : Steps.UNKNOWN;
            touchNumber(cells, use, isFirst ? 0 : last, false);
        }
    }

    // Maps

    /** A key that is not there has no value. If its value is null, that is told as if it were not there. */
    @DontInline
    private static void endGet(Cells cells, Object object, Use use, End end) {
        if (isChanged(object, end) && isByAccess(object)) {
            touchShape(cells, use, true);
        }
        if (end.given != null && (!use.method.equals("getOrDefault") || cells.content.keys.mayHave((Map<?, ?>) object, end.key))) {
            touchKey(cells, use, end.key, false);
        }
    }

    private static boolean isChanged(Object map, End end) {
        return end.changes != Steps.UNKNOWN && Steps.changes(map) != end.changes;
    }

    @DontInline
    private static void endPut(Cells cells, Object map, Use use, End end, Deed deed) {
        if (deed == Deed.PUT_ALL) {
            touchShape(cells, use, isChanged(map, end));
            touchAll(cells, use, true, false); // Nobody knows which keys were there, and have another value now.
        } else if (hasChanged(map, use, end, deed)) {
            touchShape(cells, use, true);
            if (deed == Deed.REMOVE_KEY) {
                forget(cells, end.key);
            }
        } else if (end.changes == Steps.UNKNOWN && isUncertain(deed, end)) {
            touchUnknown(cells, use);
        } else if (end.given != null || says(use, end) || deed == Deed.PUT) {
            touchKey(cells, use, end.key, deed != Deed.ABSENT);
        } else if (use.descriptor.endsWith("Z") && cells.content.keys.mayHave((Map<?, ?>) map, end.key)) {
            touchKey(cells, use, end.key, false); // It has another value than the one that is looked for.
        }
    }

    /** Whether which keys there are is another thing now, or their order. */
    private static boolean hasChanged(Object map, Use use, End end, Deed deed) {
        boolean isChanged = isChanged(map, end);
        return switch (deed) {
            case REMOVE_KEY -> isChanged || end.given != null || says(use, end);
            case PUT -> isChanged && (end.given == null || isByAccess(map));
            default -> isChanged;
        };
    }

    /** Whether nobody knows if the key was there, as nobody counts the changes of the map. */
    private static boolean isUncertain(Deed deed, End end) {
        return deed == Deed.PUT && end.given == null || deed == Deed.ABSENT || deed == Deed.COMPUTE;
    }

    /** Whether the call has said that it did something. */
    private static boolean says(Use use, End end) {
        return use.descriptor.endsWith("Z") && end.isTrue();
    }

    private static boolean isByAccess(Object map) {
        return map instanceof LinkedHashMap && Steps.isByAccess(map);
    }

    /** The key is in the map no more. */
    private static void forget(Cells cells, Object key) {
        Keys keys = cells.content.keys;
        int number = keys == null ? Keys.UNKNOWN : keys.remove(key);
        if (number != Keys.UNKNOWN) {
            cells.content.elements.clear(number);
            keys.giveBack(number);
        }
    }

    private static void touchKey(Cells cells, Use use, Object key, boolean writes) {
        Keys keys = cells.content.keys;
        int number = keys == null ? Keys.UNKNOWN : keys.number(key);
        if (number == Keys.UNKNOWN) {
            touchAll(cells, use, writes, false);
        } else {
            cells.content.elements.touch(use.whole(writes), number, number + 1);
        }
    }

    private static void endEntry(Cells cells, Use use, Object entry) {
        if (entry != null) {
            touchAll(cells, use, false, false);
        }
    }

    /** The entry of a map, whose key the JDK has. */
    private static void touchEntry(Cells cells, Use use, Map.Entry<?, ?> entry, boolean writes) {
        if (cells.content.form != Form.MAP || !Kinds.isOfJdk(entry.getClass())) {
            touchUnknown(cells, use);
            return;
        }
        touchKeyOf(cells, use, entry, writes);
    }

    private static void touchKeyOf(Cells cells, Use use, Map.Entry<?, ?> entry, boolean writes) {
        Object key;
        try {
            key = entry.getKey();
        } catch (IllegalStateException gone) {
            touchAll(cells, use, writes, false);
            return;
        }
        touchKey(cells, use, key, writes);
    }

    // Iterators

    @DontInline
    private static void endStep(Cells cells, Object iterator, Use use) {
        Content content = cells.content;
        if (content.form == Form.LIST || content.form == Form.ARRAY) {
            touchNumber(cells, use, Steps.index(iterator), false);
        } else if (content.form == Form.MAP && !cells.isOfKeys && !cells.isOfEntries) {
            Map.Entry<?, ?> entry = Steps.entry(iterator);
            if (entry == null) {
                touchAll(cells, use, false, false);
            } else {
                touchKeyOf(cells, use, entry, false);
            }
        }
    }
}
