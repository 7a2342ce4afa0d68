package example.hometturi.itctrace;

import java.util.Map;
import jdk.internal.misc.Unsafe;

/** Where an iterator of the JDK stands, as its own fields say. */
final class Steps {
    static final int UNKNOWN = -1;

    private static final Unsafe UNSAFE = Unsafe.getUnsafe();
    private static final String PACKAGE = "java.util.";

    /** What is read of a class that has iterators, or whose objects count their changes. */
    private static final class Known {
        private final Class<?> type;
        private final long offset;

        private Known(Class<?> type, long offset) {
            this.type = type;
            this.offset = offset;
        }

        /** Null if this JDK has no such class or field. */
        static Known of(String type, String field) {
            try {
                Class<?> found = Class.forName(PACKAGE + type, false, null);
                return new Known(found, UNSAFE.objectFieldOffset(found, field));
            } catch (ClassNotFoundException | InternalError missing) {
                return null;
            }
        }

        static boolean has(Known known, Object object) {
            return known != null && known.type.isInstance(object);
        }

        int number(Object object) {
            return UNSAFE.getInt(object, offset);
        }

        Object part(Object object) {
            return UNSAFE.getReference(object, offset);
        }
    }

    private static final Known OF_ARRAY_LIST = Known.of("ArrayList$Itr", "lastRet");
    private static final Known OF_LISTED = Known.of("Arrays$ArrayItr", "cursor");
    private static final Known NEXT_OF_LINKED = Known.of("LinkedList$ListItr", "next");
    private static final Known INDEX_OF_LINKED = Known.of("LinkedList$ListItr", "nextIndex");
    private static final Known LAST_OF_LINKED = Known.of("LinkedList$ListItr", "lastReturned");
    private static final Known[] ENTRIES = {
        Known.of("HashMap$HashIterator", "current"),
        Known.of("LinkedHashMap$LinkedHashIterator", "current"),
        Known.of("TreeMap$PrivateEntryIterator", "lastReturned")
    };
    private static final Known[] CHANGES = {
        Known.of("HashMap", "modCount"),
        Known.of("TreeMap", "modCount"),
        Known.of("IdentityHashMap", "modCount"),
        Known.of("EnumMap", "size")
    };
    private static final Known IS_BY_ACCESS = Known.of("LinkedHashMap", "accessOrder");

    private Steps() {}

    /** The number of the element that the iterator has given last. */
    static int index(Object iterator) {
        if (Known.has(OF_ARRAY_LIST, iterator)) {
            return OF_ARRAY_LIST.number(iterator);
        }
        if (Known.has(OF_LISTED, iterator)) {
            return OF_LISTED.number(iterator) - 1;
        }
        if (Known.has(INDEX_OF_LINKED, iterator)) {
            Object last = LAST_OF_LINKED.part(iterator);
            int next = INDEX_OF_LINKED.number(iterator);
            return last == null ? UNKNOWN : last == NEXT_OF_LINKED.part(iterator) ? next : next - 1;
        }
        return UNKNOWN;
    }

    /** The entry of a map that the iterator has given last, or the value of which. Null if nobody knows. */
    static Map.Entry<?, ?> entry(Object iterator) {
        for (Known one : ENTRIES) {
            if (Known.has(one, iterator)) {
                return (Map.Entry<?, ?>) one.part(iterator);
            }
        }
        return null;
    }

    /** A number that changes as the keys of the map do. It is UNKNOWN if there is none. */
    static int changes(Object map) {
        for (Known one : CHANGES) {
            if (Known.has(one, map)) {
                return one.number(map);
            }
        }
        return UNKNOWN;
    }

    /** Whether the map is in the order of its last accesses, so that who reads it changes it. */
    static boolean isByAccess(Object map) {
        return Known.has(IS_BY_ACCESS, map) && UNSAFE.getBoolean(map, IS_BY_ACCESS.offset);
    }
}
