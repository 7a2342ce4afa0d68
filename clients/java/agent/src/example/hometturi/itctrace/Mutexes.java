package example.hometturi.itctrace;

import java.util.Collections;
import java.util.Hashtable;
import java.util.List;
import java.util.Map;
import java.util.Properties;
import java.util.Vector;
import jdk.internal.misc.Unsafe;

/** The monitors by which objects of the JDK guard themselves. */
final class Mutexes {
    private static final Unsafe UNSAFE = Unsafe.getUnsafe();
    private static final Class<?> COLLECTION = Collections.synchronizedCollection(List.of()).getClass();
    private static final Class<?> MAP = Collections.synchronizedMap(Map.of()).getClass();
    private static final long OF_COLLECTION = UNSAFE.objectFieldOffset(COLLECTION, "mutex");
    private static final long OF_MAP = UNSAFE.objectFieldOffset(MAP, "mutex");

    private Mutexes() {}

    /** Null if the object has none. */
    static Object of(Object object) {
        if (COLLECTION.isInstance(object)) {
            return UNSAFE.getReference(object, OF_COLLECTION);
        }
        if (MAP.isInstance(object)) {
            return UNSAFE.getReference(object, OF_MAP);
        }
        boolean isOwn = object instanceof Vector || object instanceof StringBuffer || object instanceof Hashtable;
        return isOwn && !(object instanceof Properties) ? object : null;
    }

    static boolean mayHave(Class<?> type) {
        return COLLECTION.isAssignableFrom(type)
                || MAP.isAssignableFrom(type)
                || Vector.class.isAssignableFrom(type)
                || StringBuffer.class == type
                || Hashtable.class.isAssignableFrom(type) && !Properties.class.isAssignableFrom(type);
    }

    /** Whether the call gives what goes through the object without its monitor. */
    static boolean isUnguarded(Object object, String call) {
        String method = call.substring(call.lastIndexOf('.') + 1);
        return switch (method) {
            case "iterator", "listIterator", "stream", "parallelStream", "spliterator" -> !(object instanceof Vector);
            case "elements", "keys" -> object instanceof Hashtable;
            default -> false;
        };
    }
}
