package example.hometturi.itctrace;

import example.hometturi.itctrace.Place.Gives;
import java.util.Map;
import java.util.concurrent.ConcurrentHashMap;
import java.util.concurrent.atomic.AtomicIntegerArray;
import java.util.concurrent.atomic.AtomicLongArray;
import java.util.concurrent.atomic.AtomicReferenceArray;
import java.util.function.Consumer;

/** The orders of the elements of atomic arrays. Each access and its report are one. */
public final class AtomicElements {
    private static final Gives ATOMIC = Gives.order("atomic", "write atomic", "read atomic");
    private static final Keyed<Map<Integer, VolatileCell>> ARRAYS = new Keyed<>();

    private AtomicElements() {}

    static VolatileCell of(Object array, int index) {
        return ARRAYS.of(array, ConcurrentHashMap::new).computeIfAbsent(index, fresh -> new VolatileCell());
    }

    private static int lengthOf(Object array) {
        if (array instanceof AtomicIntegerArray numbers) {
            return numbers.length();
        }
        return array instanceof AtomicLongArray numbers ? numbers.length() : ((AtomicReferenceArray<?>) array).length();
    }

    /** A call begins. It throws if there is no such element, and keeps nobody out. */
    public static void begin(Object array, int index) {
        if (array != null && index >= 0 && index < lengthOf(array)) {
            of(array, index).begin();
        }
    }

    public static void endRead(Object array, int index) {
        of(array, index).endRead(Traced.site());
    }

    public static void endWrite(Object array, int index) {
        of(array, index).endWrite(ATOMIC, Traced.site());
    }

    public static void endChange(Object array, int index) {
        of(array, index).endChange(ATOMIC, Traced.site());
    }

    public static boolean endTry(boolean isChanged, Object array, int index) {
        if (isChanged) {
            endChange(array, index);
        } else {
            endRead(array, index);
        }
        return isChanged;
    }

    /** A call that may run code of the program, or reads all elements if the index is below zero. */
    public static void order(Object array, int index) {
        if (array == null) {
            return;
        }
        if (index >= lengthOf(array)) {
            return;
        }
        if (index >= 0) {
            begin(array, index);
            endChange(array, index);
        } else {
            Consumer<VolatileCell> read =
                    cell -> {
                        cell.begin();
                        cell.endRead(Traced.site());
                    };
            ARRAYS.of(array, ConcurrentHashMap::new).values().forEach(read);
        }
    }
}
