package example.hometturi.itctrace;

import java.util.List;
import java.util.Map;
import java.util.concurrent.ConcurrentHashMap;
import jdk.internal.misc.Unsafe;

/** A class that is watched: where its objects keep what is known of their variables, and who has initialized it. */
public final class Type {
    /** The field that is added to a class, for what is known of the variables of an object. */
    public static final String CELLS = "itctrace$cells";

    private static final Unsafe UNSAFE = Unsafe.getUnsafe();
    private static final long UNKNOWN = -1;
    private static final long NONE = -2;

    private static final Map<String, Type> KNOWN = new ConcurrentHashMap<>();

    private final String name;
    /** How many variables an object has by this class. */
    private int size;

    private List<Field> variables = List.of();
    private Map<String, Field> fields = Map.of();

    private volatile long offset = UNKNOWN;
    /** Where the variables of objects lie that have no such field. */
    private final Keyed<Object[]> cells = new Keyed<>();

    /** The end of its initialization. Null if that is not over, or does nothing. */
    private volatile Place.Mark initialized;

    /** By the name that a class file has. */
    public Type(String name) {
        this.name = name.replace('/', '.');
    }

    /** As a class file names it. */
    public String internalName() {
        return name.replace('.', '/');
    }

    /** The field of this name, which a class that is watched declares. Null if there is none. */
    static Field fieldOf(String type, String name) {
        Type known = KNOWN.get(type);
        return known == null ? null : known.fields.get(name);
    }

    /** All that the class declares, by their names. */
    public void setFields(Map<String, Field> all) {
        fields = all;
    }

    /** What the objects of the class have, and may be changed. */
    public void setVariables(List<Field> all) {
        size = all.size();
        variables = all;
        KNOWN.put(name, this);
    }

    /** The object is copied field by field, as Object.clone does. Nothing is known of the copy. */
    static void cloned(Object copy, Object object, Cell.Place place) {
        for (Class<?> one = object.getClass(); one != null; one = one.getSuperclass()) {
            Type type = KNOWN.get(one.getName());
            if (type != null) {
                type.separate(copy, object, place);
            }
        }
    }

    private void separate(Object copy, Object object, Cell.Place place) {
        long at = offset == UNKNOWN ? find(object) : offset;
        if (at != NONE) {
            UNSAFE.putReference(copy, at, null);
        }
        for (Field one : variables) {
            if (Traced.isOn() && cellOf(object, one) instanceof Cell cell) {
                cell.touch(place);
            }
        }
    }

    /** What is known of a variable of the object. */
    Object cellOf(Object object, Field field) {
        Object[] known = cellsOf(object);
        Object cell = known[field.index];
        if (cell == null) {
            synchronized (known) {
                cell = known[field.index];
                if (cell == null) {
                    cell = field.newCell();
                    UNSAFE.storeFence(); // Others see it whole.
                    known[field.index] = cell;
                }
            }
        }
        return cell;
    }

    private Object[] cellsOf(Object object) {
        long at = offset;
        if (at == UNKNOWN) {
            at = find(object);
        }
        if (at == NONE) {
            return cells.of(object, () -> new Object[size]);
        }
        Object known = UNSAFE.getReference(object, at);
        if (known == null) {
            Object[] fresh = new Object[size];
            known = UNSAFE.compareAndExchangeReference(object, at, null, fresh);
            return known == null ? fresh : (Object[]) known;
        }
        return (Object[]) known;
    }

    private long find(Object object) {
        for (Class<?> type = object.getClass(); type != null; type = type.getSuperclass()) {
            if (type.getName().equals(name)) {
                offset = offsetIn(type);
                return offset;
            }
        }
        return NONE;
    }

    private static long offsetIn(Class<?> type) {
        try {
            return UNSAFE.objectFieldOffset(type, CELLS);
        } catch (InternalError missing) {
            return NONE; // The class runs as it is.
        }
    }

    /** This thread has initialized the class. */
    void initialized() {
        initialized = Traced.mark(Watched.INITIALIZED, Traced.site());
    }

    /** This thread sees a class that is initialized. */
    void seen() {
        Place.Mark mark = initialized;
        if (mark != null && Traced.isOn() && Traced.own().seesFirst(this)) {
            Traced.take(mark, Traced.site());
        }
    }
}
