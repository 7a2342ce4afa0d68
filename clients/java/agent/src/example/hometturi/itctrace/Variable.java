package example.hometturi.itctrace;

import example.hometturi.itctrace.Cell.Place;
import java.lang.reflect.Modifier;
import java.util.Map;
import java.util.concurrent.ConcurrentHashMap;
import jdk.internal.misc.Unsafe;

/** What a VarHandle or an updater leads to: a field of a class that is watched, or the elements of arrays. The field is null of these. */
record Variable(Field field, Class<?> receiver) {
    private static final Unsafe UNSAFE = Unsafe.getUnsafe();
    private static final Variable ELEMENT = new Variable(null, null);
    private static final Variable UNKNOWN = new Variable(null, Object.class);

    private static final Keyed<Variable> KNOWN = new Keyed<>();
    /** The orders of fields that are not volatile themselves, by their objects. */
    private static final Keyed<Map<Field, VolatileCell>> ORDERS = new Keyed<>();

    private static final Map<Field, VolatileCell> OF_STATIC = new ConcurrentHashMap<>();

    /** Null if nobody knows what the handle leads to. */
    static Variable of(Object handle) {
        Variable known = KNOWN.of(handle, () -> find(handle));
        return known == UNKNOWN ? null : known;
    }

    private static Variable find(Object handle) {
        if (handle.getClass().getName().matches("java\\.lang\\.invoke\\.VarHandle\\w+\\$Array")) {
            return ELEMENT;
        }
        Long offset = offsetIn(handle, "fieldOffset");
        offset = offset == null ? offsetIn(handle, "offset") : offset;
        Class<?> receiver = null;
        for (String name : new String[] {"receiverType", "base", "cclass"}) {
            Long at = receiver == null ? offsetIn(handle, name) : null;
            receiver = at != null && UNSAFE.getReference(handle, at) instanceof Class<?> type ? type : receiver;
        }
        boolean isStatic = offsetIn(handle, "base") != null;
        Field field = offset == null ? null : fieldOf(receiver, UNSAFE.getLong(handle, offset), isStatic);
        return field == null ? UNKNOWN : new Variable(field, receiver);
    }

    /** Where a handle keeps this of itself. Null if it does not. */
    private static Long offsetIn(Object handle, String name) {
        for (Class<?> type = handle.getClass(); type != Object.class; type = type.getSuperclass()) {
            try {
                return UNSAFE.objectFieldOffset(type, name);
            } catch (InternalError missing) {
                continue;
            }
        }
        return null;
    }

    private static Field fieldOf(Class<?> receiver, long offset, boolean isStatic) {
        for (Class<?> type = receiver; type != null; type = type.getSuperclass()) {
            for (java.lang.reflect.Field one : type.getDeclaredFields()) {
                boolean isAlike = Modifier.isStatic(one.getModifiers()) == isStatic;
                if (isAlike && (isStatic ? UNSAFE.staticFieldOffset(one) : UNSAFE.objectFieldOffset(one)) == offset) {
                    return Type.fieldOf(type.getName(), one.getName());
                }
            }
        }
        return null;
    }

    boolean isElement() {
        return this == ELEMENT;
    }

    boolean isVolatile() {
        return field.isVolatile();
    }

    /** Whether it is one of this object, or is static. If it is not, the call throws. */
    boolean isOf(Object object) {
        return field.isStatic() || receiver.isInstance(object);
    }

    /** The order that atomic accesses give. */
    VolatileCell order(Object object) {
        if (field.isVolatile()) {
            return (VolatileCell) cell(object);
        }
        Map<Field, VolatileCell> orders = field.isStatic() ? OF_STATIC : ORDERS.of(object, ConcurrentHashMap::new);
        return orders.computeIfAbsent(field, fresh -> new VolatileCell());
    }

    private Object cell(Object object) {
        return field.isStatic() ? field.cell : field.type().cellOf(object, field);
    }

    /** This thread touches it. A volatile field is nothing that races, and nobody changes a final one. */
    void touch(Object object, Place place) {
        if (!field.isVolatile() && !field.isFinal()) {
            ((Cell) cell(object)).touch(place);
        }
    }
}
