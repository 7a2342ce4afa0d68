package example.hometturi.itctrace;

import java.lang.ref.Reference;
import java.lang.ref.ReferenceQueue;
import java.lang.ref.WeakReference;
import java.math.BigInteger;
import java.time.Duration;
import java.time.Instant;
import java.time.LocalDate;
import java.util.ArrayDeque;
import java.util.ArrayList;
import java.util.Collections;
import java.util.Comparator;
import java.util.Deque;
import java.util.HashMap;
import java.util.List;
import java.util.Map;
import java.util.Set;
import java.util.SortedMap;
import java.util.UUID;
import jdk.internal.vm.annotation.DontInline;

/**
 * The numbers of the keys of a map. A key of the program is told by what it is, if its class does not say that it may equal another one.
 * Such an object is kept from nothing. What only the program can compare has no number.
 */
final class Keys {
    static final int UNKNOWN = -1;

    private static final Object NULL = new Object();
    private static final int MOST_LETTERS = 40;

    /** Of these two are one key if they are equal. No code of the program compares them. */
    private static final Set<Class<?>> VALUES =
            Set.of(
                    String.class, Integer.class, Long.class, Short.class, Byte.class, Character.class, Boolean.class, Double.class, Float.class,
                    BigInteger.class, UUID.class, LocalDate.class, Instant.class, Duration.class);

    /** Whether two objects of a class are never equal. */
    private static final ClassValue<Boolean> IS_BY_IDENTITY =
            new ClassValue<>() {
                @Override
                protected Boolean computeValue(Class<?> type) {
                    try {
                        Class<?> comparing = type.getMethod("equals", Object.class).getDeclaringClass();
                        return comparing == Object.class || comparing == Enum.class;
                    } catch (NoSuchMethodException | LinkageError missing) {
                        return false;
                    }
                }
            };

    /** Whether two keys are one to the map only if they are equal. */
    private final boolean hasPlainOrder;
    private final boolean isByIdentity;
    /** Whether what tells two keys apart is their order. */
    private final boolean isSorted;
    private final Map<Object, Numbered> numbers = new HashMap<>();
    private final List<Numbered> inOrder = new ArrayList<>();
    private final Deque<Integer> free = new ArrayDeque<>();
    private final ReferenceQueue<Object> gone = new ReferenceQueue<>();
    private long serials;

    /** The number of a key, and what tells the key from others that had the number before. */
    private record Numbered(int number, long serial, Object known) {}

    /** An object that is told by what it is. */
    private static final class Identity extends WeakReference<Object> {
        private final int hash;

        Identity(Object object, ReferenceQueue<Object> gone) {
            super(object, gone);
            hash = System.identityHashCode(object);
        }

        @Override
        public boolean equals(Object other) {
            return this == other || other instanceof Identity one && get() != null && get() == one.get();
        }

        @Override
        public int hashCode() {
            return hash;
        }
    }

    private Keys(Object map, Collected collected) {
        hasPlainOrder = hasPlainOrder(map, collected);
        isByIdentity = collected.isByIdentity();
        isSorted = map instanceof SortedMap;
    }

    /** Those of an object, if it is a map. Null of others. */
    static Keys of(Object object) {
        Collected collected = Collected.of(object);
        return collected.form() == Content.Form.MAP ? new Keys(object, collected) : null;
    }

    private static boolean hasPlainOrder(Object map, Collected collected) {
        if (!(map instanceof SortedMap<?, ?> sorted)) {
            return true;
        }
        if (collected.overrides("comparator", "()")) {
            return false;
        }
        Comparator<?> order = sorted.comparator();
        return order == null || order == Collections.reverseOrder() || order == Comparator.naturalOrder();
    }

    /** The number of the key. */
    @DontInline
    synchronized int number(Object key) {
        Object known = known(key);
        if (known == null) {
            return UNKNOWN;
        }
        Numbered one = numbers.get(known);
        if (one == null) {
            forgetGone();
            boolean isLast = free.isEmpty();
            one = new Numbered(isLast ? inOrder.size() : free.poll(), ++serials, known);
            numbers.put(known, one);
            if (isLast) {
                inOrder.add(one);
            } else {
                inOrder.set(one.number, one);
            }
        }
        return one.number;
    }

    /** Whether the map has a key that no code of the program compares. Of others it is taken to have them. */
    boolean mayHave(Map<?, ?> map, Object key) {
        boolean isPlain = hasPlainOrder && key != null && (VALUES.contains(key.getClass()) || key instanceof Enum || key instanceof Class);
        return !isPlain || !Kinds.isOfJdk(map.getClass()) || map.containsKey(key);
    }

    /** The key is in the map no more. Gives the number that it had. It is of no key until it is given back. */
    synchronized int remove(Object key) {
        Object known = known(key);
        Numbered one = known == null ? null : numbers.remove(known);
        if (one != null) {
            inOrder.set(one.number, null);
        }
        return one == null ? UNKNOWN : one.number;
    }

    /** Nothing is known of what has had the number. */
    synchronized void giveBack(int number) {
        free.add(number);
    }

    /** None of the keys is known any more. */
    synchronized void clear() {
        numbers.clear();
        inOrder.clear();
        free.clear();
    }

    private void forgetGone() {
        for (Reference<?> old = gone.poll(); old != null; old = gone.poll()) {
            numbers.remove(old); // Its number stays its own: something may be known of it.
        }
    }

    private Object known(Object key) {
        if (!hasPlainOrder) {
            return null;
        }
        if (key == null) {
            return NULL;
        }
        if (!isByIdentity && VALUES.contains(key.getClass())) {
            return key;
        }
        boolean isAlone = isSorted ? key instanceof Enum : isByIdentity || IS_BY_IDENTITY.get(key.getClass());
        return isAlone ? new Identity(key, gone) : null;
    }

    /** The key of this number, as a person reads it, and what tells it from others. */
    record Named(String key, long serial) {}

    /** If no key has the number, it is the other one. */
    synchronized Named named(int number, String other) {
        Numbered one = number < inOrder.size() ? inOrder.get(number) : null;
        return one == null ? new Named(other, 0) : new Named(shown(one.known, other), one.serial);
    }

    private static String shown(Object known, String other) {
        Object key = known instanceof Identity one ? one.get() : known;
        if (key == NULL) {
            return "null";
        }
        if (key instanceof String text) {
            return '"' + (text.length() > MOST_LETTERS ? text.substring(0, MOST_LETTERS) + ".." : text) + '"';
        }
        if (key instanceof Enum<?> constant) {
            return constant.name();
        }
        if (key instanceof Class<?> type) {
            return type.getName();
        }
        return key == null ? other : VALUES.contains(key.getClass()) ? key.toString() : "a " + key.getClass().getSimpleName();
    }
}
