package example.hometturi.itctrace;

import example.hometturi.itctrace.EntryOrder.Change;
import example.hometturi.itctrace.Row.Site;
import java.lang.reflect.Method;
import java.lang.reflect.Modifier;
import java.util.Arrays;
import java.util.List;
import java.util.Map;
import java.util.Set;
import java.util.SortedMap;
import java.util.SortedSet;
import java.util.UUID;
import java.util.concurrent.ConcurrentHashMap;
import java.util.concurrent.ConcurrentSkipListMap;
import java.util.concurrent.ConcurrentSkipListSet;
import java.util.function.BiFunction;
import java.util.function.Function;
import java.util.function.Supplier;
import jdk.internal.misc.Unsafe;

/**
 * What a call of a concurrent map or set of the JDK has before it and behind it: who sees an entry comes after who has
 * put it.
 */
public final class Entries {
    private static final Unsafe UNSAFE = Unsafe.getUnsafe();
    private static final Keyed<MapOrder> ORDERS = new Keyed<>();
    private static final Set<Class<?>> CLASSES =
            Set.of(ConcurrentHashMap.class, ConcurrentSkipListMap.class, ConcurrentSkipListSet.class);

    /** What a call does. The agent names it by its number. */
    public enum Does {
        SEES,
        /** It gives what was there, or null. */
        PUTS,
        PUTS_IF_ABSENT,
        /** It has changed the entry if it gives something, or true. */
        CHANGES,
        COMPUTES,
        MERGES,
        SEES_ALL,
        CHANGES_ALL;

        /** By the method's name. */
        public static Does of(String method) {
            return switch (method) {
                case "get", "getOrDefault", "containsKey", "contains" -> SEES;
                case "put" -> PUTS;
                case "putIfAbsent" -> PUTS_IF_ABSENT;
                case "replace", "remove", "add" -> CHANGES;
                case "compute", "computeIfAbsent", "computeIfPresent" -> COMPUTES;
                case "merge" -> MERGES;
                case "putAll", "clear", "addAll", "removeAll", "retainAll", "removeIf", "replaceAll", "pollFirst",
                        "pollLast", "pollFirstEntry", "pollLastEntry" ->
                        CHANGES_ALL;
                default -> SEES_ALL;
            };
        }

        public boolean isOfKey() {
            return compareTo(SEES_ALL) < 0;
        }

        /** The same if nobody knows of which key it is. */
        Does toAll() {
            return this == SEES ? SEES_ALL : isOfKey() ? CHANGES_ALL : this;
        }
    }

    private static final Does[] ALL = Does.values();

    private Entries() {}

    /** Where an object of this class has its map. 0 if it is one, and below zero if it has none. */
    private static final ClassValue<Long> OFFSETS =
            new ClassValue<>() {
                @Override
                protected Long computeValue(Class<?> type) {
                    return offsetIn(type);
                }
            };

    private static long offsetIn(Class<?> type) {
        if (CLASSES.stream().anyMatch(one -> one.isAssignableFrom(type))) {
            return 0;
        }
        for (Class<?> one = type; one != null; one = one.getSuperclass()) {
            String field = one.getEnclosingClass() == ConcurrentHashMap.class ? "map" : SHOWING.get(one.getName());
            if (field != null) {
                try {
                    return UNSAFE.objectFieldOffset(one, field);
                } catch (InternalError missing) {
                    continue;
                }
            }
        }
        return -1;
    }

    /** Whether the class is one of those maps and sets, or of their views and iterators. */
    static boolean isOfThose(Class<?> type) {
        return OFFSETS.get(type) >= 0;
    }

    private static Object mapOf(Object object) {
        long offset = object == null ? -1 : OFFSETS.get(object.getClass());
        if (offset <= 0) {
            return offset < 0 ? null : object;
        }
        return mapOf(UNSAFE.getReference(object, offset));
    }

    /** What one of these of {@code Collections} shows, if it is a concurrent map or a part of one. */
    private static final Map<String, String> SHOWING =
            Map.of(
                    "java.util.Collections$SetFromMap", "m", "java.util.Collections$UnmodifiableMap", "m",
                    "java.util.Collections$UnmodifiableCollection", "c");

    /** Whether nobody notices that a key is compared once more, by its class. */
    private static final ClassValue<Boolean> IS_QUIET =
            new ClassValue<>() {
                @Override
                protected Boolean computeValue(Class<?> type) {
                    return isQuiet(type);
                }
            };

    private static boolean isQuiet(Class<?> type) {
        String name = type.getName();
        boolean isOfJdk = List.of("java.lang.", "java.time.", "java.math.").stream().anyMatch(name::startsWith);
        if (isOfJdk || type == UUID.class || type.isPrimitive() || type.isEnum() || Enum.class.isAssignableFrom(type)) {
            return true;
        }
        try {
            Method hash = type.getMethod("hashCode");
            Method equals = type.getMethod("equals", Object.class);
            if (hash.getDeclaringClass() == Object.class && equals.getDeclaringClass() == Object.class) {
                return true;
            }
            // The methods that javac gives a record are final.
            boolean isPlain = Modifier.isFinal(hash.getModifiers()) && Modifier.isFinal(equals.getModifiers());
            return type.isRecord() && isPlain && Arrays.stream(type.getRecordComponents()).allMatch(one -> isSurelyQuiet(one.getType()));
        } catch (ReflectiveOperationException | LinkageError unknown) {
            return false;
        }
    }

    private static boolean isSurelyQuiet(Class<?> type) {
        boolean isOnly = type.isPrimitive() || Modifier.isFinal(type.getModifiers()) || type.isEnum();
        return isOnly && isQuiet(type);
    }

    private static boolean isKnownBy(Object map, Object key) {
        boolean isOrdered = map instanceof SortedMap<?, ?> sorted && sorted.comparator() != null
                || map instanceof SortedSet<?> all && all.comparator() != null;
        return key != null && !isOrdered && IS_QUIET.get(key.getClass());
    }

    /** A call of a map that goes on. */
    private static final class Going {
        private final Does does;
        private final MapOrder order;
        private final Object key;
        private final Site site;
        private EntryOrder entry;
        private Change change;

        Going(Does does, MapOrder order, Object key, Site site) {
            this.does = does;
            this.order = order;
            this.key = key;
            this.site = site;
        }

        private void see(boolean isThere) {
            EntryOrder known = entry != null ? entry : order.known(key);
            order.whole().see(isThere, site);
            if (known != null) {
                known.see(isThere, site);
            }
        }

        private void begin() {
            entry = order.of(key);
            change = entry.begin(site);
        }

        private void end(boolean isChanged, boolean isThere) {
            if (isChanged) {
                order.whole().see(true, site);
                entry.end(change, site);
            } else {
                entry.drop(change);
                see(isThere);
            }
        }

        /** Another thread sees what the function did once the map has what it gives. */
        <T> T computed(Supplier<T> function) {
            entry = entry == null ? order.of(key) : entry;
            entry.drop(change);
            change = null;
            see(true);
            try {
                return function.get();
            } catch (RuntimeException | Error thrown) {
                Watched.strip(thrown);
                throw thrown;
            } finally {
                entry.end(null, site);
            }
        }
    }

    /** Gives what {@code called} needs. Null if the object is none of those. */
    public static Object calling(Object object, Object key, int does, int call) {
        Object map = object == null || !Traced.isOn() ? null : mapOf(object);
        if (map == null) {
            return null;
        }
        Does kind = ALL[does];
        MapOrder order = ORDERS.of(map, MapOrder::new);
        boolean isOfKey = kind.isOfKey() && isKnownBy(map, key);
        boolean isShared = order.isUsedBySeveral(Traced.own().task());
        if (kind.isOfKey() && isShared && !(isOfKey && order.hasRoom(key))) {
            Watched.passes(call);
        }
        Site site = Watched.siteOf(call);
        Going going = new Going(isOfKey ? kind : kind.toAll(), order, key, site);
        if (going.does == Does.CHANGES_ALL) {
            going.entry = order.whole();
            going.change = going.entry.begin(site);
            order.seeAll(site);
        } else if (going.does == Does.SEES_ALL) {
            order.seeAll(site);
        } else if (going.does != Does.SEES && going.does != Does.COMPUTES) {
            going.begin();
        }
        return going;
    }

    public static void called(Object result, Object going) {
        if (going instanceof Going one && Traced.isOn()) {
            called(one, result != null);
        }
    }

    public static void called(boolean result, Object going) {
        if (going instanceof Going one && Traced.isOn()) {
            called(one, result);
        }
    }

    public static void called(Object going) {
        called(true, going);
    }

    private static void called(Going going, boolean isThere) {
        switch (going.does) {
            case SEES, COMPUTES -> going.see(isThere);
            case PUTS -> going.end(true, true);
            case PUTS_IF_ABSENT -> going.end(!isThere, true);
            case CHANGES -> going.end(isThere, isThere);
            case MERGES -> {
                if (going.change != null) {
                    going.end(true, true);
                }
            }
            case SEES_ALL -> going.order.seeAll(going.site);
            case CHANGES_ALL -> {
                going.order.seeAll(going.site);
                going.entry.end(going.change, going.site);
            }
        }
    }

    /** An iterator has given something. */
    public static void stepped(Object iterator) {
        Object map = iterator == null || !Traced.isOn() ? null : mapOf(iterator);
        MapOrder order = map == null ? null : ORDERS.known(map);
        if (order != null) {
            order.seeAll(Traced.site());
        }
    }

    public static <T, R> Function<T, R> ordered(Function<T, R> function, Object going) {
        return function != null && going instanceof Going one && one.does.isOfKey()
                ? given -> one.computed(() -> function.apply(given))
                : function;
    }

    public static <T, U, R> BiFunction<T, U, R> ordered(BiFunction<T, U, R> function, Object going) {
        return function != null && going instanceof Going one && one.does.isOfKey()
                ? (given, other) -> one.computed(() -> function.apply(given, other))
                : function;
    }
}
