package example.hometturi.itctrace;

import java.util.Collection;
import java.util.HashMap;
import java.util.Iterator;
import java.util.List;
import java.util.Map;
import java.util.Set;
import java.util.stream.BaseStream;
import java.util.stream.Stream;

/**
 * What a method does with a collection, in the words of the JDK: a change of its structure is one of which keys or elements it has. Each
 * deed but NOTHING and UNKNOWN looks at the structure.
 */
enum Deed {
    NOTHING,
    /** It looks at the structure alone. */
    SHAPE,
    /** It reads all elements. */
    WHOLE,
    /** It reads some elements, and nobody knows which. */
    SOME,
    /** It reads the elements up to the one that it looks for. */
    SEARCH,
    /** It reads or writes the element of a number. */
    AT,
    SET_AT,
    FIRST,
    LAST,
    /** It changes the structure, if it throws nothing. */
    STRUCTURE,
    /** The same from its beginning on: it calls the program meanwhile. */
    SORT,
    /** It changes the structure if it says so. */
    IF_TRUE,
    /** It changes the structure if it gives something. */
    IF_GIVEN,
    /** It reads the value of a key. */
    GET,
    /** It writes the value of a key, or adds the key. */
    PUT,
    /** It reads the value of a key, or adds the key. */
    ABSENT,
    /** It writes the value of a key, adds it or removes it. */
    COMPUTE,
    REPLACE,
    REMOVE_KEY,
    PUT_ALL,
    /** It writes all elements. */
    REPLACE_ALL,
    /** It gives a copy of an entry. */
    ENTRY,
    /** It reads or writes the value of an entry. */
    VALUE,
    SET_VALUE,
    /** It goes one step on, or changes what it has come to. */
    STEP,
    SET_STEP,
    /** It may do anything. */
    UNKNOWN;

    private static final Map<String, Deed> OF_MAPS = new HashMap<>();
    private static final Map<String, Deed> OF_COLLECTIONS = new HashMap<>();
    private static final Map<String, Deed> OF_ITERATORS = new HashMap<>();
    private static final Map<String, Deed> OF_ENTRIES = new HashMap<>();
    private static final Map<String, Deed> OF_GIVEN = new HashMap<>();
    /** Stages of a stream, which look at nothing by themselves. */
    private static final Set<String> STAGES =
            Set.of(
                    "filter", "map", "mapToInt", "mapToLong", "mapToDouble", "mapToObj", "flatMap", "flatMapToInt", "flatMapToLong",
                    "flatMapToDouble", "mapMulti", "mapMultiToInt", "mapMultiToLong", "mapMultiToDouble", "distinct", "sorted", "peek", "limit",
                    "skip", "takeWhile", "dropWhile", "sequential", "parallel", "unordered", "onClose", "boxed", "asLongStream",
                    "asDoubleStream", "isParallel", "close", "iterator", "spliterator", "toString", "hashCode", "equals");
    /** What ends a stream, and looks at each element that comes. */
    private static final Set<String> ENDS =
            Set.of("collect", "forEach", "forEachOrdered", "sum", "reduce", "toList", "toArray", "average", "summaryStatistics", "min", "max");

    static {
        all(OF_MAPS, NOTHING, "keySet values entrySet navigableKeySet descendingKeySet descendingMap subMap headMap tailMap comparator getClass");
        all(OF_MAPS, SHAPE, "size isEmpty containsKey firstKey lastKey lowerKey floorKey ceilingKey higherKey");
        all(OF_MAPS, WHOLE, "forEach toString hashCode clone");
        all(OF_MAPS, SOME, "equals");
        all(OF_MAPS, GET, "get getOrDefault");
        all(OF_MAPS, PUT, "put");
        all(OF_MAPS, ABSENT, "putIfAbsent computeIfAbsent");
        all(OF_MAPS, COMPUTE, "compute computeIfPresent merge");
        all(OF_MAPS, REPLACE, "replace");
        all(OF_MAPS, REMOVE_KEY, "remove");
        all(OF_MAPS, PUT_ALL, "putAll");
        all(OF_MAPS, REPLACE_ALL, "replaceAll");
        all(OF_MAPS, SEARCH, "containsValue");
        all(OF_MAPS, STRUCTURE, "clear");
        all(OF_MAPS, ENTRY, "firstEntry lastEntry lowerEntry floorEntry ceilingEntry higherEntry");
        all(OF_MAPS, IF_GIVEN, "pollFirstEntry pollLastEntry");

        all(OF_COLLECTIONS, NOTHING, "stream parallelStream spliterator comparator descendingSet subSet headSet tailSet getClass");
        all(OF_COLLECTIONS, SHAPE, "size isEmpty iterator listIterator descendingIterator subList");
        all(OF_COLLECTIONS, SHAPE, "lower floor ceiling higher");
        all(OF_COLLECTIONS, WHOLE, "forEach toArray toString hashCode clone");
        all(OF_COLLECTIONS, SOME, "equals");
        all(OF_COLLECTIONS, AT, "get");
        all(OF_COLLECTIONS, SET_AT, "set");
        all(OF_COLLECTIONS, FIRST, "getFirst peekFirst peek element first");
        all(OF_COLLECTIONS, LAST, "getLast peekLast last");
        all(OF_COLLECTIONS, SEARCH, "contains containsAll indexOf lastIndexOf");
        all(OF_COLLECTIONS, STRUCTURE, "addFirst addLast push clear ensureCapacity trimToSize removeFirst removeLast pop");
        all(OF_COLLECTIONS, IF_TRUE, "add addAll remove removeIf removeAll retainAll removeFirstOccurrence removeLastOccurrence");
        all(OF_COLLECTIONS, IF_TRUE, "offer offerFirst offerLast");
        all(OF_COLLECTIONS, IF_GIVEN, "poll pollFirst pollLast");
        all(OF_COLLECTIONS, SORT, "sort");
        all(OF_COLLECTIONS, REPLACE_ALL, "replaceAll");

        all(OF_ITERATORS, NOTHING, "nextIndex previousIndex toString hashCode equals getClass");
        all(OF_ITERATORS, SHAPE, "hasNext hasPrevious hasMoreElements");
        all(OF_ITERATORS, STEP, "next previous nextElement");
        all(OF_ITERATORS, SET_STEP, "set");
        all(OF_ITERATORS, STRUCTURE, "remove add");
        all(OF_ITERATORS, SOME, "nextInt nextLong nextDouble forEachRemaining tryAdvance estimateSize trySplit getExactSizeIfKnown asIterator");

        all(OF_ENTRIES, NOTHING, "getKey getClass");
        all(OF_ENTRIES, VALUE, "getValue toString hashCode equals");
        all(OF_ENTRIES, SET_VALUE, "setValue");

        all(OF_GIVEN, NOTHING, "asLifoQueue newSetFromMap enumeration asList requireNonNull");
        all(OF_GIVEN, NOTHING, "unmodifiableCollection unmodifiableList unmodifiableSet unmodifiableMap unmodifiableSortedSet");
        all(OF_GIVEN, NOTHING, "unmodifiableSortedMap unmodifiableNavigableSet unmodifiableNavigableMap");
        all(OF_GIVEN, NOTHING, "checkedCollection checkedList checkedSet checkedMap checkedSortedSet checkedSortedMap checkedQueue");
        all(OF_GIVEN, NOTHING, "synchronizedCollection synchronizedList synchronizedSet synchronizedMap synchronizedSortedSet");
        all(OF_GIVEN, NOTHING, "synchronizedSortedMap synchronizedNavigableSet synchronizedNavigableMap");
        all(OF_GIVEN, WHOLE, "min max frequency copyOf join putAll addAll containsAll list");
        all(OF_GIVEN, SORT, "sort");
        all(OF_GIVEN, REPLACE_ALL, "reverse shuffle fill rotate");
    }

    private static void all(Map<String, Deed> table, Deed deed, String methods) {
        for (String method : methods.split(" ")) {
            table.put(method, deed);
        }
    }

    /** What a method of the object does. */
    static Deed of(Object object, String method, String descriptor) {
        if (object instanceof Map.Entry) {
            return OF_ENTRIES.getOrDefault(method, UNKNOWN);
        }
        if (object instanceof Map) {
            return OF_MAPS.getOrDefault(method, UNKNOWN);
        }
        if (object instanceof BaseStream) {
            return STAGES.contains(method) ? NOTHING : ENDS.contains(method) ? WHOLE : SOME;
        }
        if (object instanceof Collection) {
            return ofCollection(object, method, descriptor);
        }
        return OF_ITERATORS.getOrDefault(method, object instanceof Iterator ? UNKNOWN : SOME);
    }

    private static Deed ofCollection(Object object, String method, String descriptor) {
        boolean isByNumber = descriptor.startsWith("(I");
        boolean isOfQueue = method.equals("remove") && descriptor.startsWith("()");
        if (isOfQueue || isByNumber && (method.equals("add") || method.equals("remove"))) {
            return STRUCTURE;
        }
        if (method.equals("add") && object instanceof List) {
            return STRUCTURE;
        }
        return OF_COLLECTIONS.getOrDefault(method, UNKNOWN);
    }

    /** What a method of another object does with a collection that it gets. */
    static Deed ofGiven(String owner, String method) {
        if (method.equals("<init>") && owner.startsWith("java/util/")) {
            return WHOLE;
        }
        boolean isOfCollections = owner.startsWith("java/util/") || owner.equals("java/lang/String");
        if (owner.equals("java/util/Collections") && method.equals("addAll")) {
            return STRUCTURE;
        }
        return isOfCollections ? OF_GIVEN.getOrDefault(method, SOME) : SOME;
    }

    private boolean hasEnd() {
        return switch (this) {
            case NOTHING, SHAPE, SOME, WHOLE, UNKNOWN -> false;
            default -> true;
        };
    }

    /** Whether it may have changed something before it tells so. */
    boolean changesBefore() {
        return switch (this) {
            case STRUCTURE, IF_TRUE, IF_GIVEN, PUT, ABSENT, COMPUTE, REPLACE, REMOVE_KEY, PUT_ALL, SET_AT, SET_STEP, SET_VALUE -> true;
            default -> false;
        };
    }

    /** Those that look at each element of an array that they get, if they get no part of it. */
    private static final Set<String> LOOKING_AT_ARRAYS =
            Set.of(
                    "java/lang/String", "java/lang/StringBuilder", "java/util/Objects", "java/io/PrintStream", "java/io/PrintWriter",
                    "java/util/Collections", "java/util/List", "java/util/Set");

    /** What a method does with an array that it gets. If it gets it as any object, it only looks which one it is. */
    static Deed ofArray(Use use) {
        boolean isByReflection = use.owner.equals("java/lang/reflect/Array");
        if (use.role == Use.Role.LOOKED_INTO && !isByReflection || use.method.equals("getLength")) {
            return NOTHING;
        }
        if (use.changes) {
            return UNKNOWN;
        }
        boolean isWhole = LOOKING_AT_ARRAYS.contains(use.owner) && !use.descriptor.contains("II");
        return isWhole ? WHOLE : SOME;
    }

    /** Whether a collection, a map or an iterator has a method of this name. */
    static boolean isKnown(String method) {
        return Stream.of(OF_MAPS, OF_COLLECTIONS, OF_ITERATORS, OF_ENTRIES).anyMatch(table -> table.containsKey(method));
    }

    /** Whether a method of this name has to be looked at once it is over, as it tells then what it has done. */
    static boolean hasEnd(String method) {
        return Stream.of(OF_MAPS, OF_COLLECTIONS, OF_ITERATORS, OF_ENTRIES).anyMatch(table -> table.getOrDefault(method, UNKNOWN).hasEnd());
    }
}
