package example.hometturi.itctrace;

import example.hometturi.itctrace.Content.Form;
import java.lang.reflect.Method;
import java.lang.reflect.Modifier;
import java.util.HashSet;
import java.util.Map;
import java.util.Set;

/**
 * What the class of a collection, or of a view of one, says of it. A class of the program may have methods of its own, which the JDK's
 * may call.
 */
record Collected(Form form, boolean isOfKeys, boolean isOfEntries, boolean isByIdentity, Set<String> own, Set<String> trusted) {
    private static final String PACKAGE = "java.util.";
    /** Those of which each method is known, and what is below them, but for what it has by itself. */
    private static final Map<String, Form> FORMS =
            Map.ofEntries(
                    Map.entry(PACKAGE + "ArrayList", Form.LIST),
                    Map.entry(PACKAGE + "LinkedList", Form.LIST),
                    Map.entry(PACKAGE + "HashMap", Form.MAP),
                    Map.entry(PACKAGE + "LinkedHashMap", Form.MAP),
                    Map.entry(PACKAGE + "TreeMap", Form.MAP),
                    Map.entry(PACKAGE + "IdentityHashMap", Form.MAP),
                    Map.entry(PACKAGE + "EnumMap", Form.MAP),
                    Map.entry(PACKAGE + "HashSet", Form.BAG),
                    Map.entry(PACKAGE + "LinkedHashSet", Form.BAG),
                    Map.entry(PACKAGE + "TreeSet", Form.BAG),
                    Map.entry(PACKAGE + "RegularEnumSet", Form.BAG),
                    Map.entry(PACKAGE + "JumboEnumSet", Form.BAG),
                    Map.entry(PACKAGE + "ArrayDeque", Form.BAG),
                    Map.entry(PACKAGE + "PriorityQueue", Form.BAG));
    /** Those whose methods call none that a class below may have in their place. */
    private static final Set<String> SELF_CONTAINED =
            Set.of(PACKAGE + "ArrayList", PACKAGE + "HashMap", PACKAGE + "LinkedHashMap", PACKAGE + "HashSet", PACKAGE + "LinkedHashSet");
    /** Those of any map that call no other one. */
    private static final Set<String> SIMPLE = Set.of("get", "put", "remove", "containsKey", "size", "isEmpty", "clear");
    /** A class may have these for itself. */
    private static final Set<String> OF_ANY = Set.of("toString()", "hashCode()", "equals(Ljava/lang/Object;)", "clone()");

    private static final ClassValue<Collected> KNOWN =
            new ClassValue<>() {
                @Override
                protected Collected computeValue(Class<?> type) {
                    return collected(type);
                }
            };

    static Collected of(Object object) {
        return KNOWN.get(object.getClass());
    }

    private static Collected collected(Class<?> type) {
        Class<?> above = type;
        while (!Kinds.isOfJdk(above)) {
            above = above.getSuperclass();
        }
        String name = above.getName();
        Form form = type.isArray() ? Form.ARRAY : FORMS.getOrDefault(name, Form.WHOLE);
        boolean isOfKeys = name.contains("KeySet") || name.contains("KeyIterator") || name.contains("KeySpliterator");
        boolean isOfEntries = name.contains("EntrySet") || name.contains("EntryIterator") || name.contains("EntrySpliterator");
        Set<String> own = new HashSet<>();
        Set<String> trusted = new HashSet<>();
        try {
            for (Class<?> one = type; one != above; one = one.getSuperclass()) {
                addMethods(one, own);
            }
            for (Class<?> one = above; !own.isEmpty() && one != Object.class && !one.getSimpleName().startsWith("Abstract"); one = one.getSuperclass()) {
                addMethods(one, trusted);
            }
        } catch (LinkageError missing) {
            form = Form.WHOLE;
        }
        trusted.removeIf(one -> !SELF_CONTAINED.contains(name) && !(form(name) == Form.MAP && SIMPLE.contains(one.substring(0, one.indexOf('(')))));
        return new Collected(form, isOfKeys, isOfEntries, name.equals(PACKAGE + "IdentityHashMap"), Set.copyOf(own), Set.copyOf(trusted));
    }

    private static Form form(String name) {
        return FORMS.getOrDefault(name, Form.WHOLE);
    }

    private static void addMethods(Class<?> type, Set<String> names) {
        for (Method method : type.getDeclaredMethods()) {
            if (!Modifier.isStatic(method.getModifiers()) && !Modifier.isPrivate(method.getModifiers())) {
                names.add(method.getName() + taken(method));
            }
        }
    }

    /** What the method takes, as a class file has it. */
    private static String taken(Method method) {
        StringBuilder text = new StringBuilder("(");
        for (Class<?> one : method.getParameterTypes()) {
            text.append(one.descriptorString());
        }
        return text.append(")").toString();
    }

    private static String signature(String method, String descriptor) {
        return method + descriptor.substring(0, descriptor.indexOf(')') + 1);
    }

    /** Whether a call of the method reaches one of the program, which calls the JDK by itself if it does. */
    boolean overrides(String method, String descriptor) {
        return !own.isEmpty() && own.contains(signature(method, descriptor));
    }

    /** Whether the method of the JDK does by itself what it does, and calls no other one that the program has in its place. */
    boolean isSure(String method, String descriptor) {
        String signature = own.isEmpty() ? "" : signature(method, descriptor);
        return own.isEmpty() || trusted.contains(signature) || own.stream().allMatch(one -> one.equals(signature) || OF_ANY.contains(one) || !isOfCollections(one));
    }

    private static boolean isOfCollections(String signature) {
        return Deed.isKnown(signature.substring(0, signature.indexOf('(')));
    }

    /** Whether a method of another object that gets this one may call one of the program. */
    boolean mayCallOwn() {
        return own.stream().anyMatch(Collected::isOfCollections);
    }
}
