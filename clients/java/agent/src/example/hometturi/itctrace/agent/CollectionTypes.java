package example.hometturi.itctrace.agent;

import java.io.IOException;
import java.io.InputStream;
import java.util.Arrays;
import java.util.Map;
import java.util.Set;
import java.util.concurrent.ConcurrentHashMap;
import org.objectweb.asm.ClassReader;

/** Which classes of the JDK are of collections, by the names that a class file has. No class is loaded for that, as it would have no hooks. */
final class CollectionTypes {
    private static final String PACKAGE = "java/util/";
    private static final String ENUMERATION = PACKAGE + "Enumeration";
    /** These, and all that are below them. */
    private static final Set<String> TOPS = Set.of(PACKAGE + "Collection", PACKAGE + "Map", PACKAGE + "Map$Entry", PACKAGE + "Iterator");
    private static final Map<String, Boolean> KNOWN = new ConcurrentHashMap<>();

    private CollectionTypes() {}

    /** Whether the class is one of collections, of maps, of their entries or of iterators. */
    static boolean has(String name) {
        Boolean known = KNOWN.get(name);
        if (known == null) {
            known = isOne(name);
            KNOWN.put(name, known);
        }
        return known;
    }

    private static boolean isOne(String name) {
        if (!name.startsWith(PACKAGE) || name.startsWith("java/util/concurrent/")) {
            return false; // Those give orders.
        }
        if (TOPS.contains(name) || name.equals(ENUMERATION)) {
            return true;
        }
        try (InputStream bytes = Object.class.getResourceAsStream("/" + name + ".class")) {
            return bytes != null && isBelow(new ClassReader(bytes));
        } catch (IOException | RuntimeException unreadable) {
            return false;
        }
    }

    private static boolean isBelow(ClassReader file) {
        boolean isOfInterface = Arrays.stream(file.getInterfaces()).anyMatch(one -> !one.equals(ENUMERATION) && has(one));
        return isOfInterface || file.getSuperName() != null && has(file.getSuperName());
    }
}
