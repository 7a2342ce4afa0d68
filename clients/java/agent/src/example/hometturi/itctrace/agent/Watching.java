package example.hometturi.itctrace.agent;

import java.util.ArrayList;
import java.util.List;
import java.util.Map;
import java.util.concurrent.ConcurrentHashMap;

/** Which classes are watched: those of the program, and of them those that the options name. */
final class Watching {
    private static final ClassLoader PLATFORM = ClassLoader.getPlatformClassLoader();
    private static final List<String> OF_THE_JDK = List.of("java/", "jdk/", "sun/", "example/hometturi/itctrace/");
    /** What begins so may be of the JDK, or of the program. */
    private static final List<String> MAYBE_OF_THE_JDK = List.of("javax/", "com/sun/", "org/", "netscape/");
    private static final Map<String, Boolean> FOUND = new ConcurrentHashMap<>();

    private final List<String> watched = new ArrayList<>();
    private final List<String> excluded = new ArrayList<>();

    /** The options of the agent: {@code watch=PACKAGE}, {@code exclude=PACKAGE}, with commas between. */
    Watching(String options) {
        for (String option : options == null || options.isEmpty() ? new String[0] : options.split(",")) {
            String name = option.substring(option.indexOf('=') + 1).replace('.', '/');
            if (option.startsWith("watch=") && !name.isEmpty()) {
                watched.add(name);
            } else if (option.startsWith("exclude=") && !name.isEmpty()) {
                excluded.add(name);
            } else {
                throw new IllegalArgumentException(option + " is no option of the agent: it has watch=PACKAGE and exclude=PACKAGE");
            }
        }
    }

    static boolean isOfJdk(String name) {
        return name == null
                || OF_THE_JDK.stream().anyMatch(name::startsWith)
                || MAYBE_OF_THE_JDK.stream().anyMatch(name::startsWith) && FOUND.computeIfAbsent(name, Watching::isFoundInJdk);
    }

    private static boolean isFoundInJdk(String name) {
        return PLATFORM.getResource(name + ".class") != null;
    }

    static boolean isOfJdk(ClassLoader loader) {
        return loader == null || loader == PLATFORM;
    }

    boolean hasName(String name) {
        return !isOfJdk(name) && (watched.isEmpty() || isIn(watched, name)) && !isIn(excluded, name);
    }

    private static boolean isIn(List<String> packages, String name) {
        return packages.stream().anyMatch(one -> name.equals(one) || name.startsWith(one + "/") || name.startsWith(one + "$"));
    }
}
