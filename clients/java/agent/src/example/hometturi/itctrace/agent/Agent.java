package example.hometturi.itctrace.agent;

import example.hometturi.itctrace.Watched;
import java.lang.instrument.ClassFileTransformer;
import java.lang.instrument.Instrumentation;
import java.lang.instrument.UnmodifiableClassException;
import java.security.ProtectionDomain;
import java.util.Map;
import java.util.Set;

/** Has the classes of a program be watched, by {@code java -javaagent:itc-trace-agent.jar}. */
public final class Agent {
    /** Whether a class of the JDK runs as it is. Then no order is known, and all that a program does would look like a race. */
    private static volatile boolean hasFailed;

    private Agent() {}

    public static void begin(String options, Instrumentation instrumentation) {
        Watching watching;
        try {
            watching = new Watching(options);
        } catch (IllegalArgumentException wrong) {
            System.err.println("itc_trace: " + wrong.getMessage());
            System.exit(2);
            return;
        }
        open(instrumentation);
        if (Watched.isOn()) {
            Watched.keepAges();
            instrumentation.addTransformer(new OfTheJdk(), true);
            instrumentation.addTransformer(new OfFutures(), true);
            instrumentation.addTransformer(new OfHandovers(), true);
            instrumentation.addTransformer(new OfMonitors(), true);
            instrumentation.addTransformer(new OfRequests(), true);
            for (Class<?> type : OfTheJdk.CLASSES) {
                retransform(instrumentation, type);
            }
            for (Class<?> type : OfFutures.CLASSES) {
                retransform(instrumentation, type);
            }
            for (Class<?> type : instrumentation.getAllLoadedClasses()) {
                String name = type.getName().replace('.', '/');
                if (OfHandovers.isOfThese(name) || OfMonitors.isOfThese(name) || OfRequests.isOfThese(name)) {
                    retransform(instrumentation, type);
                }
            }
            if (hasFailed) {
                Watched.unwatched("the agent does not know the classes of JDK " + Runtime.version().feature());
            } else {
                instrumentation.addTransformer(new OfTheProgram(watching));
                instrumentation.addTransformer(new OfTests());
            }
        }
    }

    /** The agent looks for the place of a field in an object, as the JDK does, and writes a header into a request. */
    private static void open(Instrumentation instrumentation) {
        Set<Module> own = Set.of(Agent.class.getModule());
        Map<String, Set<Module>> opened = Map.of("jdk.internal.misc", own, "sun.net.www", own);
        instrumentation.redefineModule(Object.class.getModule(), Set.of(), opened, Map.of(), Set.of(), Map.of());
    }

    private static void retransform(Instrumentation instrumentation, Class<?> type) {
        try {
            instrumentation.retransformClasses(type);
        } catch (UnmodifiableClassException | LinkageError failure) {
            unfollowed(type.getName(), failure);
        }
    }

    /** A class of the JDK runs as it is. */
    static void unfollowed(String name, Throwable why) {
        if (!hasFailed) {
            unwatched(name, why);
        }
        hasFailed = true;
    }

    /** A class runs as it is. */
    static void unwatched(String name, Throwable why) {
        String reason = why.getMessage() == null ? why.getClass().getSimpleName() : why.getMessage();
        Watched.unwatched(name, reason);
    }

    /** Rewrites the classes of the program as they are loaded. */
    private static final class OfTheProgram implements ClassFileTransformer {
        private final Watching watching;
        private final Classes classes;

        OfTheProgram(Watching watching) {
            this.watching = watching;
            classes = new Classes(watching);
        }

        @Override
        public byte[] transform(Module module, ClassLoader loader, String name, Class<?> before, ProtectionDomain domain, byte[] bytes) {
            boolean isDue = before == null && name != null && watching.hasName(name);
            boolean isWatched = isDue && !Watching.isOfJdk(loader);
            if (isDue && !isWatched && !module.isNamed()) {
                Watched.unwatched(name.replace('/', '.'), "it is loaded as a class of the JDK");
            }
            try {
                return isWatched ? Rewriter.rewritten(classes, loader, name, bytes) : null;
            } catch (RuntimeException | LinkageError failure) {
                unwatched(name.replace('/', '.'), failure);
                return null;
            }
        }
    }
}
