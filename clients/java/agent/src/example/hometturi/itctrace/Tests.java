package example.hometturi.itctrace;

import example.hometturi.itctrace.Row.Site;
import java.net.URLDecoder;
import java.nio.charset.StandardCharsets;
import java.util.ArrayDeque;
import java.util.Deque;
import java.util.Map;
import java.util.Optional;
import java.util.concurrent.ConcurrentHashMap;
import java.util.regex.MatchResult;
import java.util.regex.Pattern;
import java.util.stream.Collectors;

/**
 * What a runner of tests calls by the agent. Each test is a task of its own, and comes before what its thread does
 * behind it. It fails by a race of its own.
 */
public final class Tests {
    private static final ThreadLocal<Deque<Running>> RUNNING = ThreadLocal.withInitial(ArrayDeque::new);
    /** What each test that runs has met, by its name. */
    private static final Map<String, TestRaces> MET = new ConcurrentHashMap<>();
    /** A part of an identity, as in {@code [engine:junit-jupiter]/[class:ShopTest]/[method:sells()]}. */
    private static final Pattern PART = Pattern.compile("\\[([^:\\]]+):([^\\]]*)\\]");

    private Tests() {}

    /** A test, its task, and what its thread was before. */
    private record Running(String identity, Task task, Task before) {}

    /** A runner is there. */
    public static void begin() {
        Task.keepLuck();
    }

    public static void begins(boolean isTest, String identity) {
        if (isTest && Traced.isOn()) {
            String name = nameOf(identity);
            Task task = Traced.tracer().spawnTest(Traced.current(), name);
            MET.put(name, new TestRaces());
            RUNNING.get().push(new Running(identity, task, Traced.become(task)));
        }
    }

    /** Gives the failure by the races that it has met. Null if there are none. */
    public static Throwable ends(boolean isTest, String identity) {
        Running running = isTest ? RUNNING.get().peek() : null;
        if (running == null || !running.identity.equals(identity)) {
            return null;
        }
        RUNNING.get().pop();
        Traced.end(running.task, running.before);
        Traced.join(running.task, Site.NONE);
        TestRaces met = MET.remove(running.task.test);
        return met == null ? null : met.failure();
    }

    /** Whether a test fails by its race alone. What it has thrown itself stays the first. */
    public static boolean isFirst(Optional<Throwable> thrown, Throwable race) {
        thrown.filter(first -> race != null).ifPresent(first -> first.addSuppressed(race));
        return thrown.isEmpty() && race != null;
    }

    /** The two may race at the thing of this number. If they do, and one test alone has a part in it, that one has met it. */
    static void meet(Run before, Run after, Touched things, int index) {
        String test = before.task.test == null ? after.task.test : before.task.test;
        boolean isOfOne = test != null && (after.task.test == null || after.task.test.equals(test));
        TestRaces met = isOfOne ? MET.get(test) : null;
        if (met != null && after.surelyRacesWith(before)) {
            met.add(before, after, things.watching(index, after.place).called().name());
        }
    }

    /** The class and the method, without the engine. */
    static String nameOf(String identity) {
        return PART.matcher(identity)
                .results()
                .filter(part -> !part.group(1).equals("engine"))
                .map(Tests::valueOf)
                .collect(Collectors.joining("."));
    }

    private static String valueOf(MatchResult part) {
        return URLDecoder.decode(part.group(2), StandardCharsets.UTF_8);
    }
}
