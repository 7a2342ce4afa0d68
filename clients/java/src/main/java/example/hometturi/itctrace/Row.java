package example.hometturi.itctrace;

import example.hometturi.itctrace.Task.HeldLock;
import java.lang.reflect.Method;
import java.math.BigDecimal;
import java.time.Instant;
import java.util.HashSet;
import java.util.List;
import java.util.Map;
import java.util.Objects;
import java.util.Set;
import java.util.concurrent.ConcurrentHashMap;
import java.util.stream.Collectors;
import java.util.stream.IntStream;

/**
 * What a journal says of one event, or of one of the touches that an event stands for. A thing is what was touched, else null. The time
 * is that of the event, in microseconds since 1970. It is 0 if another row tells it. Of a lock that was waited for with others held,
 * {@code acquired} has all of them, and that one last. It is {@code called} what a person calls it, if that is not enough to
 * tell it from others.
 */
record Row(
        String task,
        String thing,
        String kind,
        Site site,
        String label,
        List<String> held,
        Handed handed,
        List<HeldLock> acquired,
        long time,
        Called called) {
    /** The last line of a journal whose process reported all that it noted. */
    static final String END = "{\"end\":true}\n";

    private static final long MICROSECONDS = 1_000_000;
    private static final int DIGITS = 6;
    private static final int NANOSECONDS = 1_000;

    /** What a person calls a thing, what things of its kind are called, and what has made it. Null if nobody knows what has. */
    record Called(String name, String group, String made) {}

    /** An event, by its number in its part of the trace. */
    record Event(int number, int part) {
        /** The event that was taken, as the reply says. Null if it was refused. */
        static Event of(String reply) {
            String[] words = reply.split(" ");
            boolean isTaken = words[0].equals("201") && words.length > 1;
            return isTaken ? new Event(Integer.parseInt(words[1]), words.length > 2 ? Integer.parseInt(words[2]) : 1) : null;
        }
    }

    /** The lock that a message hands over. It is meant where others wait for more than the lock, as for a condition, and luck else. */
    record Handed(String lock, boolean isLuck) {}

    /** A line of the program. */
    record Site(String file, int line, String function) {
        static final Site NONE = new Site(null, 0, "");
        private static final String OWN_PACKAGE = Site.class.getPackageName() + ".";
        private static final List<String> OF_THE_JDK = List.of("java.", "jdk.", "com.sun.", "sun.");
        private static final StackWalker WALKER = StackWalker.getInstance(StackWalker.Option.RETAIN_CLASS_REFERENCE);
        private static final ClassValue<Map<Place, Site>> SITES =
                new ClassValue<>() {
                    @Override
                    protected Map<Place, Site> computeValue(Class<?> type) {
                        return new ConcurrentHashMap<>();
                    }
                };
        /** The names that several methods of a class have, and those of its constructors. Null if a class that it names is not there. */
        private static final ClassValue<Set<String>> OVERLOADED =
                new ClassValue<>() {
                    @Override
                    protected Set<String> computeValue(Class<?> type) {
                        try {
                            return overloadedOf(type);
                        } catch (LinkageError missing) {
                            return null;
                        }
                    }
                };

        /** A place in a method, by the index of its code. */
        private record Place(String method, int index) {}

        /** The line of the program that called this package, itself or by the JDK. */
        static Site ofCaller() {
            return WALKER.walk(frames -> frames.filter(frame -> isOfProgram(frame.getClassName())).findFirst())
                    .map(Site::known)
                    .orElse(NONE);
        }

        /** To look for the line takes long, so each place in a method is looked for once. Methods of the same name are not told apart. */
        private static Site known(StackWalker.StackFrame frame) {
            String method = frame.getMethodName();
            Set<String> overloaded = OVERLOADED.get(frame.getDeclaringClass());
            if (overloaded == null || overloaded.contains(method)) {
                return of(frame);
            }
            Map<Place, Site> sites = SITES.get(frame.getDeclaringClass());
            Place place = new Place(method, frame.getByteCodeIndex());
            Site known = sites.get(place);
            return known != null ? known : sites.computeIfAbsent(place, fresh -> of(frame));
        }

        private static Set<String> overloadedOf(Class<?> type) {
            Set<String> seen = new HashSet<>();
            Set<String> overloaded = new HashSet<>(Set.of("<init>"));
            for (Method method : type.getDeclaredMethods()) {
                if (!seen.add(method.getName())) {
                    overloaded.add(method.getName());
                }
            }
            return overloaded;
        }

        private static Site of(StackWalker.StackFrame frame) {
            String type = frame.getClassName();
            return new Site(fileOf(type, frame.getFileName()), frame.getLineNumber(), type + "." + frame.getMethodName());
        }

        /** The file of a class by its package, as files of two packages may have one name. Null if the class does not say its file. */
        static String fileOf(String type, String name) {
            int length = type.lastIndexOf('.') + 1;
            return name == null ? null : type.substring(0, length).replace('.', '/') + name;
        }

        private static boolean isOfProgram(String name) {
            return !name.startsWith(OWN_PACKAGE) && OF_THE_JDK.stream().noneMatch(name::startsWith);
        }

        boolean isLineOf(Site other) {
            return line == other.line && Objects.equals(file, other.file);
        }

        /** The line alone. */
        Site withoutFunction() {
            return new Site(file, line, "");
        }

        @Override
        public String toString() {
            return file + ":" + line;
        }
    }

    /** The row of an event that touches nothing, and is now. */
    static Row of(String task, String kind, Site site, String label, Handed handed) {
        return at(now(), task, kind, site, label, handed);
    }

    /** The row of an event that touched nothing, and was then. */
    static Row at(long time, String task, String kind, Site site, String label, Handed handed) {
        return new Row(task, null, kind, site, label, List.of(), handed, List.of(), time, null);
    }

    /** The same row, at this time. */
    Row withTime(long then) {
        return new Row(task, thing, kind, site, label, held, handed, acquired, then, called);
    }

    /** By the clock of this process. */
    static long now() {
        Instant now = Instant.now();
        return now.getEpochSecond() * MICROSECONDS + now.getNano() / NANOSECONDS;
    }

    /** The line of the journal. A trace that may be divided needs the task or the message that the report names. Null if it names none. */
    String text(Event event, String of) {
        StringBuilder text = new StringBuilder("{\"event\":").append(event.number);
        if (event.part > 1) {
            text.append(",\"part\":").append(event.part);
        }
        if (time > 0) {
            text.append(",\"time\":").append(BigDecimal.valueOf(time, DIGITS));
        }
        text.append(",\"task\":").append(quoted(task)).append(",\"thing\":").append(quoted(thing)).append(",\"kind\":").append(quoted(kind));
        text.append(",\"file\":").append(quoted(site.file)).append(",\"line\":").append(site.line).append(",\"label\":").append(quoted(label));
        if ((thing != null || !acquired.isEmpty()) && !site.function.isEmpty()) {
            text.append(",\"function\":").append(quoted(site.function));
        }
        if (called != null) {
            text.append(",\"name\":").append(quoted(called.name)).append(",\"group\":").append(quoted(called.group));
        }
        if (called != null && called.made != null) {
            text.append(",\"made\":").append(quoted(called.made));
        }
        if (!held.isEmpty()) {
            text.append(held.stream().map(Row::quoted).collect(Collectors.joining(",", ",\"held\":[", "]")));
        }
        appendAcquired(text);
        if (handed != null) {
            text.append(handed.isLuck ? ",\"lock\":" : ",\"guard\":").append(quoted(handed.lock));
        }
        if (of != null) {
            text.append(",\"of\":").append(quoted(of));
        }
        return text.append("}\n").toString();
    }

    private void appendAcquired(StringBuilder text) {
        if (acquired.isEmpty()) {
            return;
        }
        int last = acquired.size() - 1;
        text.append(",\"wants\":").append(quoted(acquired.get(last).lock()));
        text.append(acquired.stream().limit(last).map(one -> three(one.site())).collect(Collectors.joining(",", ",\"at\":[", "]")));
        text.append(
                IntStream.rangeClosed(0, last)
                        .filter(number -> acquired.get(number).isShared())
                        .mapToObj(Integer::toString)
                        .collect(Collectors.joining(",", ",\"shared\":[", "]")));
    }

    private static String three(Site site) {
        return "[" + quoted(site.file) + "," + site.line + "," + quoted(site.function) + "]";
    }

    /** The line that says that a child process adds to the journal. */
    static String childBegun(String tag, String how) {
        return "{\"child\":" + quoted(tag) + ",\"begun\":" + quoted(how) + "}\n";
    }

    /** The last line of a child process that reported all that it noted. */
    static String childEnded(String tag) {
        return "{\"child\":" + quoted(tag) + ",\"ended\":true}\n";
    }

    /** The whole name of a process, and what the names of its tasks begin with. */
    static String process(String name, String tag) {
        return "{\"process\":" + quoted(name) + ",\"tag\":" + quoted(tag) + "}\n";
    }

    /** The line that says what was not seen, and why. */
    static String unseen(String cause, String reason) {
        return "{\"unseen\":" + quoted(cause) + ",\"text\":" + quoted(reason) + "}\n";
    }

    /** The line that names what is done at this place, which nobody looks into. */
    static String passedOver(String what, Site site) {
        return "{\"passed_over\":" + quoted(what) + ",\"place\":" + quoted(site.toString()) + "}\n";
    }

    /** The line that says how many things several tasks of a process have touched, and how many lines each of these. */
    static String lookedAt(String process, long things, long places) {
        return "{\"looked_at\":" + quoted(process) + ",\"things\":" + things + ",\"places\":" + places + "}\n";
    }

    /** The line that says that a task is of this test. */
    static String ofTest(String task, String test) {
        return "{\"test\":" + quoted(test) + ",\"task\":" + quoted(task) + "}\n";
    }

    static String quoted(String text) {
        if (text == null) {
            return "null";
        }
        StringBuilder quoted = new StringBuilder("\"");
        for (char next : text.toCharArray()) {
            if (next == '"' || next == '\\' || next < ' ' || Character.isSurrogate(next)) {
                quoted.append(String.format("\\u%04x", (int) next));
            } else {
                quoted.append(next);
            }
        }
        return quoted.append('"').toString();
    }
}
