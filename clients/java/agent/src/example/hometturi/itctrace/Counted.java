package example.hometturi.itctrace;

import java.util.concurrent.atomic.LongAdder;

/** What the last line of a run counts: the things that two tasks have touched, and the lines that have touched each of them. */
final class Counted {
    private static final LongAdder THINGS = new LongAdder();
    private static final LongAdder PLACES = new LongAdder();

    private Counted() {}

    /** A second task touches a thing that these lines have touched. */
    static void addThing(int lines) {
        THINGS.increment();
        PLACES.add(lines);
    }

    /** One more line touches such a thing. */
    static void addLine() {
        PLACES.increment();
    }

    /** What the journal of this process says of it. */
    static String row(String process) {
        return Row.lookedAt(process, THINGS.sum(), PLACES.sum());
    }
}
