package example.hometturi.itctrace;

import example.hometturi.itctrace.Cell.Place;
import example.hometturi.itctrace.Row.Site;
import java.util.Iterator;
import java.util.LinkedHashMap;
import java.util.List;
import java.util.Map;
import java.util.stream.Collectors;
import java.util.stream.Stream;

/** The races that one test has met, and the failure that tells them. */
final class TestRaces {
    /** So many are kept at most. */
    private static final int MOST = 64;
    /** So many are told at most. */
    private static final int MOST_TOLD = 8;
    /** Whether races may be silenced by a file that this process does not read. */
    private static final boolean ARE_SILENCED_ELSEWHERE = System.getenv("ITC_TRACE_SILENCED") != null;

    /** By their lines: what else races at the same two lines is not told again. */
    private final Map<Lines, Race> races = new LinkedHashMap<>();

    private record Lines(Site before, Site after) {}

    private record Race(String thing, Run before, Run after) {
        boolean isMeant() {
            return MeantLines.has(before.place.site()) || MeantLines.has(after.place.site());
        }

        String text() {
            return Stream.of("race on " + thing, told(before.place), told(after.place), "nothing orders them").collect(Collectors.joining("\n    "));
        }

        private static String told(Place place) {
            Site site = place.site();
            return (place.writes() ? "write" : "read ") + " at " + site.function() + " (" + site + ")";
        }

        /** The two lines, as the frames of a trace. */
        Stream<StackTraceElement> frames() {
            return Stream.of(before, after).map(run -> run.place.site()).map(Race::frame);
        }

        private static StackTraceElement frame(Site site) {
            int end = site.function().lastIndexOf('.');
            String type = site.function().substring(0, Math.max(0, end));
            String file = site.file() == null ? null : site.file().substring(site.file().lastIndexOf('/') + 1);
            return new StackTraceElement(type, site.function().substring(end + 1), file, site.line());
        }
    }

    synchronized void add(Run before, Run after, String thing) {
        Site one = before.place.site();
        Site other = after.place.site();
        if (races.size() < MOST && !races.containsKey(new Lines(other, one))) {
            races.putIfAbsent(new Lines(one, other), new Race(thing, before, after));
        }
    }

    /** It has the places of the races as its trace. Null if none is told. */
    synchronized AssertionError failure() {
        List<Race> told = ARE_SILENCED_ELSEWHERE ? List.of() : races.values().stream().filter(race -> !race.isMeant()).toList();
        if (told.isEmpty()) {
            return null;
        }
        String more = told.size() > MOST_TOLD ? "\n" + (told.size() - MOST_TOLD) + " more" : "";
        String text = told.stream().limit(MOST_TOLD).map(Race::text).collect(Collectors.joining("\n", "", more));
        AssertionError failure = new AssertionError(text);
        failure.setStackTrace(told.stream().limit(MOST_TOLD).flatMap(Race::frames).toArray(StackTraceElement[]::new));
        return failure;
    }
}
