package example.hometturi.itctrace;

import java.util.Arrays;
import java.util.HashMap;
import java.util.Map;
import java.util.stream.Collectors;

/** The names of the tasks and the messages of a process, short and readable. Each begins with the same prefix, and none comes twice. */
final class Names {
    /** So many names that the program has given are known at most. Later ones have a number. */
    private static final int MOST_HINTS = 8192;

    final String prefix;
    /** The highest number that each name has. One that is numbered itself is kept by the name that it was made of. */
    private final Map<String, Integer> known = new HashMap<>();

    Names(String prefix, String taken) {
        this.prefix = prefix;
        known.put(taken, 1);
    }

    /** A name for a task, by what it may be called. */
    String fresh(String hint) {
        int room = Environment.MOST_NAME - prefix.length();
        String base = cleaned(hint, room);
        if (!known.containsKey(base)) {
            if (known.size() >= MOST_HINTS) {
                base = "task"; // So many names are not kept.
            } else if (!isNumbered(base)) {
                known.put(base, 1);
                return prefix + base;
            }
        }
        for (int number = 2; ; number++) {
            String digits = "_" + number;
            String stem = base.substring(0, Math.min(base.length(), room - digits.length()));
            int highest = known.getOrDefault(stem, 0);
            if (number <= highest) {
                number = highest;
                continue;
            }
            known.put(stem, number);
            if (!known.containsKey(stem + digits)) {
                return prefix + stem + digits;
            }
        }
    }

    /** Whether a task was given the name with a number: work_2 is the second one that is called work. */
    private boolean isNumbered(String base) {
        int place = base.lastIndexOf('_');
        if (place < 1 || !base.substring(place + 1).matches("[1-9][0-9]{0,8}")) {
            return false;
        }
        int number = Integer.parseInt(base.substring(place + 1));
        return number > 1 && known.getOrDefault(base.substring(0, place), 0) >= number;
    }

    /** A name with this number, which no other message has. */
    String numbered(String hint, long number) {
        String digits = "_" + number;
        int room = Environment.MOST_NAME - prefix.length() - digits.length();
        return prefix + hint.substring(0, Math.min(room, hint.length())) + digits;
    }

    private static String cleaned(String hint, int room) {
        String letters = Arrays.stream(hint.split("[^A-Za-z0-9]+")).filter(word -> !word.isEmpty()).collect(Collectors.joining("_"));
        String cut = letters.substring(0, Math.min(room, letters.length())).replaceAll("_+$", "");
        return cut.isEmpty() ? "task" : cut;
    }
}
