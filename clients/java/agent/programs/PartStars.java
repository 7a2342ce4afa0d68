import java.io.ByteArrayInputStream;
import java.io.IOException;
import java.io.UncheckedIOException;
import java.util.AbstractList;
import java.util.ArrayList;
import java.util.Collections;
import java.util.HashMap;
import java.util.List;
import java.util.Map;
import java.util.TreeMap;
import java.util.concurrent.CountDownLatch;

/** Programs that touch parts that nobody tells apart. Each line that says so in a comment is named as not looked into. */
public final class PartStars {
    static void both(Runnable one, Runnable other) throws InterruptedException {
        Thread alice = new Thread(one, "alice");
        Thread bob = new Thread(other, "bob");
        alice.start();
        bob.start();
        alice.join();
        bob.join();
    }

    record Point(int x, int y) {}

    static void comparedByOthers() throws InterruptedException {
        Map<Point, String> names = new HashMap<>();
        names.put(new Point(1, 2), "one");
        names.put(new Point(3, 4), "two");
        both(
                () -> names.replace(new Point(1, 2), "three"), // star: comparedByOthers
                () -> System.out.println(names.get(new Point(3, 4)))); // star: comparedByOthers
    }

    static void orderedByOthers() throws InterruptedException {
        Map<String, Integer> stock = new TreeMap<>(String.CASE_INSENSITIVE_ORDER);
        stock.put("apple", 1);
        stock.put("pear", 2);
        both(
                () -> stock.put("Apple", 3), // star: orderedByOthers
                () -> System.out.println(stock.get("pear"))); // star: orderedByOthers
    }

    static void lookedFor() throws InterruptedException {
        List<String> names = new ArrayList<>(List.of("one", "two"));
        both(
                () -> names.set(1, "three"), // star: lookedFor
                () -> System.out.println(names.contains("one"))); // star: lookedFor
    }

    static void firstOfThem() throws InterruptedException {
        List<String> names = new ArrayList<>(List.of("one", "two"));
        both(
                () -> names.set(1, "three"), // star: firstOfThem
                () -> System.out.println(names.stream().findFirst().isPresent())); // star: firstOfThem
    }

    static void swapped() throws InterruptedException {
        List<String> names = new ArrayList<>(List.of("one", "two", "three"));
        both(
                () -> Collections.swap(names, 0, 1), // star: swapped
                () -> System.out.println(names.get(2))); // star: swapped
    }

    static void entriesForOthers() throws InterruptedException {
        Map<String, Integer> stock = new HashMap<>(Map.of("apple", 1));
        both(
                () -> stock.put("apple", 2), // star: entriesForOthers
                () -> stock.entrySet().forEach(entry -> System.out.println(entry.getKey()))); // star: entriesForOthers
    }

    static void filledByOthers() throws InterruptedException {
        byte[] buffer = new byte[8];
        both(
                () -> {
                    try {
                        new ByteArrayInputStream(new byte[3]).read(buffer); // star: filledByOthers
                    } catch (IOException failure) {
                        throw new UncheckedIOException(failure);
                    }
                },
                () -> System.out.println(buffer[7])); // star: filledByOthers
    }

    /** A list of the program's own. */
    static final class Numbers extends AbstractList<Integer> {
        private final int[] all = new int[4];

        @Override
        public Integer get(int place) {
            return all[place];
        }

        @Override
        public int size() {
            return all.length;
        }

        @Override
        public void add(int place, Integer number) {
            modCount++;
        }
    }

    static void ownList() throws InterruptedException {
        List<Integer> numbers = new Numbers();
        both(
                () -> numbers.add(7), // star: ownList
                () -> System.out.println(numbers.iterator().hasNext())); // star: ownList
    }

    /** The process ends while the other thread still works out the value. */
    static void neverOver() throws InterruptedException {
        Map<String, Integer> costs = new HashMap<>();
        CountDownLatch begun = new CountDownLatch(1);
        Thread slow =
                new Thread(
                        () ->
                                costs.computeIfAbsent( // star: neverOver
                                        "apple",
                                        name -> {
                                            begun.countDown();
                                            return lookUp(name);
                                        }));
        slow.setDaemon(true);
        slow.start();
        begun.await();
    }

    private static int lookUp(String name) {
        try {
            Thread.sleep(60_000);
        } catch (InterruptedException interrupted) {
            Thread.currentThread().interrupt();
        }
        return name.length();
    }

    private PartStars() {}

    public static void main(String[] words) throws Exception {
        PartStars.class.getDeclaredMethod(words[0]).invoke(null);
    }
}
