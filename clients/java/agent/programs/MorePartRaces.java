import java.util.ArrayDeque;
import java.util.ArrayList;
import java.util.Arrays;
import java.util.BitSet;
import java.util.Collections;
import java.util.Deque;
import java.util.EnumMap;
import java.util.HashMap;
import java.util.Iterator;
import java.util.List;
import java.util.Map;
import java.util.PriorityQueue;
import java.util.Queue;
import java.util.TreeMap;
import java.util.concurrent.CountDownLatch;
import java.util.concurrent.TimeUnit;

/** Further programs of which two threads touch the same element, key or shape. A line that races says so in a comment. */
public final class MorePartRaces {
    static void both(Runnable one, Runnable other) throws InterruptedException {
        Thread alice = new Thread(one, "alice");
        Thread bob = new Thread(other, "bob");
        alice.start();
        bob.start();
        alice.join();
        bob.join();
    }

    private static void quietly(Runnable body) {
        try {
            body.run();
        } catch (RuntimeException thrown) {
            System.out.println("thrown");
        }
    }

    static void upToTheEnd() throws InterruptedException {
        int[] counts = new int[4];
        both(
                () ->
                        quietly(
                                () -> {
                                    for (int place = 0; place <= counts.length; place++) {
                                        counts[place] = place; // race: upToTheEnd
                                    }
                                }),
                () -> {
                    counts[3] = 9; // race: upToTheEnd
                });
    }

    static void removedMeanwhile() throws InterruptedException {
        List<String> names = new ArrayList<>(List.of("one", "two", "three"));
        both(
                () ->
                        quietly(
                                () -> {
                                    Iterator<String> each = names.iterator();
                                    each.next();
                                    each.remove(); // race: removedMeanwhile
                                }),
                () -> System.out.println(names.get(0).length() > 9)); // race: removedMeanwhile
    }

    record Point(int x, int y) {}

    static void newKeys() throws InterruptedException {
        Map<Point, String> names = new HashMap<>();
        both(
                () -> names.put(new Point(1, 2), "one"), // race: newKeys
                () -> names.put(new Point(3, 4), "two")); // race: newKeys
    }

    static void noKey() throws InterruptedException {
        Map<String, Integer> counts = new HashMap<>();
        counts.put(null, 1);
        counts.put("apple", 1);
        both(
                () -> counts.merge(null, 1, Integer::sum), // race: noKey
                () -> System.out.println(counts.get(null) > 9)); // race: noKey
    }

    static void lowerHalf() throws InterruptedException {
        TreeMap<Integer, String> names = new TreeMap<>(Map.of(1, "one", 2, "two", 9, "nine"));
        both(
                () -> names.headMap(5).clear(), // race: lowerHalf
                () -> System.out.println(names.get(9))); // race: lowerHalf
    }

    /** The process ends while the other thread has not told yet what it has merged. */
    static void mergedLate() throws InterruptedException {
        Map<String, Integer> counts = new HashMap<>(Map.of("apple", 1));
        CountDownLatch begun = new CountDownLatch(1);
        Thread slow =
                new Thread(
                        () ->
                                counts.merge( // race: mergedLate
                                        "apple",
                                        1,
                                        (one, other) -> {
                                            begun.countDown();
                                            rest();
                                            return one + other;
                                        }));
        slow.setDaemon(true);
        slow.start();
        begun.await();
        System.out.println(counts.get("apple") > 9); // race: mergedLate
    }

    private static void rest() {
        try {
            Thread.sleep(300);
        } catch (InterruptedException interrupted) {
            Thread.currentThread().interrupt();
        }
    }

    static void twoEnds() throws InterruptedException {
        Deque<Integer> jobs = new ArrayDeque<>(List.of(1, 2, 3));
        both(
                () -> jobs.offerFirst(0), // race: twoEnds
                () -> jobs.removeLast()); // race: twoEnds
    }

    static void shifted() throws InterruptedException {
        long[] log = new long[10];
        both(
                () -> System.arraycopy(log, 0, log, 1, 5), // race: shifted
                () -> {
                    log[5] = 8; // race: shifted
                });
    }

    static void crossing() throws InterruptedException {
        int[][] cells = new int[3][3];
        both(
                () -> {
                    for (int place = 0; place < 3; place++) {
                        cells[1][place]++; // race: crossing
                    }
                },
                () -> {
                    for (int place = 0; place < 3; place++) {
                        cells[place][1]++; // race: crossing
                    }
                });
    }

    static void copiedRow() throws InterruptedException {
        char[][] board = new char[2][4];
        both(
                () -> System.out.println(board[1].clone().length), // race: copiedRow
                () -> {
                    board[1][3] = 'x'; // race: copiedRow
                });
    }

    static void replacedRow() throws InterruptedException {
        byte[][] rows = {{1}, {2}};
        both(
                () -> {
                    rows[1] = new byte[] {3}; // race: replacedRow
                },
                () -> System.out.println(rows[1].length)); // race: replacedRow
    }

    static void addedUp() throws InterruptedException {
        double[] costs = {1, 2, 3};
        both(
                () -> {
                    double sum = 0;
                    for (double cost : costs) { // race: addedUp
                        sum += cost;
                    }
                    System.out.println(sum > 99);
                },
                () -> {
                    costs[2] = 7; // race: addedUp
                });
    }

    static void summed() throws InterruptedException {
        int[] costs = {1, 2, 3};
        both(
                () -> System.out.println(Arrays.stream(costs).sum() > 99), // race: summed
                () -> {
                    costs[0] = 7; // race: summed
                });
    }

    static void sortedByOthers() throws InterruptedException {
        List<Integer> scores = new ArrayList<>(List.of(3, 1, 2));
        both(
                () -> Collections.sort(scores), // race: sortedByOthers
                () -> System.out.println(scores.get(2) > 9)); // race: sortedByOthers
    }

    static void computed() throws InterruptedException {
        Map<Integer, Integer> squares = new HashMap<>(Map.of(2, 4, 3, 9));
        both(
                () -> squares.computeIfPresent(3, (key, old) -> old + key), // race: computed
                () -> squares.computeIfPresent(3, (key, old) -> old - key)); // race: computed
    }

    static void copied() throws InterruptedException {
        List<String> names = new ArrayList<>(List.of("one", "two"));
        both(
                () -> names.set(0, "three"), // race: copied
                () -> System.out.println(List.copyOf(names).size())); // race: copied
    }

    static void part() throws InterruptedException {
        List<Integer> all = new ArrayList<>(List.of(1, 2, 3, 4));
        both(
                () -> all.subList(2, 4).set(0, 9), // race: part
                () -> System.out.println(all.get(2) > 99)); // race: part
    }

    static void oneIterator() throws InterruptedException {
        Iterator<Integer> numbers = new ArrayList<>(List.of(1, 2, 3, 4)).iterator();
        both(
                () -> System.out.println(numbers.next() > 9), // race: oneIterator
                () -> System.out.println(numbers.next() > 9)); // race: oneIterator
    }

    static void ofUnits() throws InterruptedException {
        Map<TimeUnit, Integer> counts = new EnumMap<>(Map.of(TimeUnit.DAYS, 1, TimeUnit.HOURS, 2));
        both(
                () -> counts.put(TimeUnit.DAYS, 5), // race: ofUnits
                () -> System.out.println(counts.get(TimeUnit.DAYS) > 9)); // race: ofUnits
    }

    static void bits() throws InterruptedException {
        BitSet seen = new BitSet();
        both(
                () -> seen.set(3), // race: bits
                () -> System.out.println(seen.get(64))); // race: bits
    }

    static void nextJob() throws InterruptedException {
        Queue<Integer> jobs = new PriorityQueue<>(List.of(3, 1, 2));
        both(
                () -> jobs.add(0), // race: nextJob
                () -> System.out.println(jobs.peek() > 9)); // race: nextJob
    }

    /** A worker whose own methods take arrays. */
    static final class Filler extends Thread {
        private final int[] cells;

        Filler(int[] cells) {
            this.cells = cells;
        }

        @Override
        public void run() {
            fill(cells, 1);
        }

        private void fill(int[] all, int place) {
            all[place] = place; // race: ownMethods
        }
    }

    static void ownMethods() throws InterruptedException {
        int[] cells = new int[4];
        both(new Filler(cells), new Filler(cells));
    }

    private static int turns;

    /** Under the lock alone for long, and once without it. */
    static void onceWithout() throws InterruptedException {
        Map<String, Integer> counts = new HashMap<>(Map.of("apple", 0, "pear", 0));
        Runnable count =
                () -> {
                    for (int turn = 0; turn < 200; turn++) {
                        synchronized (counts) {
                            counts.put("apple", turns++);
                            counts.put("pear", turns); // race: onceWithout
                        }
                    }
                };
        Thread late = new Thread(() -> System.out.println(counts.get("pear") > 999), "carol"); // race: onceWithout
        late.start();
        both(count, count);
        late.join();
    }

    private MorePartRaces() {}

    public static void main(String[] words) throws Exception {
        MorePartRaces.class.getDeclaredMethod(words[0]).invoke(null);
    }
}
