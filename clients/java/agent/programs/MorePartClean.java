import java.util.ArrayDeque;
import java.util.ArrayList;
import java.util.Arrays;
import java.util.BitSet;
import java.util.Collections;
import java.util.Deque;
import java.util.EnumMap;
import java.util.HashMap;
import java.util.Iterator;
import java.util.List;
import java.util.Map;
import java.util.PriorityQueue;
import java.util.Queue;
import java.util.TreeMap;
import java.util.concurrent.CountDownLatch;
import java.util.concurrent.ExecutorService;
import java.util.concurrent.Executors;
import java.util.concurrent.Future;
import java.util.concurrent.TimeUnit;
import java.util.concurrent.locks.ReentrantLock;

/** Further programs that touch no part of an array or a collection without an order. Nothing is told or named. */
public final class MorePartClean {
    static void both(Runnable one, Runnable other) throws InterruptedException {
        Thread alice = new Thread(one, "alice");
        Thread bob = new Thread(other, "bob");
        alice.start();
        bob.start();
        alice.join();
        bob.join();
    }

    private static void quietly(Runnable body) {
        try {
            body.run();
        } catch (RuntimeException thrown) {
            System.out.println("thrown");
        }
    }

    static void outside() throws InterruptedException {
        int[] counts = new int[2];
        Runnable past = () -> quietly(() -> counts[2]++);
        both(
                () -> {
                    past.run();
                    counts[0]++;
                },
                () -> {
                    past.run();
                    counts[1]++;
                });
    }

    static void negative() throws InterruptedException {
        long[] counts = new long[2];
        both(
                () -> {
                    quietly(() -> counts[-1] = 3);
                    counts[0] = 1;
                },
                () -> {
                    quietly(() -> counts[-1] = 4);
                    counts[1] = 2;
                });
    }

    static void ownCopies() throws InterruptedException {
        List<String> names = List.of("one", "two", "three");
        Runnable shorten =
                () -> {
                    List<String> own = new ArrayList<>(names);
                    own.removeIf(name -> name.length() > 3);
                    Iterator<String> each = own.iterator();
                    each.next();
                    each.remove();
                    System.out.println(own.size());
                };
        both(shorten, shorten);
    }

    record Point(int x, int y) {}

    static void comparedUnderALock() throws InterruptedException {
        Map<Point, Integer> counts = new HashMap<>();
        Runnable count =
                () -> {
                    for (int turn = 0; turn < 20; turn++) {
                        synchronized (counts) {
                            counts.merge(new Point(turn % 3, 0), 1, Integer::sum);
                        }
                    }
                };
        both(count, count);
        System.out.println(counts);
    }

    static void noKey() throws InterruptedException {
        Map<String, Integer> counts = new HashMap<>();
        counts.put(null, 1);
        counts.put("apple", 1);
        both(() -> counts.merge(null, 1, Integer::sum), () -> counts.merge("apple", 1, Integer::sum));
        System.out.println(counts);
    }

    static void halves() throws InterruptedException {
        TreeMap<Integer, String> names = new TreeMap<>(Map.of(1, "one", 2, "two", 9, "nine"));
        both(() -> System.out.println(names.headMap(5).size()), () -> System.out.println(names.tailMap(5).get(9)));
        names.headMap(5).clear();
        System.out.println(names);
    }

    static void twoEnds() throws InterruptedException {
        Deque<Integer> jobs = new ArrayDeque<>();
        both(
                () -> {
                    for (int job = 0; job < 50; job++) {
                        synchronized (jobs) {
                            jobs.offerFirst(job);
                        }
                    }
                },
                () -> {
                    for (int job = 0; job < 50; job++) {
                        synchronized (jobs) {
                            jobs.pollLast();
                        }
                    }
                });
        System.out.println(jobs.size() < 99);
    }

    static void shiftedApart() throws InterruptedException {
        long[] log = new long[20];
        both(() -> System.arraycopy(log, 0, log, 1, 9), () -> System.arraycopy(log, 10, log, 11, 9));
        System.out.println(Arrays.stream(log).sum());
    }

    static void rangesApart() throws InterruptedException {
        int[] cells = new int[200];
        both(
                () -> {
                    Arrays.fill(cells, 0, 100, 3);
                    Arrays.sort(cells, 0, 100);
                },
                () -> {
                    Arrays.setAll(new int[3], place -> cells[100 + place]);
                    Arrays.fill(cells, 100, 200, 5);
                    Arrays.sort(cells, 100, 200);
                });
        System.out.println(Arrays.hashCode(cells));
    }

    static void ownRows() throws InterruptedException {
        int[][][] cells = new int[2][3][70];
        both(() -> raise(cells[0]), () -> raise(cells[1]));
        System.out.println(Arrays.deepHashCode(cells));
    }

    private static void raise(int[][] rows) {
        for (int[] row : rows) {
            for (int place = 0; place < row.length; place++) {
                row[place] += place;
            }
        }
    }

    static void copies() throws InterruptedException {
        char[] letters = {'a', 'b', 'c'};
        Runnable change =
                () -> {
                    char[] own = letters.clone();
                    own[1] = 'x';
                    System.out.println(new String(Arrays.copyOf(own, 5)).length());
                };
        both(change, change);
        letters[1] = 'y';
    }

    static void readByBoth() throws InterruptedException {
        int[] costs = {1, 2, 3};
        List<Integer> boxed = new ArrayList<>(List.of(1, 2, 3));
        Runnable read = () -> System.out.println(Arrays.stream(costs).sum() + boxed.stream().mapToInt(one -> one).sum());
        both(read, read);
        costs[0] = 9;
        Collections.sort(boxed);
    }

    static void grouped() throws InterruptedException {
        Map<Integer, List<Integer>> groups = new HashMap<>();
        ReentrantLock lock = new ReentrantLock();
        Runnable group =
                () -> {
                    for (int number = 0; number < 30; number++) {
                        lock.lock();
                        try {
                            groups.computeIfAbsent(number % 4, key -> new ArrayList<>()).add(number);
                        } finally {
                            lock.unlock();
                        }
                    }
                };
        both(group, group);
        System.out.println(groups.get(1).size());
    }

    static void ownKeys() throws InterruptedException {
        Map<TimeUnit, Integer> counts = new EnumMap<>(Map.of(TimeUnit.DAYS, 1, TimeUnit.HOURS, 2));
        both(() -> counts.put(TimeUnit.DAYS, 5), () -> counts.merge(TimeUnit.HOURS, 1, Integer::sum));
        System.out.println(counts);
    }

    static void listCopies() throws InterruptedException {
        List<String> names = new ArrayList<>(List.of("one", "two"));
        Runnable copy = () -> System.out.println(List.copyOf(names).size() + new ArrayList<>(names).size());
        both(copy, copy);
        names.add("three");
    }

    static void parts() throws InterruptedException {
        List<Integer> all = new ArrayList<>(Collections.nCopies(200, 1));
        List<Integer> lower = all.subList(0, 100);
        List<Integer> upper = all.subList(100, 200);
        both(() -> raise(lower), () -> raise(upper));
        System.out.println(all.hashCode());
    }

    private static void raise(List<Integer> part) {
        for (int place = 0; place < part.size(); place++) {
            part.set(place, part.get(place) + 1);
        }
    }

    static void handedOver() throws InterruptedException {
        Queue<Integer> jobs = new PriorityQueue<>(List.of(3, 1, 2));
        Iterator<Integer> numbers = new ArrayList<>(List.of(1, 2)).iterator();
        BitSet seen = new BitSet();
        Runnable use =
                () -> {
                    seen.set(jobs.remove());
                    System.out.println(numbers.next());
                };
        for (int turn = 0; turn < 2; turn++) {
            Thread thread = new Thread(use);
            thread.start();
            thread.join();
        }
        System.out.println(seen);
    }

    /** Threads that hand over a whole array again and again, each of which writes all of it. */
    static void generations() throws Exception {
        int[] cells = new int[300];
        ExecutorService pool = Executors.newFixedThreadPool(3);
        for (int turn = 0; turn < 40; turn++) {
            List<Future<?>> done = new ArrayList<>();
            for (int part = 0; part < 3; part++) {
                int from = (part + turn) % 3 * 100;
                done.add(pool.submit(() -> raise(cells, from, from + 100)));
            }
            for (Future<?> one : done) {
                one.get();
            }
        }
        pool.shutdown();
        System.out.println(cells[299]);
    }

    private static void raise(int[] cells, int from, int behind) {
        for (int place = from; place < behind; place++) {
            cells[place]++;
        }
    }

    /** A worker whose own methods take arrays. */
    static final class Filler extends Thread {
        private final int[] cells;
        private final int place;

        Filler(int[] cells, int place) {
            this.cells = cells;
            this.place = place;
        }

        @Override
        public void run() {
            fill(cells);
        }

        private void fill(int[] all) {
            all[place] = place;
        }
    }

    static void ownMethods() throws InterruptedException {
        int[] cells = new int[4];
        both(new Filler(cells, 1), new Filler(cells, 2));
    }

    /** Whoever comes to the lock comes behind a count that is written under it, and another thread waits for all of them. */
    static void lockedThenRead() throws InterruptedException {
        Map<String, Integer> counts = new HashMap<>(Map.of("apple", 0, "pear", 0));
        Runnable count =
                () -> {
                    for (int turn = 0; turn < 200; turn++) {
                        synchronized (counts) {
                            counts.merge("apple", 1, Integer::sum);
                            counts.put("pear", turn);
                        }
                    }
                };
        both(count, count);
        System.out.println(counts.get("apple"));
    }

    /** The thread that merges is over before the process ends. */
    static void mergedInTime() throws InterruptedException {
        Map<String, Integer> counts = new HashMap<>(Map.of("apple", 1));
        Thread slow = new Thread(() -> counts.merge("apple", 1, Integer::sum));
        slow.setDaemon(true);
        slow.start();
        slow.join();
        System.out.println(counts.get("apple") > 9);
    }

    /** The thread goes on, and what it has asked for has thrown. */
    static void thrownBefore() throws InterruptedException {
        List<Integer> numbers = List.of(1, 2);
        List<Integer> shown = new ArrayList<>(numbers);
        CountDownLatch begun = new CountDownLatch(1);
        Thread waiting =
                new Thread(
                        () -> {
                            try {
                                shown.add(9, 3);
                            } catch (IndexOutOfBoundsException thrown) {
                                begun.countDown();
                                lookUp();
                            }
                        });
        waiting.setDaemon(true);
        waiting.start();
        begun.await();
    }

    private static void lookUp() {
        try {
            Thread.sleep(60_000);
        } catch (InterruptedException interrupted) {
            Thread.currentThread().interrupt();
        }
    }

    private static final int TURNS = 40_000;
    private static final long MOST_BYTES = 2_000_000;
    private static volatile int turns;

    /** What is kept of an array does not grow by what is done to it again and again. */
    static void manyTurns() {
        int[] counts = new int[2];
        touchOften(counts);
        long before = bytesThatLive();
        touchOften(counts);
        long grown = bytesThatLive() - before;
        if (grown > MOST_BYTES) {
            throw new IllegalStateException("it has grown by " + grown + " bytes");
        }
    }

    private static void touchOften(int[] counts) {
        for (int turn = 0; turn < TURNS; turn++) {
            counts[0]++;
            turns = turn; // Another thread could come after this.
        }
    }

    private static long bytesThatLive() {
        System.gc();
        return Runtime.getRuntime().totalMemory() - Runtime.getRuntime().freeMemory();
    }

    private MorePartClean() {}

    public static void main(String[] words) throws Exception {
        MorePartClean.class.getDeclaredMethod(words[0]).invoke(null);
    }
}
