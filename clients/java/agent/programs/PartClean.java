import java.util.ArrayDeque;
import java.util.ArrayList;
import java.util.Arrays;
import java.util.Collections;
import java.util.Deque;
import java.util.EnumMap;
import java.util.HashMap;
import java.util.HashSet;
import java.util.LinkedHashMap;
import java.util.LinkedList;
import java.util.List;
import java.util.Map;
import java.util.PriorityQueue;
import java.util.Queue;
import java.util.Set;
import java.util.concurrent.CountDownLatch;
import java.util.concurrent.ExecutorService;
import java.util.concurrent.Executors;
import java.util.concurrent.Future;
import java.util.concurrent.TimeUnit;
import java.util.concurrent.locks.ReentrantLock;

/** Programs of which two threads touch one array or one collection, and no part of it without an order. Nothing is told or named. */
public final class PartClean {
    static void both(Runnable one, Runnable other) throws InterruptedException {
        Thread alice = new Thread(one, "alice");
        Thread bob = new Thread(other, "bob");
        alice.start();
        bob.start();
        alice.join();
        bob.join();
    }

    static void neighbours() throws InterruptedException {
        int[] counts = new int[2];
        both(
                () -> {
                    for (int turn = 0; turn < 100; turn++) {
                        counts[0]++;
                    }
                },
                () -> {
                    for (int turn = 0; turn < 100; turn++) {
                        counts[1]++;
                    }
                });
        System.out.println(counts[0] + counts[1]);
    }

    static void rows() throws InterruptedException {
        double[][] left = {{1, 2}, {3, 4}, {5, 6}, {7, 8}};
        double[][] right = {{2, 0}, {0, 2}};
        double[][] product = new double[4][2];
        both(() -> multiply(left, right, product, 0, 2), () -> multiply(left, right, product, 2, 4));
        System.out.println(Arrays.deepToString(product));
    }

    private static void multiply(double[][] left, double[][] right, double[][] product, int first, int behind) {
        for (int row = first; row < behind; row++) {
            for (int column = 0; column < 2; column++) {
                for (int place = 0; place < 2; place++) {
                    product[row][column] += left[row][place] * right[place][column];
                }
            }
        }
    }

    static void interleaved() throws InterruptedException {
        long[] squares = new long[300];
        both(() -> square(squares, 0), () -> square(squares, 1));
        System.out.println(Arrays.stream(squares).sum());
    }

    private static void square(long[] squares, int first) {
        for (long number = first; number < squares.length; number += 2) {
            squares[(int) number] = number * number;
        }
    }

    static void scattered() throws InterruptedException {
        char[] letters = new char[1009];
        both(() -> scatter(letters, 1, 'a'), () -> scatter(letters, 11, 'b'));
        System.out.println(letters[1] + letters[11]);
    }

    /** Powers of eleven go through all numbers below the length. Every other one of them is a square. */
    private static void scatter(char[] letters, int first, char letter) {
        int place = first;
        for (int turn = 0; turn < 504; turn++) {
            if (isSquare(place) == isSquare(first)) {
                letters[place] = letter;
            }
            place = place * 11 % letters.length;
        }
    }

    private static boolean isSquare(int number) {
        for (int root = 1; root < 1009; root++) {
            if (root * root % 1009 == number) {
                return true;
            }
        }
        return false;
    }

    static void halves() throws InterruptedException {
        int[] numbers = {9, 7, 8, 6, 3, 1, 2, 0};
        both(() -> Arrays.sort(numbers, 0, 4), () -> Arrays.sort(numbers, 4, 8));
        int[] merged = new int[8];
        System.arraycopy(numbers, 4, merged, 0, 4);
        System.arraycopy(numbers, 0, merged, 4, 4);
        System.out.println(Arrays.toString(merged));
    }

    static final class Hand {
        volatile byte[] full;
    }

    static void handedOver() throws InterruptedException {
        Hand hand = new Hand();
        both(
                () -> {
                    byte[] buffer = new byte[16];
                    for (int place = 0; place < buffer.length; place++) {
                        buffer[place] = (byte) place;
                    }
                    hand.full = buffer;
                },
                () -> {
                    while (hand.full == null) {
                        Thread.onSpinWait();
                    }
                    byte[] own = hand.full;
                    own[0] += own[15];
                    System.out.println(own[0]);
                });
    }

    static void histograms() throws InterruptedException {
        int[][] own = new int[2][10];
        both(() -> count(own[0], 3), () -> count(own[1], 7));
        int[] all = new int[10];
        for (int[] counts : own) {
            Arrays.setAll(all, place -> all[place] + counts[place]);
        }
        System.out.println(Arrays.toString(all));
    }

    private static void count(int[] counts, int step) {
        for (int number = 0; number < 100; number += step) {
            counts[number % 10]++;
        }
    }

    static void refused() throws InterruptedException {
        Object[] names = new String[2];
        int[] counts = new int[2];
        both(
                () -> {
                    try {
                        names[0] = 7;
                    } catch (ArrayStoreException wrong) {
                        System.out.println("no name");
                    }
                    try {
                        counts[2]++;
                    } catch (ArrayIndexOutOfBoundsException outside) {
                        System.out.println("no place");
                    }
                },
                () -> {
                    names[0] = "one";
                    try {
                        counts[2] = 1;
                    } catch (ArrayIndexOutOfBoundsException outside) {
                        counts[0] = 1;
                    }
                });
        System.out.println(names[0]);
    }

    static void jobs() throws Exception {
        ExecutorService pool = Executors.newFixedThreadPool(3);
        String[] results = new String[300];
        List<Future<?>> done = new ArrayList<>();
        for (int place = 0; place < results.length; place++) {
            int own = place;
            done.add(pool.submit(() -> results[own] = "result " + own));
        }
        for (Future<?> one : done) {
            one.get();
        }
        pool.shutdown();
        System.out.println(String.join(",", results).length());
    }

    static void phases() throws InterruptedException {
        int[] sums = new int[8];
        CountDownLatch first = new CountDownLatch(1);
        both(
                () -> {
                    Arrays.fill(sums, 0, 4, 2);
                    first.countDown();
                },
                () -> {
                    Arrays.fill(sums, 4, 8, 3);
                    try {
                        first.await();
                    } catch (InterruptedException interrupted) {
                        return;
                    }
                    for (int place = 1; place < sums.length; place++) {
                        sums[place] += sums[place - 1];
                    }
                });
        System.out.println(sums[7]);
    }

    static final class Registry {
        private volatile String[] names = {};

        synchronized void add(String name) {
            String[] longer = Arrays.copyOf(names, names.length + 1);
            longer[names.length] = name;
            names = longer;
        }

        int letters() {
            int sum = 0;
            for (String name : names) {
                sum += name.length();
            }
            return sum;
        }
    }

    static void copiedOnWrite() throws InterruptedException {
        Registry registry = new Registry();
        both(
                () -> {
                    for (int turn = 0; turn < 5; turn++) {
                        registry.add("name " + turn);
                    }
                },
                () -> {
                    for (int turn = 0; turn < 5; turn++) {
                        System.out.println(registry.letters() >= 0);
                    }
                });
    }

    static void lockedResults() throws InterruptedException {
        List<Integer> results = new ArrayList<>();
        ReentrantLock lock = new ReentrantLock();
        Runnable add =
                () -> {
                    for (int turn = 0; turn < 20; turn++) {
                        lock.lock();
                        try {
                            results.add(turn);
                            results.set(0, results.get(results.size() - 1));
                        } finally {
                            lock.unlock();
                        }
                    }
                };
        both(add, add);
        Collections.sort(results);
        System.out.println(results.size());
    }

    static void filledBefore() throws InterruptedException {
        Map<String, List<Integer>> prices = new HashMap<>();
        for (String name : List.of("apple", "pear")) {
            prices.computeIfAbsent(name, fresh -> new ArrayList<>()).add(name.length());
        }
        Set<String> fresh = new HashSet<>(prices.keySet());
        Runnable look =
                () -> {
                    int sum = 0;
                    for (Map.Entry<String, List<Integer>> price : prices.entrySet()) {
                        sum += price.getValue().get(0) + price.getKey().length();
                    }
                    sum += prices.computeIfAbsent("apple", name -> new ArrayList<>()).size();
                    System.out.println(sum + " " + fresh.contains("plum") + prices.getOrDefault("plum", List.of()));
                };
        both(look, look);
    }

    static void otherKeys() throws InterruptedException {
        Map<String, Integer> stock = new HashMap<>();
        stock.put("apple", 1);
        stock.put("pear", 2);
        both(
                () -> {
                    stock.put("apple", 5);
                    stock.merge("apple", 1, Integer::sum);
                },
                () -> {
                    stock.put("pear", 6);
                    System.out.println(stock.get("pear") + " " + stock.containsKey("apple") + stock.size());
                });
        System.out.println(stock);
    }

    static void otherUnits() throws InterruptedException {
        Map<TimeUnit, Integer> counts = new EnumMap<>(TimeUnit.class);
        for (TimeUnit unit : TimeUnit.values()) {
            counts.put(unit, 0);
        }
        both(
                () -> counts.compute(TimeUnit.DAYS, (unit, count) -> count + 1),
                () -> counts.compute(TimeUnit.HOURS, (unit, count) -> count + 1));
        System.out.println(counts.values().stream().mapToInt(Integer::intValue).sum());
    }

    static void otherPlaces() throws InterruptedException {
        List<Integer> numbers = new ArrayList<>(List.of(1, 2, 3, 4));
        List<Integer> linked = new LinkedList<>(numbers);
        both(
                () -> {
                    numbers.set(0, 5);
                    linked.set(0, numbers.get(1));
                    grow(numbers.subList(0, 2));
                },
                () -> {
                    numbers.set(2, 6);
                    linked.set(3, numbers.get(3));
                    grow(numbers.subList(2, 4));
                });
        System.out.println(numbers + " " + linked);
    }

    private static void grow(List<Integer> part) {
        for (int place = 0; place < part.size(); place++) {
            part.set(place, part.get(place) + 1);
        }
    }

    static void otherPartsOfViews() throws InterruptedException {
        List<Integer> numbers = new ArrayList<>(List.of(1, 2, 3, 4));
        List<Integer> part = numbers.subList(1, 3);
        List<Integer> shown = Collections.unmodifiableList(numbers);
        Integer[] few = {1, 2, 3};
        List<Integer> listed = Arrays.asList(few);
        both(
                () -> {
                    part.set(0, 9);
                    listed.set(0, 5);
                },
                () -> {
                    System.out.println(shown.get(3));
                    System.out.println(few[2] + listed.get(1));
                });
    }

    /** Its own methods are guarded. They call those of the JDK. */
    static final class Guarded extends HashMap<String, Integer> {
        private static final long serialVersionUID = 1;

        @Override
        public synchronized Integer put(String key, Integer value) {
            return super.put(key, value);
        }

        @Override
        public synchronized Integer get(Object key) {
            return super.get(key);
        }
    }

    static void ownMethods() throws InterruptedException {
        Map<String, Integer> guarded = new Guarded();
        both(
                () -> guarded.put("apple", 1),
                () -> {
                    guarded.put("pear", 2);
                    System.out.println(guarded.get("pear"));
                });
    }

    static final class Least extends LinkedHashMap<Integer, String> {
        private static final long serialVersionUID = 1;

        Least() {
            super(4, 0.75f, true);
        }

        @Override
        protected boolean removeEldestEntry(Map.Entry<Integer, String> eldest) {
            return size() > 3;
        }
    }

    static void leastRecent() throws InterruptedException {
        Map<Integer, String> cache = new Least();
        Runnable use =
                () -> {
                    for (int turn = 0; turn < 10; turn++) {
                        synchronized (cache) {
                            if (cache.get(turn) == null) {
                                cache.put(turn, "value " + turn);
                            }
                        }
                    }
                };
        both(use, use);
        System.out.println(cache.size());
    }

    static final class Mailbox {
        private final Deque<String> letters = new ArrayDeque<>();

        synchronized void put(String letter) {
            letters.addLast(letter);
            notifyAll();
        }

        synchronized String take() throws InterruptedException {
            while (letters.isEmpty()) {
                wait();
            }
            return letters.removeFirst();
        }
    }

    static void mailbox() throws InterruptedException {
        Mailbox mailbox = new Mailbox();
        both(
                () -> {
                    for (int turn = 0; turn < 10; turn++) {
                        mailbox.put("letter " + turn);
                    }
                },
                () -> {
                    try {
                        for (int turn = 0; turn < 10; turn++) {
                            mailbox.take();
                        }
                    } catch (InterruptedException interrupted) {
                        Thread.currentThread().interrupt();
                    }
                });
    }

    static final class Agenda {
        private final PriorityQueue<Integer> times = new PriorityQueue<>();
        private final Queue<Integer> done = new LinkedList<>();

        synchronized void add(int time) {
            times.add(time);
        }

        synchronized void finish() {
            Integer next = times.poll();
            if (next != null) {
                done.add(next);
            }
        }

        synchronized int rest() {
            int sum = 0;
            for (int time : times) {
                sum += time;
            }
            return sum + done.size();
        }
    }

    static void agenda() throws InterruptedException {
        Agenda agenda = new Agenda();
        Runnable use =
                () -> {
                    for (int turn = 0; turn < 10; turn++) {
                        agenda.add(turn);
                        agenda.finish();
                    }
                    System.out.println(agenda.rest() >= 0);
                };
        both(use, use);
    }

    static void ofEachThread() throws InterruptedException {
        ThreadLocal<StringBuilder[]> texts = ThreadLocal.withInitial(() -> new StringBuilder[] {new StringBuilder(), new StringBuilder()});
        Runnable write =
                () -> {
                    StringBuilder[] own = texts.get();
                    own[0].append("one");
                    own[1] = own[0];
                    System.out.println(own[1].length());
                };
        both(write, write);
    }

    /** More tasks touch the elements than are kept of them. */
    static void manyJobs() throws Exception {
        int[] hits = new int[100];
        List<Integer> all = new ArrayList<>(List.of(1, 2, 3));
        ReentrantLock lock = new ReentrantLock();
        ExecutorService pool = Executors.newFixedThreadPool(3);
        List<Future<?>> done = new ArrayList<>();
        for (int turn = 0; turn < 300; turn++) {
            int own = turn % 3;
            done.add(
                    pool.submit(
                            () -> {
                                lock.lock();
                                try {
                                    hits[own]++;
                                    for (int place = 10; place < 30; place++) {
                                        hits[place] += hits[place - 10];
                                    }
                                    all.set(own, all.hashCode());
                                } finally {
                                    lock.unlock();
                                }
                            }));
        }
        for (Future<?> one : done) {
            one.get();
        }
        pool.shutdown();
        System.out.println(hits[0] + all.get(2));
    }

    private PartClean() {}

    public static void main(String[] words) throws Exception {
        PartClean.class.getDeclaredMethod(words[0]).invoke(null);
    }
}
