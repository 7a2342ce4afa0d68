import java.util.ArrayDeque;
import java.util.ArrayList;
import java.util.Arrays;
import java.util.Deque;
import java.util.EnumMap;
import java.util.HashMap;
import java.util.HashSet;
import java.util.LinkedHashMap;
import java.util.LinkedList;
import java.util.List;
import java.util.Map;
import java.util.PriorityQueue;
import java.util.Queue;
import java.util.Set;
import java.util.TreeMap;
import java.util.concurrent.ExecutorService;
import java.util.concurrent.Executors;
import java.util.concurrent.TimeUnit;
import java.util.concurrent.locks.ReentrantLock;
import java.util.function.Function;

/** Programs of which two threads touch the same element, key or shape. A line that races says so in a comment. */
public final class PartRaces {
    static void both(Runnable one, Runnable other) throws InterruptedException {
        Thread alice = new Thread(() -> quietly(one), "alice");
        Thread bob = new Thread(() -> quietly(other), "bob");
        alice.start();
        bob.start();
        alice.join();
        bob.join();
    }

    /** What a call throws beside another one is no matter. */
    private static void quietly(Runnable body) {
        try {
            body.run();
        } catch (RuntimeException failure) {
            System.out.print("");
        }
    }

    static void rest() {
        try {
            Thread.sleep(30);
        } catch (InterruptedException interrupted) {
            Thread.currentThread().interrupt();
        }
    }

    static void counted() throws InterruptedException {
        int[] counts = new int[26];
        String[] texts = {"enter the shop", "leave the shop"};
        Runnable[] counting = new Runnable[2];
        for (int text = 0; text < 2; text++) {
            String own = texts[text];
            counting[text] =
                    () -> {
                        for (char letter : own.toCharArray()) {
                            if (letter != ' ') {
                                counts[letter - 'a']++; // race: counted
                            }
                        }
                    };
        }
        both(counting[0], counting[1]);
        System.out.println(counts[4] > 0);
    }

    static void borderRow() throws InterruptedException {
        double[][] cells = new double[5][3];
        double[] sums = new double[5];
        both(() -> addRows(cells, sums, 0, 2), () -> addRows(cells, sums, 2, 4));
        System.out.println(sums[2]);
    }

    private static void addRows(double[][] cells, double[] sums, int first, int last) {
        for (int row = first; row <= last; row++) {
            for (int column = 0; column < cells[row].length; column++) {
                sums[row] += cells[row][column]; // race: borderRow
            }
        }
    }

    static void crossedOut() throws InterruptedException {
        boolean[] isComposite = new boolean[200];
        both(
                () -> {
                    for (int number = 4; number < isComposite.length; number += 2) {
                        isComposite[number] = true; // race: crossedOut
                    }
                },
                () -> {
                    for (int number = 9; number < isComposite.length; number += 3) {
                        isComposite[number] = true; // race: crossedOut
                    }
                });
        System.out.println(isComposite[6]);
    }

    static final class Hand {
        volatile byte[] full;
    }

    static void refilled() throws InterruptedException {
        byte[] buffer = new byte[16];
        Hand hand = new Hand();
        both(
                () -> {
                    Arrays.fill(buffer, (byte) 1);
                    hand.full = buffer;
                    buffer[3] = 2; // race: refilled
                },
                () -> {
                    while (hand.full == null) {
                        Thread.onSpinWait();
                    }
                    rest();
                    System.out.println(hand.full[3] > 9); // race: refilled
                });
    }

    static final class Shop {
        volatile String[] names;
    }

    static void publishedEarly() throws InterruptedException {
        Shop shop = new Shop();
        both(
                () -> {
                    shop.names = new String[] {"north", null};
                    shop.names[1] = "south"; // race: publishedEarly
                },
                () -> {
                    while (shop.names == null) {
                        Thread.onSpinWait();
                    }
                    rest();
                    System.out.println(shop.names[0] + shop.names.length);
                    System.out.println(shop.names[1] == null); // race: publishedEarly
                });
    }

    static void copiedOver() throws InterruptedException {
        long[] log = new long[8];
        long[] fresh = {1, 2, 3, 4};
        both(
                () -> System.arraycopy(fresh, 1, log, 4, 3), // race: copiedOver
                () -> {
                    log[3] = 7;
                    log[5] = 8; // race: copiedOver
                });
        System.out.println(log[4] + log[5] + log[3]);
    }

    static void emptied() throws InterruptedException {
        float[] cells = new float[10];
        both(
                () -> Arrays.fill(cells, 5, 10, 0), // race: emptied
                () -> {
                    cells[4] += 1;
                    cells[9] += 1; // race: emptied
                });
    }

    static void cloned() throws InterruptedException {
        short[] totals = new short[4];
        both(
                () -> System.out.println(totals.clone().length), // race: cloned
                () -> totals[2]++); // race: cloned
    }

    static void ordered() throws InterruptedException {
        Integer[] scores = {3, 1, 2};
        both(
                () -> Arrays.sort(scores), // race: ordered
                () -> System.out.println(scores[1] > 9)); // race: ordered
    }

    static void listedArray() throws InterruptedException {
        String[] names = {"one", "two", "three"};
        List<String> listed = Arrays.asList(names);
        both(
                () -> listed.set(1, "four"), // race: listedArray
                () -> {
                    System.out.println(names[0].length());
                    System.out.println(names[1].length() > 9); // race: listedArray
                });
    }

    static void halfLocked() throws InterruptedException {
        List<String> results = new ArrayList<>();
        both(
                () -> {
                    synchronized (results) {
                        results.add("one"); // race: halfLocked
                    }
                },
                () -> results.add("two")); // race: halfLocked
    }

    static void iterated() throws InterruptedException {
        List<String> names = new ArrayList<>(List.of("one"));
        both(
                () -> names.add("two"), // race: iterated
                () -> {
                    for (String name : names) { // race: iterated
                        System.out.print(name.isEmpty() ? "?" : "");
                    }
                });
    }

    static void replaced() throws InterruptedException {
        List<String> states = new ArrayList<>(List.of("open", "open", "shut"));
        both(
                () -> {
                    states.set(0, "shut");
                    states.set(1, "shut"); // race: replaced
                },
                () -> {
                    System.out.println(states.get(2).length());
                    System.out.println(states.get(1).length() > 9); // race: replaced
                });
    }

    static void overlapping() throws InterruptedException {
        List<Integer> numbers = new ArrayList<>(List.of(1, 2, 3, 4, 5));
        both(() -> grow(numbers.subList(0, 3)), () -> grow(numbers.subList(2, 5)));
        System.out.println(numbers.size());
    }

    private static void grow(List<Integer> part) {
        for (int place = 0; place < 3; place++) {
            part.set(place, part.get(place) + 1); // race: overlapping
        }
    }

    static void sorted() throws InterruptedException {
        List<Integer> scores = new ArrayList<>(List.of(3, 1, 2));
        both(
                () -> scores.sort(null), // race: sorted
                () -> System.out.println(scores.get(0) > 9)); // race: sorted
    }

    static void linkedQueue() throws InterruptedException {
        Queue<Integer> jobs = new LinkedList<>();
        jobs.add(1);
        both(
                () -> jobs.add(2), // race: linkedQueue
                () -> {
                    Integer job = jobs.poll(); // race: linkedQueue
                    System.out.println(job == null || job > 0);
                });
    }

    static void scheduler() throws InterruptedException {
        PriorityQueue<Long> times = new PriorityQueue<>();
        ReentrantLock lock = new ReentrantLock();
        both(
                () -> {
                    lock.lock();
                    try {
                        times.offer(5L); // race: scheduler
                    } finally {
                        lock.unlock();
                    }
                },
                () -> System.out.println(times.peek() == null || true)); // race: scheduler
    }

    static void history() throws InterruptedException {
        Deque<String> last = new ArrayDeque<>(List.of("a", "b"));
        both(
                () -> last.addFirst("c"), // race: history
                () -> last.pollLast()); // race: history
    }

    private static long fibonacci(Map<Integer, Long> memo, int number) {
        if (number < 2) {
            return number;
        }
        Long known = memo.get(number); // race: memo
        if (known != null) {
            return known;
        }
        long sum = fibonacci(memo, number - 1) + fibonacci(memo, number - 2);
        memo.put(number, sum); // race: memo
        return sum;
    }

    static void memo() throws InterruptedException {
        Map<Integer, Long> memo = new HashMap<>();
        both(() -> fibonacci(memo, 9), () -> fibonacci(memo, 9));
    }

    static void computedOnce() throws InterruptedException {
        Map<String, List<String>> orders = new HashMap<>();
        Runnable order =
                () -> {
                    List<String> own = orders.computeIfAbsent("apple", name -> new ArrayList<>()); // race: computedOnce
                    System.out.println(own.getClass());
                };
        both(order, order);
    }

    static void restocked() throws InterruptedException {
        Map<String, Integer> stock = new HashMap<>();
        stock.put("apple", 1);
        stock.put("pear", 2);
        both(
                () -> {
                    stock.put("pear", 3);
                    stock.put("apple", 5); // race: restocked
                },
                () -> System.out.println(stock.get("apple") > 9)); // race: restocked
    }

    static void summedUp() throws InterruptedException {
        Map<String, Integer> stock = new TreeMap<>(Map.of("apple", 1, "pear", 2));
        both(
                () -> stock.merge("apple", 1, Integer::sum), // race: summedUp
                () -> {
                    int sum = 0;
                    for (int count : stock.values()) { // race: summedUp
                        sum += count;
                    }
                    System.out.println(sum > 99);
                });
    }

    static void raised() throws InterruptedException {
        Map<String, Integer> prices = new LinkedHashMap<>(Map.of("apple", 1));
        Runnable raise =
                () -> {
                    for (Map.Entry<String, Integer> price : prices.entrySet()) {
                        price.setValue(price.getValue() + 1); // race: raised
                    }
                };
        both(raise, raise);
    }

    static final class Job {
        private final int size;

        Job(int size) {
            this.size = size;
        }
    }

    static void byJob() throws InterruptedException {
        Job job = new Job(3);
        Map<Job, String> states = new HashMap<>();
        states.put(job, "waits");
        states.put(new Job(4), "waits");
        both(
                () -> states.replace(job, "runs"), // race: byJob
                () -> System.out.println(states.get(job).length() + job.size > 99)); // race: byJob
    }

    static void recent() throws InterruptedException {
        Map<String, Integer> cache = new LinkedHashMap<>(8, 0.75f, true);
        cache.put("apple", 1);
        cache.put("pear", 2);
        both(
                () -> cache.get("apple"), // race: recent
                () -> cache.get("pear")); // race: recent
    }

    static final class Least extends LinkedHashMap<String, Integer> {
        private static final long serialVersionUID = 1;

        @Override
        protected boolean removeEldestEntry(Map.Entry<String, Integer> eldest) {
            return size() > 2;
        }
    }

    static void evicted() throws InterruptedException {
        Map<String, Integer> cache = new Least();
        cache.put("apple", 1);
        cache.put("pear", 2);
        both(
                () -> cache.put("plum", 3), // race: evicted
                () -> System.out.println(cache.get("pear"))); // race: evicted
    }

    static void expired() throws InterruptedException {
        Map<String, Integer> sessions = new HashMap<>(Map.of("old", 9));
        both(
                () -> sessions.values().removeIf(age -> age > 3), // race: expired
                () -> sessions.put("new", 0)); // race: expired
    }

    static void removedKey() throws InterruptedException {
        Map<String, Integer> stock = new HashMap<>(Map.of("apple", 1, "pear", 2));
        both(
                () -> stock.keySet().remove("apple"), // race: removedKey
                () -> System.out.println(stock.get("pear") > 9)); // race: removedKey
    }

    static void byUnit() throws InterruptedException {
        Map<TimeUnit, String> names = new EnumMap<>(TimeUnit.class);
        both(
                () -> names.put(TimeUnit.DAYS, "d"), // race: byUnit
                () -> System.out.println(names.containsKey(TimeUnit.HOURS))); // race: byUnit
    }

    static void visited() throws InterruptedException {
        Set<String> pages = new HashSet<>();
        Runnable visit =
                () -> {
                    if (pages.add("home")) { // race: visited
                        System.out.print("");
                    }
                };
        both(visit, visit);
    }

    static void shared() throws InterruptedException {
        Map<String, Integer> stock = new HashMap<>();
        both(
                () -> stock.put("apple", 1), // race: shared
                () -> stock.put("pear", 2)); // race: shared
    }

    static void byTheWay() throws InterruptedException {
        List<String> names = new ArrayList<>(List.of("one"));
        List<String> others = new ArrayList<>(List.of("one"));
        both(
                () -> {
                    quietly(() -> System.out.println(String.format("%s", names).length() > 99)); // race: byTheWay
                    List.of("a", "b").forEach(others::add); // race: byTheWay
                },
                () -> {
                    names.add("two"); // race: byTheWay
                    System.out.println(others.stream().count() > 99); // race: byTheWay
                });
    }

    interface Names extends List<String> {}

    static final class Listed extends ArrayList<String> implements Names {
        private static final long serialVersionUID = 1;
    }

    record Stock(List<String> names) {} // race: byOthers

    static void byOthers() throws InterruptedException {
        Names names = new Listed();
        Stock stock = new Stock(new ArrayList<>());
        Function<List<String>, List<String>> copy = ArrayList::new; // race: byOthers
        List<String> others = new ArrayList<>();
        both(
                () -> {
                    names.add("one"); // race: byOthers
                    quietly(() -> System.out.println(stock.toString().length() > 99));
                    copy.apply(others);
                },
                () -> {
                    System.out.println(names.size() > 99); // race: byOthers
                    stock.names().add("one"); // race: byOthers
                    others.add("one"); // race: byOthers
                });
    }

    private static final String DONE = "part.races.done";

    /** More tasks have touched the element than are kept of it. What tells the other thread that they are over gives no order. */
    static void longAgo() throws Exception {
        int[] hits = new int[3];
        Thread late =
                new Thread(
                        () -> {
                            while (System.getProperty(DONE) == null) {
                                rest();
                            }
                            hits[0] = 0;
                            hits[1] = 0; // race: longAgo
                        });
        late.start();
        ExecutorService pool = Executors.newFixedThreadPool(2);
        for (int turn = 0; turn < 300; turn++) {
            pool.submit(() -> hits[1]++).get(); // race: longAgo
        }
        for (int turn = 0; turn < 300; turn++) {
            pool.submit(() -> hits[1] += 2).get(); // race: longAgo
        }
        System.setProperty(DONE, "yes");
        pool.shutdown();
        late.join();
    }

    private PartRaces() {}

    public static void main(String[] words) throws Exception {
        PartRaces.class.getDeclaredMethod(words[0]).invoke(null);
    }
}
