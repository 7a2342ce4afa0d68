import java.util.ArrayList;
import java.util.List;
import java.util.Timer;
import java.util.TimerTask;
import java.util.concurrent.Callable;
import java.util.concurrent.ExecutorService;
import java.util.concurrent.Executors;
import java.util.concurrent.Future;
import java.util.concurrent.TimeUnit;

/** More programs as people write them, each with a race. A line that races says so in a comment, with the name of its program. */
public final class MoreRaces {
    static void rest() {
        try {
            Thread.sleep(20);
        } catch (InterruptedException interrupted) {
            Thread.currentThread().interrupt();
        }
    }

    static void both(Runnable one, Runnable other) throws InterruptedException {
        Thread first = new Thread(one, "first");
        Thread second = new Thread(other, "second");
        first.start();
        second.start();
        first.join();
        second.join();
    }

    static final class Settings {
        private static Settings instance;
        private int level;

        private Settings() {
            level = 3; // race: doubleChecked
        }

        static Settings get() {
            if (instance == null) { // race: doubleChecked
                synchronized (Settings.class) {
                    if (instance == null) {
                        instance = new Settings(); // race: doubleChecked
                    }
                }
            }
            return instance; // race: doubleChecked
        }
    }

    static void doubleChecked() throws InterruptedException {
        both(
                () -> System.out.println(Settings.get().level),
                () -> {
                    while (Settings.instance == null) { // race: doubleChecked
                        rest();
                    }
                    System.out.println(Settings.get().level); // race: doubleChecked
                });
    }

    static final class Worker extends Thread {
        boolean isRunning = true;
        int rounds;

        @Override
        public void run() {
            while (isRunning && rounds < 100_000) { // race: stopped
                rounds++;
            }
        }
    }

    static void stopped() throws InterruptedException {
        Worker worker = new Worker();
        worker.start();
        worker.isRunning = false; // race: stopped
        worker.join();
        System.out.println(worker.rounds >= 0);
    }

    static final class Account {
        private int balance = 100;

        void transfer(Account to, int sum) {
            synchronized (this) {
                balance -= sum; // race: transferred
                to.balance += sum; // race: transferred
            }
        }
    }

    static void transferred() throws InterruptedException {
        Account one = new Account();
        Account other = new Account();
        both(() -> one.transfer(other, 5), () -> other.transfer(one, 7));
        System.out.println(one.balance + other.balance);
    }

    static int visitors;

    static void visited() throws Exception {
        ExecutorService pool = Executors.newFixedThreadPool(3);
        List<Callable<Integer>> visits = new ArrayList<>();
        for (int turn = 0; turn < 4; turn++) {
            visits.add(() -> ++visitors); // race: visited
        }
        for (Future<Integer> visit : pool.invokeAll(visits)) {
            visit.get();
        }
        pool.shutdown();
        System.out.println(visitors > 0);
    }

    static final class Prices {
        private String cached;

        String load() {
            if (cached == null) { // race: cached
                cached = "loaded"; // race: cached
            }
            return cached; // race: cached
        }
    }

    static void cached() throws InterruptedException {
        Prices prices = new Prices();
        both(prices::load, prices::load);
    }

    static final class Service {
        private final Thread thread;
        private String name;

        Service(String given) {
            thread = new Thread(this::serve);
            thread.start();
            name = given; // race: leaked
        }

        void serve() {
            rest();
            System.out.println(name); // race: leaked
        }
    }

    static void leaked() throws InterruptedException {
        new Service("printer").thread.join();
    }

    static String language = "en";

    static void reloaded() throws InterruptedException {
        Timer timer = new Timer("reload", true);
        timer.schedule(
                new TimerTask() {
                    @Override
                    public void run() {
                        language = "fi"; // race: reloaded
                    }
                },
                1);
        while (language.equals("en")) { // race: reloaded
            rest();
        }
        System.out.println(language.length()); // race: reloaded
    }

    static int stage;

    /** Nothing stands between the last look and the end of the process. */
    static void polled() {
        Thread other =
                new Thread(
                        () -> {
                            stage = 1; // race: polled
                        });
        other.setDaemon(true);
        other.start();
        while (stage == 0) { // race: polled
            Thread.onSpinWait();
        }
    }

    static final class Statistics {
        private static long total;

        synchronized void add(long value) {
            total += value; // race: twoMonitors
        }

        static synchronized void addToAll(long value) {
            total += value; // race: twoMonitors
        }
    }

    static void twoMonitors() throws InterruptedException {
        Statistics statistics = new Statistics();
        both(() -> statistics.add(1), () -> Statistics.addToAll(2));
    }

    static final class Stack {
        private static final class Node {
            private final int value;
            private Node next;

            Node(int value) {
                this.value = value;
            }
        }

        private Node head;

        void push(int value) {
            Node node = new Node(value);
            node.next = head; // race: pushed
            head = node; // race: pushed
        }
    }

    static void pushed() throws InterruptedException {
        Stack stack = new Stack();
        both(() -> stack.push(1), () -> stack.push(2));
        System.out.println(stack.head.value > 0);
    }

    static final class Temperature {
        private double celsius;

        synchronized void set(double value) {
            celsius = value; // race: shown
        }

        @Override
        public String toString() {
            return celsius + " C"; // race: shown
        }
    }

    static void shown() throws InterruptedException {
        Temperature temperature = new Temperature();
        both(() -> temperature.set(21.5), () -> System.out.println(temperature));
    }

    static final class Sleeper extends Thread {
        private String reason = "none";

        @Override
        public void run() {
            try {
                Thread.sleep(20_000);
            } catch (InterruptedException interrupted) {
                rest();
                System.out.println(reason); // race: interruptedFirst
            }
        }
    }

    static void interruptedFirst() throws InterruptedException {
        Sleeper sleeper = new Sleeper();
        sleeper.start();
        sleeper.interrupt();
        sleeper.reason = "closing"; // race: interruptedFirst
        sleeper.join();
    }

    static final class Mailbox {
        private String letter;

        synchronized void put(String text) {
            letter = text; // race: peeked
            notifyAll();
        }

        synchronized String take() throws InterruptedException {
            while (letter == null) {
                wait();
            }
            return letter;
        }

        boolean isEmpty() {
            return letter == null; // race: peeked
        }
    }

    static void peeked() throws InterruptedException {
        Mailbox mailbox = new Mailbox();
        both(
                () -> mailbox.put("hello"),
                () -> {
                    rest(); // Else this one may wait for the letter, and what it did before would come before that.
                    try {
                        System.out.println(mailbox.isEmpty() || true);
                        System.out.println(mailbox.take());
                    } catch (InterruptedException interrupted) {
                        Thread.currentThread().interrupt();
                    }
                });
    }

    static final class Snapshot {
        private int orders;
        private long sum;

        Snapshot(int orders, long sum) {
            this.orders = orders; // race: replaced
            this.sum = sum; // race: replaced
        }
    }

    static final Snapshot EMPTY = new Snapshot(0, 0);
    static Snapshot snapshot = EMPTY;

    static void replaced() throws InterruptedException {
        both(
                () -> {
                    snapshot = new Snapshot(3, 40); // race: replaced
                },
                () -> {
                    Snapshot seen;
                    do {
                        rest();
                        seen = snapshot; // race: replaced
                    } while (seen == EMPTY);
                    System.out.println(seen.orders + seen.sum); // race: replaced
                });
    }

    static int finished;

    static void notAwaited() throws Exception {
        ExecutorService pool = Executors.newCachedThreadPool();
        pool.submit(() -> finished++); // race: notAwaited
        pool.submit(() -> finished++); // race: notAwaited
        pool.shutdown();
        pool.awaitTermination(5, TimeUnit.SECONDS);
        System.out.println(finished);
    }

    static int percent;

    static void progress() throws InterruptedException {
        Thread copying =
                new Thread(
                        () -> {
                            for (int turn = 0; turn < 50; turn++) {
                                percent = 2 * turn; // race: progress
                            }
                        });
        copying.setDaemon(true);
        copying.start();
        System.out.println(percent >= 0); // race: progress
        copying.join();
    }

    static class Base {
        protected int uses;
    }

    static final class Above extends Base {
        private final Object own = new Object();

        void use() {
            synchronized (own) {
                uses++; // race: ofBase
            }
        }

        synchronized void useAgain() {
            uses++; // race: ofBase
        }
    }

    static void ofBase() throws InterruptedException {
        Above above = new Above();
        both(above::use, above::useAgain);
    }

    private MoreRaces() {}

    public static void main(String[] words) throws Exception {
        MoreRaces.class.getDeclaredMethod(words[0]).invoke(null);
    }
}
