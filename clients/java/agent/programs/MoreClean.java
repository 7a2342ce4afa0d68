import java.util.ArrayList;
import java.util.HashMap;
import java.util.List;
import java.util.Map;
import java.util.concurrent.ExecutorService;
import java.util.concurrent.Executors;
import java.util.concurrent.Future;
import java.util.concurrent.LinkedBlockingQueue;
import java.util.concurrent.ScheduledExecutorService;
import java.util.concurrent.Semaphore;
import java.util.concurrent.ThreadPoolExecutor;
import java.util.concurrent.TimeUnit;
import java.util.concurrent.atomic.AtomicBoolean;
import java.util.concurrent.atomic.AtomicReference;
import java.util.concurrent.locks.ReentrantLock;

/** More programs as people write them, without a race. */
public final class MoreClean {
    static void both(Runnable one, Runnable other) throws InterruptedException {
        Thread first = new Thread(one, "first");
        Thread second = new Thread(other, "second");
        first.start();
        second.start();
        first.join();
        second.join();
    }

    static final class Account {
        private final int number;
        private int balance = 100;

        Account(int number) {
            this.number = number;
        }

        void transfer(Account to, int sum) {
            Account low = number < to.number ? this : to;
            Account high = low == this ? to : this;
            synchronized (low) {
                synchronized (high) {
                    balance -= sum;
                    to.balance += sum;
                }
            }
        }
    }

    static void transferred() throws InterruptedException {
        Account one = new Account(1);
        Account other = new Account(2);
        both(() -> one.transfer(other, 5), () -> other.transfer(one, 7));
        System.out.println(one.balance + other.balance);
    }

    /** A buffer of nodes of its own, for one that puts and one that takes. */
    static final class Buffer {
        private static final class Node {
            private String text;
            private Node next;
        }

        private Node first;
        private Node last;
        private int size;

        synchronized void put(String text) throws InterruptedException {
            while (size == 2) {
                wait();
            }
            Node node = new Node();
            node.text = text;
            if (first == null) {
                first = node;
            } else {
                last.next = node;
            }
            last = node;
            size++;
            notifyAll();
        }

        synchronized String take() throws InterruptedException {
            while (size == 0) {
                wait();
            }
            String text = first.text;
            first = first.next;
            size--;
            notifyAll();
            return text;
        }
    }

    static void buffered() throws InterruptedException {
        Buffer buffer = new Buffer();
        both(
                () -> {
                    try {
                        for (int turn = 0; turn < 20; turn++) {
                            buffer.put("order " + turn);
                        }
                    } catch (InterruptedException interrupted) {
                        Thread.currentThread().interrupt();
                    }
                },
                () -> {
                    try {
                        for (int turn = 0; turn < 20; turn++) {
                            buffer.take();
                        }
                    } catch (InterruptedException interrupted) {
                        Thread.currentThread().interrupt();
                    }
                });
    }

    static final class Settings {
        private static volatile Settings instance;
        private int level;

        private Settings() {
            level = 3;
        }

        static Settings get() {
            Settings known = instance;
            if (known == null) {
                synchronized (Settings.class) {
                    known = instance;
                    if (known == null) {
                        known = new Settings();
                        instance = known;
                    }
                }
            }
            return known;
        }
    }

    static void doubleChecked() throws InterruptedException {
        Runnable use = () -> System.out.println(Settings.get().level);
        both(use, use);
    }

    static final class Worker extends Thread {
        private volatile boolean isRunning = true;
        private int rounds;

        @Override
        public void run() {
            while (isRunning) {
                rounds++;
            }
        }
    }

    static void stopped() throws InterruptedException {
        Worker worker = new Worker();
        worker.start();
        Thread.sleep(5);
        worker.isRunning = false;
        worker.join();
        System.out.println(worker.rounds >= 0);
    }

    static final class Part implements Runnable {
        private final int from;
        private final int to;
        private long sum;

        Part(int from, int to) {
            this.from = from;
            this.to = to;
        }

        @Override
        public void run() {
            for (int number = from; number < to; number++) {
                sum += number;
            }
        }
    }

    static void parts() throws InterruptedException {
        List<Part> parts = List.of(new Part(0, 500), new Part(500, 1000));
        both(parts.get(0), parts.get(1));
        long sum = 0;
        for (Part part : parts) {
            sum += part.sum;
        }
        System.out.println(sum);
    }

    static final class Counter {
        private int count;
    }

    private static final ThreadLocal<Counter> COUNTERS = ThreadLocal.withInitial(Counter::new);

    static void ofThread() throws InterruptedException {
        Runnable count =
                () -> {
                    for (int turn = 0; turn < 100; turn++) {
                        COUNTERS.get().count++;
                    }
                };
        both(count, count);
    }

    static void ofPool() throws Exception {
        ExecutorService pool = Executors.newFixedThreadPool(2);
        List<Future<?>> counted = new ArrayList<>();
        for (int turn = 0; turn < 10; turn++) {
            counted.add(pool.submit(() -> COUNTERS.get().count++));
        }
        for (Future<?> one : counted) {
            one.get();
        }
        pool.shutdown();
    }

    static void oneScheduled() throws Exception {
        Counter counter = new Counter();
        ScheduledExecutorService pool = Executors.newSingleThreadScheduledExecutor();
        for (int turn = 0; turn < 10; turn++) {
            pool.schedule(() -> counter.count++, turn % 3, TimeUnit.MILLISECONDS);
        }
        System.out.println(pool.schedule(() -> ++counter.count, 20, TimeUnit.MILLISECONDS).get() > 0);
        pool.shutdown();
    }

    static void oneOfFour() throws Exception {
        Counter counter = new Counter();
        ExecutorService pool = new ThreadPoolExecutor(1, 4, 1, TimeUnit.SECONDS, new LinkedBlockingQueue<>());
        for (int turn = 0; turn < 10; turn++) {
            pool.execute(() -> counter.count++);
        }
        pool.shutdown();
        System.out.println(pool.awaitTermination(10, TimeUnit.SECONDS) ? counter.count : -1);
    }

    static class Defaults {
        static Counter shared = new Counter();
    }

    static final class Above extends Defaults {}

    static void inherited() throws InterruptedException {
        Runnable use = () -> System.out.println(Above.shared.count);
        both(use, use);
    }

    static final class Sleeper extends Thread {
        private String reason = "none";
        private int polled;

        @Override
        public void run() {
            try {
                Thread.sleep(20_000);
            } catch (InterruptedException interrupted) {
                System.out.println(reason);
            }
        }
    }

    static void interrupted() throws InterruptedException {
        Sleeper sleeper = new Sleeper();
        sleeper.start();
        sleeper.reason = "closing";
        sleeper.interrupt();
        sleeper.join();
    }

    static void polled() throws InterruptedException {
        Sleeper sleeper = new Sleeper();
        Thread polling =
                new Thread(
                        () -> {
                            while (!Thread.currentThread().isInterrupted()) {
                                Thread.onSpinWait();
                            }
                            System.out.println(sleeper.reason);
                            System.out.println(Thread.interrupted());
                        });
        polling.start();
        sleeper.reason = "over";
        polling.interrupt();
        polling.join();
    }

    enum Registry {
        ONLY;

        private int size = 4;

        synchronized int grow() {
            return ++size;
        }
    }

    static void enumerated() throws InterruptedException {
        both(() -> Registry.ONLY.grow(), () -> Registry.ONLY.grow());
    }

    static void listed() throws InterruptedException {
        List<String> names = new ArrayList<>();
        Map<String, Integer> lengths = new HashMap<>();
        Object lock = new Object();
        Runnable add =
                () -> {
                    for (int turn = 0; turn < 10; turn++) {
                        synchronized (lock) {
                            names.add("name " + turn);
                            for (String name : names) {
                                lengths.merge(name, name.length(), Integer::sum);
                            }
                        }
                    }
                };
        both(add, add);
        System.out.println(names.size() + " " + lengths.keySet().size());
    }

    static void arrays() throws InterruptedException {
        int[][] halves = new int[2][100];
        Thread[] threads = new Thread[2];
        for (int half = 0; half < 2; half++) {
            int[] own = halves[half];
            threads[half] =
                    new Thread(
                            () -> {
                                for (int place = 0; place < own.length; place++) {
                                    own[place] = place * place;
                                }
                            });
            threads[half].start();
        }
        long sum = 0;
        for (int half = 0; half < 2; half++) {
            threads[half].join();
            for (int value : halves[half]) {
                sum += value;
            }
        }
        System.out.println(sum);
    }

    static final class Job extends Thread {
        private final String name;
        private int size;
        private String result;

        Job(String name, int size) {
            this.name = name;
            this.size = size;
        }

        @Override
        public void run() {
            result = name + size;
        }
    }

    static void handed() throws InterruptedException {
        for (int turn = 0; turn < 3; turn++) {
            Job job = new Job("job", turn);
            job.size++;
            job.start();
            job.join();
            System.out.println(job.result);
        }
    }

    static void oneAtATime() throws InterruptedException {
        Counter counter = new Counter();
        Semaphore mutex = new Semaphore(1);
        Runnable count =
                () -> {
                    for (int turn = 0; turn < 20; turn++) {
                        mutex.acquireUninterruptibly();
                        try {
                            counter.count++;
                        } finally {
                            mutex.release();
                        }
                    }
                };
        both(count, count);
        System.out.println(counter.count);
    }

    static void tried() throws InterruptedException {
        Counter counter = new Counter();
        ReentrantLock lock = new ReentrantLock();
        Runnable count =
                () -> {
                    for (int turn = 0; turn < 20; ) {
                        if (lock.tryLock()) {
                            try {
                                lock.lock();
                                counter.count++;
                                lock.unlock();
                            } finally {
                                lock.unlock();
                            }
                            turn++;
                        }
                    }
                };
        both(count, count);
        System.out.println(counter.count);
    }

    static void spun() throws InterruptedException {
        Counter counter = new Counter();
        AtomicBoolean isLocked = new AtomicBoolean();
        Runnable count =
                () -> {
                    for (int turn = 0; turn < 20; turn++) {
                        while (!isLocked.compareAndSet(false, true)) {
                            Thread.onSpinWait();
                        }
                        counter.count++;
                        isLocked.set(false);
                    }
                };
        both(count, count);
        System.out.println(counter.count);
    }

    static final class Node {
        private final int value;
        private Node next;

        Node(int value) {
            this.value = value;
        }
    }

    static void pushed() throws InterruptedException {
        AtomicReference<Node> head = new AtomicReference<>();
        Runnable push =
                () -> {
                    for (int turn = 0; turn < 10; turn++) {
                        Node node = new Node(turn);
                        Node before;
                        do {
                            before = head.get();
                            node.next = before;
                        } while (!head.compareAndSet(before, node));
                    }
                };
        both(push, push);
        int count = 0;
        for (Node node = head.get(); node != null; node = node.next) {
            count++;
        }
        System.out.println(count);
    }

    static void updated() throws InterruptedException {
        AtomicReference<Counter> best = new AtomicReference<>(new Counter());
        Runnable grow =
                () -> {
                    for (int turn = 0; turn < 10; turn++) {
                        best.updateAndGet(
                                before -> {
                                    Counter after = new Counter();
                                    after.count = before.count + 1;
                                    return after;
                                });
                    }
                };
        both(grow, grow);
        System.out.println(best.get().count);
    }

    static void chained() throws Exception {
        Counter counter = new Counter();
        ExecutorService pool = Executors.newFixedThreadPool(2);
        for (int turn = 0; turn < 10; turn++) {
            Future<Integer> next = pool.submit(() -> ++counter.count);
            System.out.println(next.get());
        }
        pool.shutdown();
        System.out.println(pool.awaitTermination(10, TimeUnit.SECONDS));
    }

    private MoreClean() {}

    public static void main(String[] words) throws Exception {
        MoreClean.class.getDeclaredMethod(words[0]).invoke(null);
    }
}
