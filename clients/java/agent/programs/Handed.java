import java.util.ArrayList;
import java.util.Comparator;
import java.util.List;
import java.util.Queue;
import java.util.concurrent.ArrayBlockingQueue;
import java.util.concurrent.BlockingQueue;
import java.util.concurrent.BrokenBarrierException;
import java.util.concurrent.ConcurrentLinkedDeque;
import java.util.concurrent.ConcurrentLinkedQueue;
import java.util.concurrent.CopyOnWriteArrayList;
import java.util.concurrent.CopyOnWriteArraySet;
import java.util.concurrent.CountDownLatch;
import java.util.concurrent.CyclicBarrier;
import java.util.concurrent.DelayQueue;
import java.util.concurrent.Delayed;
import java.util.concurrent.Exchanger;
import java.util.concurrent.LinkedBlockingDeque;
import java.util.concurrent.LinkedBlockingQueue;
import java.util.concurrent.LinkedTransferQueue;
import java.util.concurrent.Phaser;
import java.util.concurrent.PriorityBlockingQueue;
import java.util.concurrent.SubmissionPublisher;
import java.util.concurrent.SynchronousQueue;
import java.util.concurrent.TimeUnit;
import java.util.concurrent.TransferQueue;
import java.util.concurrent.atomic.AtomicBoolean;

/** Programs that hand something over by a queue, an exchanger, a barrier or a phaser, without a race. */
public final class Handed {
    static final class Store implements Delayed {
        int left = 2;
        int sold;

        @Override
        public long getDelay(TimeUnit unit) {
            return 0;
        }

        @Override
        public int compareTo(Delayed other) {
            return 0;
        }
    }

    /** What may be interrupted. */
    interface Body {
        void run() throws Exception;
    }

    static void both(Body one, Body other) throws InterruptedException {
        Thread first = new Thread(() -> run(one), "first");
        Thread second = new Thread(() -> run(other), "second");
        first.start();
        second.start();
        first.join();
        second.join();
    }

    static void run(Body body) {
        try {
            body.run();
        } catch (Exception failed) {
            throw new IllegalStateException(failed);
        }
    }

    private static void handOver(BlockingQueue<Store> orders) throws InterruptedException {
        both(
                () -> {
                    for (int turn = 0; turn < 6; turn++) {
                        Store store = new Store();
                        store.left = turn;
                        orders.put(store);
                    }
                },
                () -> {
                    for (int turn = 0; turn < 6; turn++) {
                        Store store = orders.take();
                        store.left++;
                    }
                });
    }

    static void queuedInArray() throws InterruptedException {
        handOver(new ArrayBlockingQueue<>(2));
    }

    static void queuedInNodes() throws InterruptedException {
        handOver(new LinkedBlockingQueue<>());
    }

    static void queuedInDeque() throws InterruptedException {
        handOver(new LinkedBlockingDeque<>(3));
    }

    /** Who has taken the first element of the queue comes before who puts one more than it has room for. */
    private static void fill(BlockingQueue<Integer> queue, Body take) throws InterruptedException {
        Store store = new Store();
        int room = queue.remainingCapacity();
        both(
                () -> {
                    for (int number = 0; number <= room; number++) {
                        queue.put(number);
                    }
                    System.out.println(store.left);
                },
                () -> {
                    store.left = 7;
                    while (queue.remainingCapacity() > 0) {
                        Thread.onSpinWait();
                    }
                    take.run();
                });
    }

    static void roomInArray() throws InterruptedException {
        BlockingQueue<Integer> queue = new ArrayBlockingQueue<>(2);
        fill(queue, queue::take);
    }

    static void roomInFullArray() throws InterruptedException {
        BlockingQueue<Integer> queue = new ArrayBlockingQueue<>(3, false, List.of(1, 2));
        fill(queue, queue::poll);
    }

    static void roomInNodes() throws InterruptedException {
        BlockingQueue<Integer> queue = new LinkedBlockingQueue<>(3);
        fill(queue, queue::take);
    }

    static void roomInDeque() throws InterruptedException {
        LinkedBlockingDeque<Integer> queue = new LinkedBlockingDeque<>(1);
        fill(queue, queue::takeLast);
    }

    /** The room that was made first is used first. */
    static void roomsInTurn() throws InterruptedException {
        BlockingQueue<Integer> queue = new LinkedBlockingQueue<>(List.of(1, 2));
        BlockingQueue<Integer> small = new LinkedBlockingQueue<>(2);
        queue.drainTo(small);
        Store store = new Store();
        both(
                () -> {
                    store.left = 7;
                    small.take();
                },
                () -> {
                    while (small.remainingCapacity() == 0) {
                        Thread.onSpinWait();
                    }
                    small.take();
                    small.put(3);
                    System.out.println(store.left);
                });
    }

    static void roomByRemoval() throws InterruptedException {
        BlockingQueue<Integer> queue = new ArrayBlockingQueue<>(2);
        BlockingQueue<Integer> other = new LinkedBlockingQueue<>(2);
        fill(queue, () -> queue.remove(1));
        fill(other, () -> other.remove(1));
    }

    static void roomByDrain() throws InterruptedException {
        BlockingQueue<Integer> queue = new ArrayBlockingQueue<>(2);
        BlockingQueue<Integer> other = new LinkedBlockingQueue<>(2);
        fill(queue, () -> queue.drainTo(new ArrayList<>()));
        fill(other, () -> other.drainTo(new ArrayList<>()));
    }

    static void roomByClearing() throws InterruptedException {
        BlockingQueue<Integer> queue = new ArrayBlockingQueue<>(2);
        BlockingQueue<Integer> other = new LinkedBlockingQueue<>(2);
        fill(queue, queue::clear);
        fill(other, () -> other.removeIf(number -> number == 0));
    }

    /** A list that takes nothing. */
    static final class Refusing<T> extends ArrayList<T> {
        @Override
        public boolean add(T element) {
            throw new IllegalStateException("it is closed");
        }
    }

    private static <T> void drainInVain(BlockingQueue<T> queue) {
        try {
            queue.drainTo(new Refusing<>());
        } catch (IllegalStateException refused) {
            System.out.println(refused.getMessage());
        }
    }

    /** What is not drained makes no room. */
    static void roomBehindNoDrain() throws InterruptedException {
        BlockingQueue<Integer> queue = new ArrayBlockingQueue<>(3, false, List.of(1, 2, 3));
        Store store = new Store();
        both(
                () -> {
                    queue.put(4);
                    queue.put(5);
                    System.out.println(store.left);
                },
                () -> {
                    drainInVain(queue);
                    queue.take();
                    store.left = 7;
                    queue.take();
                });
    }

    /** What is not drained is still there for others. */
    private static void takeUndrained(BlockingQueue<Store> orders) throws InterruptedException {
        AtomicBoolean isRefused = new AtomicBoolean();
        Thread draining =
                new Thread(
                        () -> {
                            while (orders.isEmpty()) {
                                Thread.onSpinWait();
                            }
                            drainInVain(orders);
                            isRefused.setOpaque(true);
                        });
        draining.start();
        both(
                () -> {
                    Store store = new Store();
                    store.left = 4;
                    orders.put(store);
                },
                () -> {
                    while (!isRefused.getOpaque()) {
                        Thread.onSpinWait();
                    }
                    System.out.println(orders.take().left);
                });
        draining.join();
    }

    static void takenBehindNoDrain() throws InterruptedException {
        takeUndrained(new ArrayBlockingQueue<>(2));
        takeUndrained(new LinkedBlockingQueue<>());
    }

    static void takenBehindNoDrainOfDelayed() throws InterruptedException {
        takeUndrained(new DelayQueue<>());
    }

    static void queuedByPriority() throws InterruptedException {
        handOver(new PriorityBlockingQueue<>(4, Comparator.comparing(Store::hashCode)));
    }

    static void queuedWithDelay() throws InterruptedException {
        DelayQueue<Store> orders = new DelayQueue<>();
        both(
                () -> {
                    Store store = new Store();
                    store.left = 5;
                    orders.put(store);
                },
                () -> System.out.println(orders.take().left));
    }

    /** The queue asks each element for its number as it compares them. */
    static void comparedByNumber() throws InterruptedException {
        BlockingQueue<Store> orders = new PriorityBlockingQueue<>(4, Comparator.comparingInt(store -> store.left));
        both(() -> putDown(orders), () -> takeAll(orders));
    }

    static void comparedByDelay() throws InterruptedException {
        BlockingQueue<Numbered> orders = new DelayQueue<>();
        both(
                () -> {
                    for (int number = 9; number > 0; number--) {
                        orders.put(new Numbered(number));
                    }
                },
                () -> {
                    for (int turn = 0; turn < 9; turn++) {
                        System.out.println(orders.take().number);
                    }
                });
    }

    /** It can be changed, and says by that when it is due. */
    static final class Numbered implements Delayed {
        int number;

        Numbered(int number) {
            this.number = number;
        }

        @Override
        public long getDelay(TimeUnit unit) {
            return number > 0 ? 0 : 1;
        }

        @Override
        public int compareTo(Delayed other) {
            return Integer.compare(number, ((Numbered) other).number);
        }
    }

    private static void putDown(BlockingQueue<Store> orders) throws InterruptedException {
        for (int number = 9; number > 0; number--) {
            Store store = new Store();
            store.left = number;
            orders.put(store);
        }
    }

    private static void takeAll(BlockingQueue<Store> orders) throws InterruptedException {
        for (int turn = 0; turn < 9; turn++) {
            System.out.println(orders.take().left);
        }
    }

    static void queuedByHand() throws InterruptedException {
        handOver(new SynchronousQueue<>());
    }

    static void queuedFairly() throws InterruptedException {
        handOver(new SynchronousQueue<>(true));
    }

    static void transferredBoth() throws InterruptedException {
        TransferQueue<Store> orders = new LinkedTransferQueue<>();
        Store store = new Store();
        both(
                () -> {
                    orders.put(new Store());
                    store.left = 3;
                    orders.transfer(store);
                    System.out.println(store.sold);
                },
                () -> {
                    orders.take().left++;
                    store.sold = 4;
                    System.out.println(orders.take().left);
                });
    }

    private static void pollAll(Queue<Store> orders) throws InterruptedException {
        both(
                () -> {
                    for (int turn = 0; turn < 6; turn++) {
                        Store store = new Store();
                        store.left = turn;
                        orders.add(store);
                    }
                },
                () -> {
                    for (int turn = 0; turn < 6; ) {
                        Store store = orders.poll();
                        if (store != null) {
                            store.left++;
                            turn++;
                        }
                    }
                });
    }

    static void polled() throws InterruptedException {
        pollAll(new ConcurrentLinkedQueue<>());
    }

    static void polledFromDeque() throws InterruptedException {
        pollAll(new ConcurrentLinkedDeque<>());
    }

    static void peekedAt() throws InterruptedException {
        BlockingQueue<Store> orders = new LinkedBlockingQueue<>();
        both(
                () -> {
                    Store store = new Store();
                    store.left = 8;
                    orders.put(store);
                },
                () -> {
                    while (orders.peek() == null) {
                        Thread.onSpinWait();
                    }
                    for (Store store : orders) {
                        System.out.println(store.left);
                    }
                });
    }

    static void drained() throws InterruptedException {
        BlockingQueue<Store> orders = new ArrayBlockingQueue<>(8);
        BlockingQueue<Store> others = new LinkedBlockingQueue<>();
        both(
                () -> {
                    for (int turn = 0; turn < 3; turn++) {
                        Store store = new Store();
                        store.left = 8;
                        orders.put(store);
                        Store other = new Store();
                        other.left = 9;
                        others.put(other);
                    }
                },
                () -> {
                    List<Store> all = new ArrayList<>();
                    while (all.size() < 6) {
                        orders.drainTo(all);
                        others.drainTo(all, 2);
                    }
                    for (Store store : all) {
                        System.out.println(store.left);
                    }
                });
    }

    /** The same element is put by two, and who takes it twice comes after both. */
    static void samePill() throws InterruptedException {
        BlockingQueue<String> ended = new LinkedBlockingQueue<>();
        Store one = new Store();
        Store other = new Store();
        Thread reading =
                new Thread(
                        () ->
                                run(
                                        () -> {
                                            ended.take();
                                            ended.take();
                                            System.out.println(one.left + other.left);
                                        }));
        reading.start();
        both(
                () -> {
                    one.left = 4;
                    ended.put("end");
                },
                () -> {
                    other.left = 4;
                    ended.put("end");
                });
        reading.join();
    }

    static void exchanged() throws InterruptedException {
        Exchanger<Store> exchanger = new Exchanger<>();
        Body swap =
                () -> {
                    Store own = new Store();
                    for (int turn = 0; turn < 5; turn++) {
                        own.left++;
                        own = exchanger.exchange(own);
                    }
                };
        both(swap, swap);
    }

    static void metAtBarrier() throws InterruptedException {
        Store total = new Store();
        Store one = new Store();
        Store other = new Store();
        CyclicBarrier barrier = new CyclicBarrier(2, () -> total.left += one.left + other.left);
        both(() -> meet(barrier, one, other, total), () -> meet(barrier, other, one, total));
    }

    private static void meet(CyclicBarrier barrier, Store own, Store others, Store total)
            throws InterruptedException, BrokenBarrierException {
        for (int turn = 0; turn < 4; turn++) {
            own.left = turn;
            barrier.await();
            System.out.println(others.left + total.left > 99);
            barrier.await();
        }
    }

    static void phased() throws InterruptedException {
        Store one = new Store();
        Store other = new Store();
        Store total = new Store();
        Phaser phaser =
                new Phaser(2) {
                    @Override
                    protected boolean onAdvance(int phase, int parties) {
                        total.left += one.left + other.left;
                        return false;
                    }
                };
        both(() -> step(phaser, one, other, total), () -> step(phaser, other, one, total));
    }

    private static void step(Phaser phaser, Store own, Store others, Store total) {
        for (int turn = 0; turn < 4; turn++) {
            own.left = turn;
            phaser.arriveAndAwaitAdvance();
            System.out.println(others.left + total.left > 99);
            phaser.arriveAndAwaitAdvance();
        }
    }

    static void arrived() throws InterruptedException {
        Phaser phaser = new Phaser(2);
        Store store = new Store();
        both(
                () -> {
                    store.left = 7;
                    phaser.arriveAndDeregister();
                },
                () -> {
                    int phase = phaser.arrive();
                    phaser.awaitAdvance(phase);
                    System.out.println(store.left);
                });
    }

    static void listening() throws InterruptedException {
        List<Store> listeners = new CopyOnWriteArrayList<>();
        CopyOnWriteArraySet<Store> all = new CopyOnWriteArraySet<>();
        both(
                () -> {
                    Store store = new Store();
                    store.left = 7;
                    listeners.add(store);
                    all.add(store);
                },
                () -> {
                    while (listeners.isEmpty() || all.isEmpty()) {
                        Thread.onSpinWait();
                    }
                    for (Store store : listeners) {
                        System.out.println(store.left);
                    }
                    all.forEach(store -> System.out.println(store.left));
                });
    }

    static void published() throws InterruptedException {
        CountDownLatch over = new CountDownLatch(1);
        Store total = new Store();
        try (SubmissionPublisher<Store> publisher = new SubmissionPublisher<>()) {
            publisher.consume(store -> total.left += store.left).thenRun(over::countDown);
            for (int number = 0; number < 5; number++) {
                Store store = new Store();
                store.left = number;
                publisher.submit(store);
            }
        }
        over.await();
        System.out.println(total.left);
    }

    private Handed() {}

    public static void main(String[] words) throws Exception {
        Handed.class.getDeclaredMethod(words[0]).invoke(null);
    }
}
