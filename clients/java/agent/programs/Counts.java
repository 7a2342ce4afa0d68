import java.util.ArrayList;
import java.util.List;
import java.util.concurrent.locks.Lock;
import java.util.concurrent.locks.ReentrantLock;

/** Programs of which the last line of a run has to count the things that two tasks touch, and the lines that touch each of them. */
public final class Counts {
    static final class Store {
        int left;
        int sold;
    }

    private static void both(Runnable one, Runnable other) throws InterruptedException {
        Thread first = new Thread(one, "first");
        Thread second = new Thread(other, "second");
        first.start();
        second.start();
        first.join();
        second.join();
    }

    /** Counts 3 places of 2 things: a lock settles all pairs. */
    static void underALock() throws InterruptedException {
        Store store = new Store();
        Lock lock = new ReentrantLock();
        Runnable sell =
                () -> {
                    lock.lock();
                    store.left--;
                    store.sold++;
                    lock.unlock();
                };
        both(sell, sell);
        System.out.println(store.left);
    }

    /** Counts 2 places of 1 thing: all pairs are in order. */
    static void inOrder() throws InterruptedException {
        Store store = new Store();
        store.left = 7;
        Thread only = new Thread(() -> store.left--);
        only.start();
        only.join();
    }

    /** Counts 0 places of 0 things: what one task alone touches does not count. */
    static void alone() throws InterruptedException {
        Store store = new Store();
        store.left = 7;
        int[] numbers = new int[9];
        numbers[3] = store.left;
        Thread other = new Thread(() -> System.out.println(new Store().left));
        other.start();
        other.join();
        System.out.println(numbers[3]);
    }

    /** Counts 2 places of 1 thing: all elements of an array are one. */
    static void elements() throws InterruptedException {
        int[] numbers = new int[200];
        both(() -> numbers[3] = 7, () -> { for (int at = 100; at < 200; at++) numbers[at]++; });
        System.out.println(numbers[3] + numbers[150]);
    }

    /** Counts 4 places of 2 things: which elements there are is another thing. */
    static void shapes() throws InterruptedException {
        List<Integer> numbers = new ArrayList<>(List.of(1, 2));
        Thread other = new Thread(() -> numbers.set(0, 3));
        other.start();
        other.join();
        System.out.println(numbers.get(1));
    }

    /** Counts 1 place of 1 thing, which has rows. */
    static void racing() throws InterruptedException {
        Store store = new Store();
        Runnable sell = () -> store.left--;
        both(sell, sell);
    }

    /** Counts 203 places of 202 things, with which elements the list has, and those. */
    static void many() throws InterruptedException {
        List<Store> stores = new ArrayList<>();
        for (int number = 0; number < 200; number++) {
            stores.add(new Store());
        }
        Runnable sell =
                () -> {
                    for (int number = 0; number < 200; number++) {
                        synchronized (Counts.class) {
                            stores.get(number).sold++;
                        }
                    }
                };
        both(sell, sell);
    }

    private Counts() {}

    public static void main(String[] words) throws Exception {
        Counts.class.getDeclaredMethod(words[0]).invoke(null);
    }
}
