import java.util.ArrayList;
import java.util.List;
import java.util.concurrent.CompletableFuture;
import java.util.concurrent.ForkJoinPool;
import java.util.concurrent.ForkJoinTask;
import java.util.concurrent.RecursiveAction;
import java.util.stream.IntStream;

/** Programs of futures with stages, of fork-join pools and of parallel streams, each with a race. */
public final class StagedRaces {
    static final class Store {
        int left = 2;
        int sold;
    }

    static void twoSuppliers() {
        Store store = new Store();
        CompletableFuture<Integer> one = CompletableFuture.supplyAsync(() -> store.sold++); // race: twoSuppliers
        CompletableFuture<Integer> other = CompletableFuture.supplyAsync(() -> store.sold++); // race: twoSuppliers
        System.out.println(one.join() + other.join() > 99);
    }

    static void oneWorker() throws Exception {
        Store store = new Store();
        ForkJoinPool pool = new ForkJoinPool(1);
        List<ForkJoinTask<?>> jobs = new ArrayList<>();
        for (int number = 0; number < 3; number++) {
            jobs.add(pool.submit(() -> store.sold++)); // race: oneWorker
        }
        for (ForkJoinTask<?> job : jobs) {
            job.get();
        }
        pool.shutdown();
    }

    /** Two stages behind one future. */
    static void siblings() {
        Store store = new Store();
        CompletableFuture<Integer> asked = new CompletableFuture<>();
        CompletableFuture<Void> one = asked.thenAccept(number -> store.sold += number); // race: siblings
        CompletableFuture<Void> other = asked.thenAccept(number -> store.sold += number); // race: siblings
        asked.complete(1);
        CompletableFuture.allOf(one, other).join();
    }

    static void notJoined() throws InterruptedException {
        Store store = new Store();
        CompletableFuture.runAsync(() -> store.sold = 1); // race: notJoined
        Thread.sleep(1000);
        System.out.println(store.sold); // race: notJoined
    }

    static final class Count extends RecursiveAction {
        private static final long serialVersionUID = 1;
        private static int all;
        private final int depth;

        Count(int depth) {
            this.depth = depth;
        }

        @Override
        protected void compute() {
            if (depth == 0) {
                all++; // race: countedByAll
            } else {
                invokeAll(new Count(depth - 1), new Count(depth - 1));
            }
        }
    }

    static void countedByAll() {
        new ForkJoinPool(2).invoke(new Count(2));
    }

    static int seen;

    static void summed() {
        IntStream.range(0, 1_000).parallel().forEach(number -> seen++); // race: summed
    }

    private StagedRaces() {}

    public static void main(String[] words) throws Exception {
        StagedRaces.class.getDeclaredMethod(words[0]).invoke(null);
    }
}
