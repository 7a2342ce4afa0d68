import java.util.ArrayList;
import java.util.List;
import java.util.concurrent.Callable;
import java.util.concurrent.CompletableFuture;
import java.util.concurrent.CompletionException;
import java.util.concurrent.ExecutorCompletionService;
import java.util.concurrent.ExecutorService;
import java.util.concurrent.Executors;
import java.util.concurrent.ForkJoinPool;
import java.util.concurrent.ForkJoinTask;
import java.util.concurrent.Future;
import java.util.concurrent.RecursiveAction;
import java.util.concurrent.RecursiveTask;
import java.util.concurrent.TimeUnit;
import java.util.stream.Collectors;
import java.util.stream.IntStream;

/** Programs of futures with stages, of fork-join pools and of parallel streams, without a race. */
public final class Staged {
    static final class Store {
        int left = 2;
        String owner = "nobody";
    }

    static void completed() throws Exception {
        Store store = new Store();
        CompletableFuture<Integer> sold =
                CompletableFuture.supplyAsync(
                        () -> {
                            store.left--;
                            return 1;
                        });
        CompletableFuture<String> told =
                sold.thenApply(
                                count -> {
                                    store.owner = "bob";
                                    return "sold " + count;
                                })
                        .thenCombine(CompletableFuture.supplyAsync(() -> "!"), (one, other) -> one + other);
        System.out.println(told.join() + store.left + store.owner);
    }

    static final class Sum extends RecursiveTask<Long> {
        private static final long serialVersionUID = 1;
        private final int from;
        private final int to;
        private long sum;

        Sum(int from, int to) {
            this.from = from;
            this.to = to;
        }

        @Override
        protected Long compute() {
            if (to - from < 200) {
                for (int number = from; number < to; number++) {
                    sum += number;
                }
            } else {
                Sum left = new Sum(from, (from + to) / 2);
                Sum right = new Sum((from + to) / 2, to);
                left.fork();
                right.compute();
                left.join();
                sum = left.sum + right.sum;
            }
            return sum;
        }
    }

    static void forked() {
        Sum sum = new Sum(0, 2_000);
        new ForkJoinPool(3).invoke(sum);
        System.out.println(sum.sum);
    }

    static void inParallel() {
        Store store = new Store();
        store.left = 5;
        int sum = IntStream.range(0, 1_000).parallel().map(number -> number + store.left).sum();
        store.left = sum;
        System.out.println(store.left);
    }

    static void registered() throws Exception {
        Store store = new Store();
        CompletableFuture<String> asked = new CompletableFuture<>();
        store.left = 5;
        CompletableFuture<Integer> told = asked.thenApply(name -> store.left + name.length());
        CompletableFuture<Void> other = asked.thenAcceptAsync(name -> System.out.println(store.left));
        Thread answering = new Thread(() -> asked.complete("bob"));
        answering.start();
        System.out.println(told.get());
        other.join();
    }

    static void failed() throws InterruptedException {
        Store store = new Store();
        CompletableFuture<Integer> sold =
                CompletableFuture.supplyAsync(
                        () -> {
                            store.left = 0;
                            throw new IllegalStateException("sold out");
                        });
        int left = sold.thenApply(one -> one + 1).exceptionally(failure -> store.left).join();
        System.out.println(left);
        try {
            sold.join();
        } catch (CompletionException failure) {
            System.out.println(failure.getCause().getMessage() + store.left);
        }
    }

    static void allOfThem() {
        List<Store> stores = new ArrayList<>();
        List<CompletableFuture<Void>> jobs = new ArrayList<>();
        for (int number = 0; number < 8; number++) {
            Store store = new Store();
            stores.add(store);
            jobs.add(CompletableFuture.runAsync(() -> store.left++));
        }
        CompletableFuture.allOf(jobs.toArray(new CompletableFuture<?>[0])).join();
        System.out.println(stores.stream().mapToInt(store -> store.left).sum());
    }

    static void composed() {
        Store store = new Store();
        String told =
                CompletableFuture.supplyAsync(
                                () -> {
                                    store.left = 7;
                                    return 1;
                                })
                        .thenCompose(one -> CompletableFuture.supplyAsync(() -> store.left + one))
                        .handle((sum, failure) -> store.left + " " + sum)
                        .whenComplete((text, failure) -> store.owner = text)
                        .thenCombine(CompletableFuture.supplyAsync(() -> "!"), (one, other) -> one + other)
                        .join();
        System.out.println(told + store.owner);
    }

    static void onOwnPool() throws Exception {
        Store store = new Store();
        ExecutorService pool = Executors.newFixedThreadPool(3);
        CompletableFuture<Void> first = CompletableFuture.runAsync(() -> store.left = 3, pool);
        first.thenRunAsync(() -> store.left++, pool).thenRun(() -> store.left++).get(9, TimeUnit.SECONDS);
        System.out.println(store.left);
        pool.shutdown();
    }

    static final class Grow extends RecursiveAction {
        private static final long serialVersionUID = 1;
        private final transient Store[] stores;
        private final int from;
        private final int to;

        Grow(Store[] stores, int from, int to) {
            this.stores = stores;
            this.from = from;
            this.to = to;
        }

        @Override
        protected void compute() {
            if (to - from == 1) {
                stores[from].left++;
            } else {
                invokeAll(new Grow(stores, from, (from + to) / 2), new Grow(stores, (from + to) / 2, to));
                System.out.println(stores[from].left + stores[to - 1].left > 99);
            }
        }
    }

    static void invokedAll() {
        Store[] stores = new Store[16];
        for (int number = 0; number < stores.length; number++) {
            stores[number] = new Store();
        }
        ForkJoinPool.commonPool().invoke(new Grow(stores, 0, 16));
        System.out.println(stores[7].left);
    }

    static void submitted() throws Exception {
        Store store = new Store();
        ForkJoinPool pool = new ForkJoinPool(2);
        store.left = 4;
        ForkJoinTask<Integer> sold = pool.submit(() -> --store.left);
        System.out.println(sold.get() + store.left);
        pool.execute(() -> store.left++);
        pool.shutdown();
        pool.awaitTermination(9, TimeUnit.SECONDS);
        System.out.println(store.left);
    }

    static final ThreadLocal<StringBuilder> TEXT = ThreadLocal.withInitial(StringBuilder::new);

    static void ownTexts() {
        int sum =
                IntStream.range(0, 200)
                        .parallel()
                        .map(
                                number -> {
                                    StringBuilder text = TEXT.get();
                                    text.setLength(0);
                                    return text.append(number).length();
                                })
                        .sum();
        System.out.println(sum);
    }

    static void collected() {
        List<Store> stores = IntStream.range(0, 100).mapToObj(number -> new Store()).collect(Collectors.toList());
        stores.parallelStream().forEach(store -> store.left++);
        System.out.println(stores.stream().mapToInt(store -> store.left).sum());
        List<Integer> all = stores.parallelStream().map(store -> store.left).sorted().collect(Collectors.toList());
        System.out.println(all.size());
    }

    static void firstDone() throws Exception {
        ExecutorService pool = Executors.newFixedThreadPool(3);
        ExecutorCompletionService<Store> done = new ExecutorCompletionService<>(pool);
        List<Callable<Store>> jobs = new ArrayList<>();
        for (int number = 0; number < 4; number++) {
            jobs.add(
                    () -> {
                        Store store = new Store();
                        store.left = 1;
                        return store;
                    });
        }
        for (Callable<Store> job : jobs) {
            done.submit(job);
        }
        for (int number = 0; number < 4; number++) {
            System.out.println(done.take().get().left);
        }
        for (Future<Store> one : pool.invokeAll(jobs)) {
            System.out.println(one.get().left);
        }
        System.out.println(pool.invokeAny(jobs).left);
        pool.shutdown();
    }

    private Staged() {}

    public static void main(String[] words) throws Exception {
        Staged.class.getDeclaredMethod(words[0]).invoke(null);
    }
}
