import java.util.Collections;
import java.util.Iterator;
import java.util.Map;
import java.util.Set;
import java.util.concurrent.ConcurrentHashMap;
import java.util.concurrent.ConcurrentMap;
import java.util.concurrent.ConcurrentSkipListMap;
import java.util.concurrent.ConcurrentSkipListSet;

/** Programs that share a concurrent map or set, without a race. */
public final class Mapped {
    static final class Store {
        int left = 2;
    }

    private static void both(Handed.Body one, Handed.Body other) throws InterruptedException {
        Handed.both(one, other);
    }

    private static void wait(Map<String, Store> stores) {
        while (stores.get("north") == null) {
            Thread.onSpinWait();
        }
    }

    private static void putAndGet(Map<String, Store> stores) throws InterruptedException {
        both(
                () -> {
                    Store store = new Store();
                    store.left = 7;
                    stores.put("north", store);
                },
                () -> {
                    wait(stores);
                    System.out.println(stores.get("north").left);
                });
    }

    static void concurrentMap() throws InterruptedException {
        putAndGet(new ConcurrentHashMap<>());
    }

    static void sortedMap() throws InterruptedException {
        putAndGet(new ConcurrentSkipListMap<>());
    }

    static void computed() throws InterruptedException {
        ConcurrentMap<String, Store> stores = new ConcurrentHashMap<>();
        Handed.Body grow =
                () -> {
                    for (int turn = 0; turn < 20; turn++) {
                        stores.compute(
                                "north",
                                (name, before) -> {
                                    Store store = before == null ? new Store() : before;
                                    store.left++;
                                    return store;
                                });
                    }
                };
        both(grow, grow);
        System.out.println(stores.get("north").left);
    }

    static void computedOnce() throws InterruptedException {
        ConcurrentMap<Integer, Store> stores = new ConcurrentHashMap<>();
        Handed.Body use =
                () -> {
                    for (int number = 0; number < 10; number++) {
                        int left = number;
                        Store store =
                                stores.computeIfAbsent(
                                        number,
                                        absent -> {
                                            Store made = new Store();
                                            made.left = left;
                                            return made;
                                        });
                        System.out.println(store.left > 99);
                    }
                };
        both(use, use);
    }

    static void merged() throws InterruptedException {
        ConcurrentHashMap<String, int[]> counts = new ConcurrentHashMap<>();
        Handed.Body count =
                () -> {
                    for (int turn = 0; turn < 20; turn++) {
                        counts.merge("word", new int[] {1}, (one, other) -> new int[] {one[0] + other[0]});
                    }
                };
        both(count, count);
        System.out.println(counts.get("word")[0]);
    }

    static void taken() throws InterruptedException {
        ConcurrentMap<String, Store> stores = new ConcurrentHashMap<>();
        stores.put("north", new Store());
        Handed.Body use =
                () -> {
                    for (int turn = 0; turn < 10; ) {
                        Store store = stores.remove("north");
                        if (store != null) {
                            store.left++;
                            stores.put("north", store);
                            turn++;
                        }
                    }
                };
        both(use, use);
    }

    static void emptied() throws InterruptedException {
        ConcurrentMap<String, Store> stores = new ConcurrentHashMap<>();
        Store store = new Store();
        stores.put("north", store);
        both(
                () -> {
                    store.left = 5;
                    stores.remove("north");
                },
                () -> {
                    while (stores.containsKey("north")) {
                        Thread.onSpinWait();
                    }
                    System.out.println(store.left);
                });
    }

    static void wentThrough() throws InterruptedException {
        Map<String, Store> stores = new ConcurrentHashMap<>();
        both(
                () -> {
                    for (String name : new String[] {"north", "south"}) {
                        Store store = new Store();
                        store.left = 7;
                        stores.put(name, store);
                    }
                },
                () -> {
                    while (stores.size() < 2) {
                        Thread.onSpinWait();
                    }
                    for (Map.Entry<String, Store> entry : stores.entrySet()) {
                        System.out.println(entry.getValue().left);
                    }
                    Iterator<Store> all = stores.values().iterator();
                    System.out.println(all.next().left);
                    stores.forEach((name, store) -> System.out.println(store.left));
                    System.out.println(stores.values().stream().mapToInt(store -> store.left).sum());
                });
    }

    static void members() throws InterruptedException {
        Set<String> names = ConcurrentHashMap.newKeySet();
        Set<String> sorted = new ConcurrentSkipListSet<>();
        Store store = new Store();
        both(
                () -> {
                    store.left = 5;
                    names.add("north");
                    sorted.add("north");
                },
                () -> {
                    while (!names.contains("north")) {
                        Thread.onSpinWait();
                    }
                    System.out.println(store.left);
                    while (!sorted.contains("north")) {
                        Thread.onSpinWait();
                    }
                });
    }

    record Pair(String name, int number) {}

    static void byRecords() throws InterruptedException {
        Map<Pair, Store> stores = new ConcurrentHashMap<>();
        both(
                () -> {
                    Store store = new Store();
                    store.left = 7;
                    stores.putIfAbsent(new Pair("north", 1), store);
                },
                () -> {
                    Store store = null;
                    while (store == null) {
                        store = stores.get(new Pair("north", 1));
                    }
                    System.out.println(store.left);
                });
    }

    static void shownOnly() throws InterruptedException {
        ConcurrentMap<String, Store> stores = new ConcurrentHashMap<>();
        Map<String, Store> shown = Collections.unmodifiableMap(stores);
        both(
                () -> {
                    Store store = new Store();
                    store.left = 7;
                    stores.put("north", store);
                },
                () -> {
                    wait(shown);
                    System.out.println(shown.get("north").left);
                });
    }

    private Mapped() {}

    public static void main(String[] words) throws Exception {
        Mapped.class.getDeclaredMethod(words[0]).invoke(null);
    }
}
