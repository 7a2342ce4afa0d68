import java.util.Map;
import java.util.Set;
import java.util.concurrent.ConcurrentHashMap;
import java.util.concurrent.ConcurrentMap;
import java.util.concurrent.ConcurrentSkipListMap;

/** Programs that share a concurrent map or set, each with a race. */
public final class MappedRaces {
    static final class Store {
        int left = 2;
        int sold;
    }

    private static void both(Handed.Body one, Handed.Body other) throws InterruptedException {
        Handed.both(one, other);
    }

    static void otherKeys() throws InterruptedException {
        Map<String, Integer> stock = new ConcurrentHashMap<>();
        Store store = new Store();
        both(
                () -> {
                    store.left--; // race: otherKeys
                    stock.put("apple", 1);
                },
                () -> {
                    stock.put("pear", 2);
                    store.left--; // race: otherKeys
                });
    }

    static void sharedValue() throws InterruptedException {
        ConcurrentMap<String, Store> stores = new ConcurrentHashMap<>();
        Handed.Body sell =
                () -> {
                    Store store = stores.computeIfAbsent("north", absent -> new Store());
                    store.sold++; // race: sharedValue
                };
        both(sell, sell);
    }

    static void behindThePutting() throws InterruptedException {
        Map<String, Store> stores = new ConcurrentSkipListMap<>();
        both(
                () -> {
                    Store store = new Store();
                    stores.put("north", store);
                    store.left = 3; // race: behindThePutting
                },
                () -> {
                    Store store = null;
                    while (store == null) {
                        store = stores.get("north");
                    }
                    Thread.sleep(40);
                    System.out.println(store.left); // race: behindThePutting
                });
    }

    static void countedTwice() throws InterruptedException {
        ConcurrentMap<String, Integer> counts = new ConcurrentHashMap<>();
        Store store = new Store();
        Handed.Body count =
                () -> {
                    counts.merge(Thread.currentThread().getName(), 1, Integer::sum);
                    store.sold++; // race: countedTwice
                };
        both(count, count);
    }

    static void otherMembers() throws InterruptedException {
        Set<String> names = ConcurrentHashMap.newKeySet();
        Store store = new Store();
        Handed.Body join =
                () -> {
                    if (names.add(Thread.currentThread().getName())) {
                        store.sold++; // race: otherMembers
                    }
                };
        both(join, join);
    }

    /** Who loses has put nothing. */
    static void lost() throws InterruptedException {
        ConcurrentMap<String, String> owners = new ConcurrentHashMap<>();
        Store store = new Store();
        owners.put("north", "main");
        both(
                () -> {
                    store.left = 3; // race: lost
                    owners.putIfAbsent("north", "alice");
                },
                () -> {
                    Thread.sleep(40);
                    System.out.println(owners.get("north"));
                    System.out.println(store.left); // race: lost
                });
    }

    private MappedRaces() {}

    public static void main(String[] words) throws Exception {
        MappedRaces.class.getDeclaredMethod(words[0]).invoke(null);
    }
}
