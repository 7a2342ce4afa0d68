import java.lang.reflect.Field;
import java.util.ArrayList;
import java.util.Collections;
import java.util.ConcurrentModificationException;
import java.util.List;
import java.util.concurrent.ConcurrentHashMap;
import java.util.concurrent.ConcurrentMap;

/**
 * Programs that do what is not followed exactly. No race is told of them, and each line that says so in a comment is named as not looked
 * into.
 */
public final class Stars {
    static final class Store {
        int left = 2;
        String owner = "nobody";
    }

    static void both(Runnable one, Runnable other) throws InterruptedException {
        Thread first = new Thread(one, "first");
        Thread second = new Thread(other, "second");
        first.start();
        second.start();
        first.join();
        second.join();
    }

    private static void rest() {
        try {
            Thread.sleep(30);
        } catch (InterruptedException interrupted) {
            Thread.currentThread().interrupt();
        }
    }

    /** A key that says by itself what it equals. Nobody calls that more often than the program does. */
    static final class Name {
        private final String text;

        Name(String text) {
            this.text = text;
        }

        @Override
        public boolean equals(Object other) {
            return other instanceof Name name && name.text.equals(text);
        }

        @Override
        public int hashCode() {
            return text.hashCode();
        }
    }

    static void ownKeys() throws InterruptedException {
        ConcurrentMap<Name, Store> stores = new ConcurrentHashMap<>();
        both(
                () -> {
                    Store store = new Store();
                    store.left = 7;
                    stores.put(new Name("north"), store);
                },
                () -> {
                    while (stores.get(new Name("north")) == null) {
                        Thread.onSpinWait();
                    }
                    System.out.println(stores.get(new Name("north")).left); // star: ownKeys
                });
    }

    /** The list guards itself, but not who goes through it. */
    static void unguarded() throws InterruptedException {
        List<String> names = Collections.synchronizedList(new ArrayList<>());
        names.add("one");
        both(
                () -> names.add("two"),
                () -> {
                    try {
                        rest();
                        for (String name : names) { // star: unguarded
                            System.out.println(name.length());
                        }
                    } catch (ConcurrentModificationException changed) {
                        System.out.println("changed");
                    }
                });
    }

    static void reflected() throws Exception {
        Store store = new Store();
        Field field = Store.class.getDeclaredField("left");
        field.setInt(store, 3); // star: reflected
        System.out.println(store.left);
    }

    private Stars() {}

    public static void main(String[] words) throws Exception {
        Stars.class.getDeclaredMethod(words[0]).invoke(null);
    }
}
