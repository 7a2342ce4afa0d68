import java.lang.invoke.MethodHandles;
import java.lang.invoke.VarHandle;
import java.util.concurrent.atomic.AtomicIntegerFieldUpdater;
import java.util.concurrent.atomic.AtomicLongFieldUpdater;
import java.util.concurrent.atomic.AtomicReferenceFieldUpdater;

/** Programs that touch fields and elements by a VarHandle or by an updater, without a race. */
public final class Handles {
    static class Store {
        int left = 2;
        int flag;
        boolean isLocked;
        Store next;
        volatile int sold;
        volatile long total;
        volatile Store other;
    }

    static final class Branch extends Store {
        int number;
    }

    static Store shown;
    static volatile int count;

    static final VarHandle LEFT = of(Store.class, "left", int.class);
    static final VarHandle FLAG = of(Store.class, "flag", int.class);
    static final VarHandle IS_LOCKED = of(Store.class, "isLocked", boolean.class);
    static final VarHandle NEXT = of(Store.class, "next", Store.class);
    static final VarHandle SOLD = of(Store.class, "sold", int.class);
    static final VarHandle SHOWN = ofStatic("shown", Store.class);
    static final VarHandle COUNT = ofStatic("count", int.class);
    static final VarHandle NUMBERS = MethodHandles.arrayElementVarHandle(int[].class);
    static final VarHandle STORES = MethodHandles.arrayElementVarHandle(Store[].class);
    static final AtomicIntegerFieldUpdater<Store> SELLING = AtomicIntegerFieldUpdater.newUpdater(Store.class, "sold");
    static final AtomicLongFieldUpdater<Store> ADDING = AtomicLongFieldUpdater.newUpdater(Store.class, "total");
    static final AtomicReferenceFieldUpdater<Store, Store> LINKING =
            AtomicReferenceFieldUpdater.newUpdater(Store.class, Store.class, "other");

    static VarHandle of(Class<?> owner, String name, Class<?> type) {
        try {
            return MethodHandles.privateLookupIn(owner, MethodHandles.lookup()).findVarHandle(owner, name, type);
        } catch (ReflectiveOperationException missing) {
            throw new IllegalStateException(missing);
        }
    }

    private static VarHandle ofStatic(String name, Class<?> type) {
        try {
            return MethodHandles.lookup().findStaticVarHandle(Handles.class, name, type);
        } catch (ReflectiveOperationException missing) {
            throw new IllegalStateException(missing);
        }
    }

    static void both(Runnable one, Runnable other) throws InterruptedException {
        Thread first = new Thread(one, "first");
        Thread second = new Thread(other, "second");
        first.start();
        second.start();
        first.join();
        second.join();
    }

    static void released() throws InterruptedException {
        Store store = new Store();
        both(
                () -> {
                    store.left = 7;
                    FLAG.setRelease(store, 1);
                },
                () -> {
                    while ((int) FLAG.getAcquire(store) == 0) {
                        Thread.onSpinWait();
                    }
                    System.out.println(store.left);
                });
    }

    static void shownAsVolatile() throws InterruptedException {
        both(
                () -> {
                    Store store = new Store();
                    store.left = 7;
                    SHOWN.setVolatile(store);
                },
                () -> {
                    Store store = (Store) SHOWN.getVolatile();
                    while (store == null) {
                        store = (Store) SHOWN.getVolatile();
                    }
                    System.out.println(store.left);
                });
    }

    static void counted() throws InterruptedException {
        Store store = new Store();
        Runnable count =
                () -> {
                    for (int turn = 0; turn < 100; turn++) {
                        LEFT.getAndAdd(store, 1);
                    }
                };
        both(count, count);
        System.out.println(store.left);
    }

    static void stacked() throws InterruptedException {
        Store head = new Store();
        both(
                () -> {
                    for (int number = 0; number < 50; number++) {
                        Store store = new Store();
                        store.left = number;
                        do {
                            NEXT.set(store, (Store) NEXT.getAcquire(head));
                        } while (!NEXT.compareAndSet(head, store.next, store));
                    }
                },
                () -> {
                    int sum = 0;
                    for (int number = 0; number < 50; ) {
                        Store store = (Store) NEXT.getAcquire(head);
                        if (store != null && NEXT.compareAndSet(head, store, store.next)) {
                            sum += store.left;
                            number++;
                        }
                    }
                    System.out.println(sum);
                });
    }

    static void spun() throws InterruptedException {
        Store store = new Store();
        Runnable sell =
                () -> {
                    for (int turn = 0; turn < 40; turn++) {
                        while (!IS_LOCKED.weakCompareAndSetAcquire(store, false, true)) {
                            Thread.onSpinWait();
                        }
                        store.left++;
                        IS_LOCKED.setRelease(store, false);
                    }
                };
        both(sell, sell);
        System.out.println(store.left);
    }

    static void countedInArray() throws InterruptedException {
        int[] numbers = new int[8];
        Runnable count =
                () -> {
                    for (int turn = 0; turn < 100; turn++) {
                        NUMBERS.getAndAdd(numbers, turn % 8, 1);
                    }
                };
        both(count, count);
        System.out.println(numbers[3]);
    }

    static void releasedInArray() throws InterruptedException {
        Store[] stores = new Store[4];
        both(
                () -> {
                    Store store = new Store();
                    store.left = 7;
                    STORES.setRelease(stores, 2, store);
                },
                () -> {
                    Store store = (Store) STORES.getAcquire(stores, 2);
                    while (store == null) {
                        store = (Store) STORES.getAcquire(stores, 2);
                    }
                    System.out.println(store.left);
                });
    }

    static void neighbours() throws InterruptedException {
        int[] numbers = new int[8];
        both(() -> NUMBERS.set(numbers, 1, 7), () -> NUMBERS.set(numbers, 2, 8));
        System.out.println(numbers[1] + numbers[2]);
    }

    static void opaque() throws InterruptedException {
        Store store = new Store();
        both(
                () -> {
                    for (int turn = 0; turn < 50; turn++) {
                        LEFT.setOpaque(store, turn);
                    }
                },
                () -> {
                    while ((int) LEFT.getOpaque(store) < 40) {
                        Thread.onSpinWait();
                    }
                });
        System.out.println(store.left);
    }

    static void updated() throws InterruptedException {
        Store store = new Store();
        both(
                () -> {
                    store.left = 7;
                    SELLING.incrementAndGet(store);
                },
                () -> {
                    while (SELLING.get(store) == 0) {
                        Thread.onSpinWait();
                    }
                    System.out.println(store.left);
                });
    }

    static void addedLazily() throws InterruptedException {
        Store store = new Store();
        both(
                () -> {
                    store.left = 7;
                    ADDING.lazySet(store, 5);
                },
                () -> {
                    while (store.total == 0) {
                        Thread.onSpinWait();
                    }
                    System.out.println(store.left);
                });
    }

    static void linkedOnce() throws InterruptedException {
        Store store = new Store();
        Runnable link =
                () -> {
                    Store own = new Store();
                    own.left = 9;
                    if (!LINKING.compareAndSet(store, null, own)) {
                        own = LINKING.get(store);
                    }
                    System.out.println(own.left);
                };
        both(link, link);
    }

    static void ownersOnly() throws InterruptedException {
        Store store = new Store();
        LEFT.set(store, 7);
        Thread only = new Thread(() -> LEFT.set(store, (int) LEFT.get(store) + 1));
        only.start();
        only.join();
        System.out.println((int) LEFT.get(store));
    }

    static void ofVolatile() throws InterruptedException {
        Store store = new Store();
        both(
                () -> {
                    store.left = 7;
                    store.sold = 1;
                },
                () -> {
                    while ((int) SOLD.getAcquire(store) == 0) {
                        Thread.onSpinWait();
                    }
                    System.out.println(store.left);
                });
    }

    static void ofStaticVolatile() throws InterruptedException {
        Store store = new Store();
        both(
                () -> {
                    store.left = 7;
                    COUNT.getAndAddRelease(1);
                },
                () -> {
                    while (count == 0) {
                        Thread.onSpinWait();
                    }
                    System.out.println(store.left);
                });
    }

    /** Who comes second takes what the first one has made. */
    static void lazily() throws InterruptedException {
        Store store = new Store();
        Runnable look =
                () -> {
                    Store made = (Store) NEXT.getAcquire(store);
                    if (made == null) {
                        made = new Store();
                        made.left = 5;
                        if (!NEXT.compareAndSet(store, null, made)) {
                            made = (Store) NEXT.getAcquire(store);
                        }
                    }
                    System.out.println(made.left);
                };
        both(look, look);
    }

    static void ofBranch() throws InterruptedException {
        VarHandle left = of(Branch.class, "left", int.class);
        VarHandle number = of(Branch.class, "number", int.class);
        Branch branch = new Branch();
        both(() -> left.set(branch, 7), () -> number.set(branch, 8));
        System.out.println(branch.left + branch.number);
    }

    static void mailbox() throws InterruptedException {
        Store box = new Store();
        both(
                () -> {
                    Store mail = new Store();
                    mail.left = 6;
                    NEXT.setRelease(box, mail);
                },
                () -> {
                    Store mail = null;
                    while (mail == null) {
                        mail = (Store) NEXT.getAndSet(box, null);
                    }
                    mail.left++;
                });
    }

    /** Who throws keeps nobody out. */
    static void thrown() throws InterruptedException {
        int[] numbers = new int[2];
        Runnable look =
                () -> {
                    for (Runnable wrong :
                            new Runnable[] {
                                () -> NUMBERS.getAndAdd(numbers, 5, 1),
                                () -> LEFT.setVolatile((Store) null, 1),
                                () -> NEXT.setVolatile((Object) "no store", new Store())
                            }) {
                        try {
                            wrong.run();
                        } catch (RuntimeException expected) {
                            System.out.println(expected.getClass().getSimpleName().length() > 3);
                        }
                    }
                };
        both(look, look);
        Store store = new Store();
        Runnable put =
                () -> {
                    try {
                        NEXT.setVolatile(store, (Object) "no store");
                    } catch (ClassCastException expected) {
                        NEXT.setVolatile(store, store);
                    }
                };
        both(put, put);
    }

    private Handles() {}

    public static void main(String[] words) throws Exception {
        Handles.class.getDeclaredMethod(words[0]).invoke(null);
    }
}
