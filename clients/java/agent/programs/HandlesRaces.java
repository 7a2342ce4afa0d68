import java.lang.invoke.VarHandle;

/** Programs that touch fields and elements by a VarHandle or by an updater, each with a race. */
public final class HandlesRaces {
    private static void both(Runnable one, Runnable other) throws InterruptedException {
        Handles.both(one, other);
    }

    private static void rest() {
        try {
            Thread.sleep(40);
        } catch (InterruptedException interrupted) {
            Thread.currentThread().interrupt();
        }
    }

    static void setPlainly() throws InterruptedException {
        Handles.Store store = new Handles.Store();
        both(
                () -> Handles.LEFT.set(store, 7), // race: setPlainly
                () -> System.out.println(store.left)); // race: setPlainly
    }

    static void gotPlainly() throws InterruptedException {
        Handles.Store store = new Handles.Store();
        both(
                () -> System.out.println((int) Handles.LEFT.get(store)), // race: gotPlainly
                () -> store.left = 7); // race: gotPlainly
    }

    static void bothByHandle() throws InterruptedException {
        Handles.Store store = new Handles.Store();
        Runnable add = () -> Handles.LEFT.set(store, (int) Handles.LEFT.get(store) + 1); // race: bothByHandle
        both(add, add);
    }

    static void ofStatic() throws InterruptedException {
        both(
                () -> Handles.SHOWN.set(new Handles.Store()), // race: ofStatic
                () -> System.out.println(Handles.shown == null)); // race: ofStatic
    }

    static void ofElement() throws InterruptedException {
        int[] numbers = new int[4];
        both(
                () -> Handles.NUMBERS.set(numbers, 1, 7), // race: ofElement
                () -> System.out.println(numbers[1])); // race: ofElement
    }

    static void addedBesidePlain() throws InterruptedException {
        Handles.Store store = new Handles.Store();
        both(
                () -> Handles.LEFT.getAndAdd(store, 1), // race: addedBesidePlain
                () -> store.left++); // race: addedBesidePlain
    }

    static void elementBesidePlain() throws InterruptedException {
        int[] numbers = new int[4];
        both(
                () -> Handles.NUMBERS.getAndAdd(numbers, 3, 1), // race: elementBesidePlain
                () -> numbers[3]++); // race: elementBesidePlain
    }

    static void shownBesidePlain() throws InterruptedException {
        Handles.Store store = new Handles.Store();
        both(
                () -> Handles.LEFT.setVolatile(store, 7), // race: shownBesidePlain
                () -> System.out.println(store.left)); // race: shownBesidePlain
    }

    static void lookedAtBesidePlain() throws InterruptedException {
        Handles.Store store = new Handles.Store();
        both(
                () -> store.left = 7, // race: lookedAtBesidePlain
                () -> System.out.println((int) Handles.LEFT.getAcquire(store))); // race: lookedAtBesidePlain
    }

    static void opaqueBesidePlain() throws InterruptedException {
        Handles.Store store = new Handles.Store();
        both(
                () -> Handles.LEFT.setOpaque(store, 7), // race: opaqueBesidePlain
                () -> System.out.println(store.left)); // race: opaqueBesidePlain
    }

    /** Nobody comes after an opaque write by seeing it. */
    static void opaqueFlag() throws InterruptedException {
        Handles.Store store = new Handles.Store();
        both(
                () -> {
                    store.left = 7; // race: opaqueFlag
                    Handles.FLAG.setOpaque(store, 1);
                },
                () -> {
                    while ((int) Handles.FLAG.getOpaque(store) == 0) {
                        Thread.onSpinWait();
                    }
                    System.out.println(store.left); // race: opaqueFlag
                });
    }

    static void behindTheRelease() throws InterruptedException {
        Handles.Store store = new Handles.Store();
        both(
                () -> {
                    Handles.FLAG.setRelease(store, 1);
                    store.left = 7; // race: behindTheRelease
                },
                () -> {
                    while ((int) Handles.FLAG.getAcquire(store) == 0) {
                        Thread.onSpinWait();
                    }
                    rest();
                    System.out.println(store.left); // race: behindTheRelease
                });
    }

    /** What only takes an order in gives none. */
    static void acquiredOnly() throws InterruptedException {
        Handles.Store store = new Handles.Store();
        both(
                () -> {
                    store.left = 7; // race: acquiredOnly
                    Handles.FLAG.getAndSetAcquire(store, 1);
                },
                () -> {
                    while ((int) Handles.FLAG.getAcquire(store) == 0) {
                        Thread.onSpinWait();
                    }
                    System.out.println(store.left); // race: acquiredOnly
                });
    }

    /** A try that fails changes nothing. */
    static void failedTry() throws InterruptedException {
        Handles.Store store = new Handles.Store();
        both(
                () -> {
                    store.left = 7; // race: failedTry
                    System.out.println(Handles.FLAG.compareAndSet(store, 5, 6));
                },
                () -> {
                    rest();
                    System.out.println((int) Handles.FLAG.getAcquire(store));
                    System.out.println(store.left); // race: failedTry
                });
    }

    static void otherStore() throws InterruptedException {
        Handles.Store store = new Handles.Store();
        Handles.Store other = new Handles.Store();
        both(
                () -> {
                    store.left = 7; // race: otherStore
                    Handles.FLAG.setVolatile(store, 1);
                },
                () -> {
                    rest();
                    System.out.println((int) Handles.FLAG.getVolatile(other));
                    System.out.println(store.left); // race: otherStore
                });
    }

    static void otherElement() throws InterruptedException {
        Handles.Store store = new Handles.Store();
        int[] numbers = new int[4];
        both(
                () -> {
                    store.left = 7; // race: otherElement
                    Handles.NUMBERS.setVolatile(numbers, 1, 1);
                },
                () -> {
                    rest();
                    System.out.println((int) Handles.NUMBERS.getVolatile(numbers, 2));
                    System.out.println(store.left); // race: otherElement
                });
    }

    static void behindTheUpdate() throws InterruptedException {
        Handles.Store store = new Handles.Store();
        both(
                () -> {
                    Handles.SELLING.set(store, 1);
                    store.left = 7; // race: behindTheUpdate
                },
                () -> {
                    while (Handles.SELLING.get(store) == 0) {
                        Thread.onSpinWait();
                    }
                    rest();
                    System.out.println(store.left); // race: behindTheUpdate
                });
    }

    static void ofBranch() throws InterruptedException {
        VarHandle left = Handles.of(Handles.Branch.class, "left", int.class);
        Handles.Branch branch = new Handles.Branch();
        both(
                () -> left.set(branch, 7), // race: ofBranch
                () -> System.out.println(branch.left)); // race: ofBranch
    }

    private HandlesRaces() {}

    public static void main(String[] words) throws Exception {
        HandlesRaces.class.getDeclaredMethod(words[0]).invoke(null);
    }
}
