import java.io.ByteArrayInputStream;
import java.io.ByteArrayOutputStream;
import java.io.InputStream;
import java.io.ObjectInputStream;
import java.io.ObjectOutputStream;
import java.io.ObjectStreamClass;
import java.io.Serializable;
import java.lang.invoke.MethodHandles;
import java.lang.invoke.VarHandle;
import java.lang.reflect.Field;
import java.util.ArrayDeque;
import java.util.ArrayList;
import java.util.Arrays;
import java.util.BitSet;
import java.util.Collections;
import java.util.Comparator;
import java.util.ConcurrentModificationException;
import java.util.Deque;
import java.util.EnumMap;
import java.util.HashMap;
import java.util.Iterator;
import java.util.List;
import java.util.Map;
import java.util.TreeMap;
import java.util.concurrent.Callable;
import java.util.concurrent.ConcurrentHashMap;
import java.util.concurrent.ExecutionException;
import java.util.concurrent.FutureTask;
import java.util.concurrent.locks.ReentrantLock;
import java.util.function.IntSupplier;
import java.util.stream.Collectors;

/** Programs that see how they run. They have to write the same with the agent. */
public final class Odd {
    static class Base implements Serializable {
        int base = 1;
        protected String shadowed = "base";
    }

    static class Above extends Base {
        long above = 2;
        String shadowed = "above";
        volatile double wide = 0.5;
        transient Object not = new Object();

        Above(boolean isLong) {
            this(isLong ? new StringBuilder("long").length() : 1);
        }

        Above(int more) {
            above += more;
            base++;
        }

        String both() {
            return super.shadowed + shadowed + above + base + wide;
        }
    }

    enum Color {
        RED(1) {
            @Override
            int twice() {
                return 2;
            }
        },
        BLUE(5);

        private int weight;

        Color(int weight) {
            this.weight = weight;
        }

        int twice() {
            weight++;
            return 2 * weight;
        }
    }

    record Point(int x, long y) {
        static int made;

        Point {
            made++;
        }
    }

    sealed interface Shape permits Square, Circle {}

    record Square(int side) implements Shape {}

    record Circle(int radius) implements Shape {}

    private int field;

    static void serialized() throws Exception {
        System.out.println(ObjectStreamClass.lookup(Base.class).getSerialVersionUID());
        System.out.println(ObjectStreamClass.lookup(Above.class).getSerialVersionUID());
        ByteArrayOutputStream bytes = new ByteArrayOutputStream();
        try (ObjectOutputStream output = new ObjectOutputStream(bytes)) {
            output.writeObject(new Above(true));
        }
        System.out.println(Arrays.hashCode(bytes.toByteArray()));
        Above again = (Above) new ObjectInputStream(new ByteArrayInputStream(bytes.toByteArray())).readObject();
        System.out.println(again.both() + again.not);
    }

    static void reflected() throws Exception {
        for (Class<?> type : new Class<?>[] {Base.class, Above.class, Color.class, Point.class, Odd.class}) {
            System.out.println(Arrays.stream(type.getDeclaredFields()).map(Field::getName).collect(Collectors.joining(" ")));
            System.out.println(type.getDeclaredMethods().length + " " + type.getInterfaces().length + " " + type.getDeclaredConstructors().length);
        }
        Field field = Odd.class.getDeclaredField("field");
        Odd odd = new Odd();
        field.setInt(odd, 4);
        System.out.println(odd.field);
    }

    static void enums() throws Exception {
        Map<Color, Integer> weights = new EnumMap<>(Color.class);
        for (Color color : Color.values()) {
            weights.merge(color, color.twice(), Integer::sum);
        }
        System.out.println(weights + " " + Color.valueOf("RED").getClass());
        System.out.println(new Point(1, 2L) + " " + new Point(1, 2L).equals(new Point(1, 2L)) + Point.made);
        Shape shape = new Circle(3);
        System.out.println(shape instanceof Circle circle ? circle.radius() : 0);
        System.out.println(switch (Color.BLUE) {
            case RED -> "red";
            case BLUE -> "blue";
        });
    }

    static void lambdas() throws Exception {
        int[] counts = {0};
        Odd odd = new Odd();
        IntSupplier next = () -> counts[0]++ + odd.field++;
        System.out.println(next.getAsInt() + next.getAsInt() + odd.field);
        Callable<String> named = odd::toShort;
        System.out.println(named.call());
        ReentrantLock lock = new ReentrantLock();
        Runnable locking = lock::lock;
        locking.run();
        System.out.println(lock.isHeldByCurrentThread() + " " + lock.getHoldCount());
        lock.unlock();
    }

    private String toShort() {
        return "odd " + field;
    }

    private synchronized int fails(int depth) {
        if (depth == 0) {
            throw new UnsupportedOperationException("deep");
        }
        return fails(depth - 1) + field;
    }

    static void handled() throws Exception {
        VarHandle field = MethodHandles.lookup().findVarHandle(Odd.class, "field", int.class);
        VarHandle numbers = MethodHandles.arrayElementVarHandle(int[].class);
        System.out.println((int) field.getAndAdd(new Odd(), 3) + field.toString());
        Runnable[] wrong = {
            () -> numbers.setVolatile(new int[3], 3, 9),
            () -> field.set((Object) "no field", 9),
            () -> field.set(new Odd(), "no number"),
            () -> field.getVolatile((Odd) null)
        };
        for (Runnable one : wrong) {
            try {
                one.run();
            } catch (RuntimeException expected) {
                print(expected);
            }
        }
    }

    static void traces() throws Exception {
        try {
            new Odd().fails(3);
        } catch (UnsupportedOperationException deep) {
            print(deep);
        }
        Odd none = null;
        try {
            System.out.println(none.field);
        } catch (NullPointerException missing) {
            print(missing);
        }
        try {
            none.field = 3;
        } catch (NullPointerException missing) {
            print(missing);
        }
        Above nowhere = null;
        try {
            nowhere.wide = 3;
        } catch (NullPointerException missing) {
            print(missing);
        }
        try {
            new ReentrantLock().unlock();
        } catch (IllegalMonitorStateException wrong) {
            print(wrong);
        }
        try {
            new Object().wait();
        } catch (IllegalMonitorStateException wrong) {
            print(wrong);
        }
        try {
            synchronized (none) {
                System.out.println("never");
            }
        } catch (NullPointerException missing) {
            print(missing);
        }
        FutureTask<Integer> task = new FutureTask<>(() -> new Odd().fails(1));
        task.run();
        try {
            task.get();
        } catch (ExecutionException failed) {
            print(failed.getCause());
        }
        Thread.currentThread().interrupt();
        synchronized (Odd.class) {
            try {
                Odd.class.wait(10);
            } catch (InterruptedException interrupted) {
                print(interrupted);
            }
        }
        new Thread().start();
        Thread twice = new Thread(() -> {});
        twice.start();
        twice.join();
        try {
            twice.start();
        } catch (IllegalThreadStateException again) {
            print(again);
        }
    }

    /** Line numbers of the JDK may differ behind what the agent has rewritten there, and so may its own frames. */
    private static void print(Throwable thrown) {
        System.out.println(thrown);
        for (StackTraceElement frame : thrown.getStackTrace()) {
            if (!frame.getClassName().contains("reflect")) {
                System.out.println("    " + frame);
            }
        }
    }

    static void uncaught() throws Exception {
        Thread thread = new Thread(() -> new Odd().fails(2), "failing");
        thread.start();
        thread.join();
        System.exit(new Odd().field + 3);
    }

    static void broken() throws Exception {
        class Initialized {
            static int value = Integer.parseInt("none");
        }
        for (int turn = 0; turn < 2; turn++) {
            try {
                System.out.println(Initialized.value);
            } catch (Error failed) {
                System.out.println(failed.getClass());
            }
        }
    }

    private static final class Volatile {
        static volatile long value = Integer.parseInt("none");
    }

    static void brokenVolatile() throws Exception {
        Runnable read =
                () -> {
                    for (int turn = 0; turn < 2; turn++) {
                        try {
                            System.out.println(Volatile.value);
                        } catch (Error failed) {
                            System.out.println(failed.getClass());
                        }
                        try {
                            Volatile.value = 3;
                        } catch (Error failed) {
                            System.out.println(failed.getClass());
                        }
                    }
                };
        read.run();
        Thread other = new Thread(read);
        other.start();
        other.join();
    }

    private static long sumOf(long... values) {
        long sum = 0;
        for (long value : values) {
            sum += value;
        }
        return sum;
    }

    static void arrays() throws Exception {
        boolean[] flags = {true, false};
        byte[] bytes = {1, 2};
        short[] shorts = {3, 4};
        char[] letters = "odd".toCharArray();
        int[][] table = new int[3][2];
        float[] floats = {0.5f};
        double[] doubles = {0.25, 4};
        String[] names = {"b", "a"};
        flags[1] |= flags[0];
        bytes[0] += bytes[1]++;
        shorts[1]--;
        letters[2] = Character.toUpperCase(letters[2]);
        table[2][1] = table[1].clone()[0] + 7;
        floats[0] *= 3;
        doubles[1] /= doubles[0];
        Arrays.sort(names);
        Object[] objects = names;
        System.arraycopy(names, 0, objects, 1, 1);
        System.out.println(flags[1] + " " + bytes[0] + shorts[1] + new String(letters) + table[2][1] + floats[0] + doubles[1] + names[1]);
        System.out.println(sumOf() + sumOf(1, 2, 3) + Arrays.toString(table[2]) + Arrays.asList(names) + String.join("-", names));
        try {
            objects[0] = 1;
        } catch (ArrayStoreException wrong) {
            print(wrong);
        }
        try {
            table[3][0] = 1;
        } catch (ArrayIndexOutOfBoundsException outside) {
            print(outside);
        }
        int[] none = null;
        try {
            none[0]++;
        } catch (NullPointerException missing) {
            print(missing);
        }
    }

    static void elements() throws Exception {
        long[] longs = new long[3];
        double[] doubles = new double[2];
        float[][] table = new float[2][];
        Object[][] objects = new String[2][2];
        longs[1] = longs[2]++ + (doubles[1] = 2.5) > 2 ? longs[0] += 7 : -1;
        longs[2] <<= longs[1] - 6;
        doubles[0] += doubles[1]++ * longs[1];
        table[1] = new float[] {1, (float) (doubles[0] -= 1), table[0] == null ? 3 : 4};
        byte[] bytes = {(byte) 200, bytesOf(3)[1]};
        boolean[] flags = {bytes[0] < 0, !new boolean[] {true}[0]};
        int[] places = {2, 0, 1};
        places[places[0]] = places[places[1]]++ + places[2]--;
        System.out.println(Arrays.toString(longs) + Arrays.toString(doubles) + Arrays.deepToString(table) + bytes[1] + flags[0] + flags[1]);
        System.out.println(Arrays.toString(places) + Arrays.deepToString(objects) + (objects[1][0] = "x") + Arrays.stream(places, 1, 3).sum());
        Runnable[] wrong = {
            () -> objects[1][0] = 3, () -> objects[0] = new Integer[1], () -> table[0][0]++, () -> longs[3] = sumOf(1), () -> doubles[-1]--,
            () -> System.arraycopy(longs, 0, doubles, 0, 1), () -> System.arraycopy(longs, 2, longs, 0, 2), () -> Arrays.fill(longs, 2, 1, 5),
            () -> System.arraycopy(new Object[] {"a", 1}, 0, objects[0], 0, 2), () -> Arrays.copyOf(longs, -1), () -> Arrays.sort(longs, 0, 9),
            () -> List.of(1).toArray(objects[0]), () -> Arrays.asList(objects[1]).add(null), () -> ((int[]) null).clone()
        };
        for (Runnable one : wrong) {
            try {
                one.run();
            } catch (RuntimeException thrown) {
                System.out.println(thrown);
            }
        }
        System.out.println(Arrays.deepToString(objects));
    }

    private static byte[] bytesOf(int count) {
        byte[] bytes = new byte[count];
        for (int place = 0; place < count; place++) {
            bytes[place] = (byte) (place << 5 | place);
        }
        return bytes;
    }

    static void maps() throws Exception {
        Map<String, Integer> counts = new HashMap<>();
        System.out.println(counts.put("a", null) + " " + counts.put("a", 1) + counts.putIfAbsent("b", 2) + counts.merge("a", 5, Integer::sum));
        System.out.println(counts.computeIfAbsent("c", name -> null) + " " + counts.computeIfPresent("b", (name, count) -> null) + counts.replace("a", 6, 7));
        System.out.println(counts.remove("a", 6) + " " + counts.getOrDefault("z", 9) + counts.replace("z", 1) + counts.remove("z") + counts);
        TreeMap<Integer, String> names = new TreeMap<>(Map.of(1, "one", 5, "five", 9, "nine"));
        names.subMap(2, 9).put(3, "three");
        names.headMap(4).values().removeIf(name -> name.startsWith("o"));
        System.out.println(names.floorEntry(4) + " " + names.pollLastEntry() + names.descendingMap() + names.ceilingKey(4));
        Deque<Integer> deque = new ArrayDeque<>(List.of(1, 2, 3));
        deque.push(deque.pollLast());
        List<Integer> numbers = new ArrayList<>(deque);
        numbers.subList(1, 3).set(0, 7 + numbers.indexOf(2));
        System.out.println(deque + " " + deque.peekFirst() + deque.contains(3) + numbers.removeAll(List.of(7)));
    }

    static void throwing() throws Exception {
        TreeMap<Object, Integer> ordered = new TreeMap<>();
        Runnable[] wrong = {
            () -> new ArrayList<>(List.of(1)).get(1), () -> new ArrayList<>(List.of(1)).set(-1, 2), () -> new ArrayDeque<>().pop(),
            () -> ordered.put(new Object(), 1), () -> ordered.get(null), () -> new ArrayDeque<>().add(null), () -> new ArrayList<>().iterator().next(),
            () -> new EnumMap<Color, Integer>(Color.class).put(null, 1), () -> Collections.unmodifiableMap(ordered).put(1, 1),
            () -> new ArrayList<>(List.of(1)).subList(1, 0), () -> new ArrayList<>(List.of(1)).listIterator().set(3)
        };
        for (Runnable one : wrong) {
            try {
                one.run();
            } catch (RuntimeException thrown) {
                print(thrown);
            }
        }
    }

    static void collections() throws Exception {
        List<String> names = new ArrayList<>(List.of("c", "a", "b"));
        names.sort(Comparator.naturalOrder());
        names.replaceAll(name -> name + name);
        Map<String, List<Integer>> byName = new TreeMap<>();
        for (String name : names) {
            byName.computeIfAbsent(name, fresh -> new ArrayList<>()).add(name.length());
        }
        Iterator<Map.Entry<String, List<Integer>>> entries = byName.entrySet().iterator();
        entries.next().getValue().add(5);
        entries.remove();
        System.out.println(names + " " + byName + byName.keySet() + names.subList(1, 2) + Collections.unmodifiableList(names).hashCode());
        System.out.println(names.stream().filter(name -> !name.startsWith("a")).collect(Collectors.joining("+")));
        System.out.println(new StringBuilder("text").append(names).reverse().insert(0, byName.equals(new HashMap<>(byName))));
        BitSet bits = new BitSet();
        bits.set(3);
        Deque<Object> deque = new ArrayDeque<>();
        deque.push(bits);
        deque.offer(names.toArray(new String[0]).length);
        System.out.println(deque + " " + String.format("%s %5.2f", deque.peekLast(), 1.5));
        List<String> missing = null;
        try {
            System.out.println(missing.size());
        } catch (NullPointerException thrown) {
            print(thrown);
        }
        try {
            names.iterator().forEachRemaining(name -> names.add(name));
        } catch (ConcurrentModificationException thrown) {
            System.out.println(thrown);
        }
        try {
            new ConcurrentHashMap<String, Integer>()
                    .compute(
                            "a",
                            (name, before) -> {
                                throw new IllegalStateException("no " + name);
                            });
        } catch (IllegalStateException thrown) {
            print(thrown);
        }
    }

    static class Shaped {
        final String shape;

        Shaped(int... sides) {
            shape = sides.length > 2 ? "polygon " + sides[2] : "none";
        }
    }

    static final class Triangle extends Shaped {
        private int uses;

        Triangle(boolean isLarge) {
            super(isLarge ? new int[] {3, 4, 5} : new int[] {1, 1, sumOf(1) > 0 ? 1 : 2});
            uses++;
        }

        Triangle() {
            this(Boolean.parseBoolean("true"));
        }
    }

    static void constructed() throws Exception {
        System.out.println(new Triangle().shape + new Triangle(false).shape + new Triangle(false).uses);
        Shaped own =
                new Shaped(1, 2, 9) {
                    private int more = shape.length();

                    @Override
                    public String toString() {
                        return shape + more++;
                    }
                };
        System.out.println(own + own.toString());
        record Pair(String one, List<String> other) {
            Pair {
                other = List.copyOf(other);
            }
        }
        Pair pair = new Pair("a", new ArrayList<>(List.of("b")));
        System.out.println(pair + " " + pair.hashCode() + pair.equals(new Pair("a", List.of("b"))));
        System.out.println(returned(3) + returned(0));
    }

    private static int returned(int turns) {
        int seen = 0;
        for (int turn = 0; ; turn++) {
            try {
                if (turn == turns) {
                    return seen;
                }
                if (turn % 2 == 0) {
                    throw new IllegalStateException();
                }
                continue;
            } catch (IllegalStateException even) {
                seen += 10;
            } finally {
                seen++;
            }
        }
    }

    static void walked() throws Exception {
        Runnable walk =
                () -> {
                    for (StackTraceElement frame : Thread.currentThread().getStackTrace()) {
                        if (!frame.getClassName().contains("reflect")) {
                            System.out.println(frame);
                        }
                    }
                    StackWalker.getInstance()
                            .forEach(frame -> System.out.println(frame.getClassName() + "." + frame.getMethodName() + frame.getLineNumber()));
                };
        walk.run();
        synchronized (walk) {
            walk.run();
        }
        Thread thread = new Thread(walk);
        thread.start();
        thread.join();
    }

    static void interrupting() throws Exception {
        Thread.currentThread().interrupt();
        try {
            Thread.sleep(1_000);
        } catch (InterruptedException interrupted) {
            print(interrupted);
        }
        System.out.println(Thread.interrupted() + " " + Thread.currentThread().isInterrupted());
        Thread.currentThread().interrupt();
        System.out.println(Thread.interrupted() + " " + Thread.interrupted());
    }

    interface Greeting {
        String greet(String name);
    }

    static void hidden() throws Exception {
        byte[] bytes;
        try (InputStream file = Odd.class.getResourceAsStream("Odd$Hello.class")) {
            bytes = file.readAllBytes();
        }
        Class<?> type = MethodHandles.lookup().defineHiddenClass(bytes, true).lookupClass();
        Greeting greeting = (Greeting) type.getDeclaredConstructor().newInstance();
        System.out.println(greeting.greet("hidden") + greeting.greet("again") + type.isHidden());
    }

    static final class Hello implements Greeting {
        private int count;

        @Override
        public String greet(String name) {
            return name + ++count;
        }
    }

    static void sealed() throws Exception {
        System.out.println(Shape.class.isSealed() + " " + Shape.class.getPermittedSubclasses().length + Square.class.isRecord());
        System.out.println(Square.class.getRecordComponents().length + " " + Odd.class.getNestMembers().length + Color.RED.getDeclaringClass());
        System.out.println(new Square(3) + " " + new Square(3).hashCode());
    }

    private Odd() {}

    public static void main(String[] words) throws Exception {
        try {
            Odd.class.getDeclaredMethod(words[0]).invoke(null);
        } catch (java.lang.reflect.InvocationTargetException failed) {
            throw new IllegalStateException(failed.getCause());
        }
    }
}
