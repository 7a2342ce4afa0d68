import java.io.BufferedReader;
import java.io.ByteArrayInputStream;
import java.io.ByteArrayOutputStream;
import java.io.IOException;
import java.io.InputStreamReader;
import java.io.PrintWriter;
import java.io.StringReader;
import java.io.StringWriter;
import java.math.BigInteger;
import java.nio.ByteBuffer;
import java.nio.charset.StandardCharsets;
import java.nio.file.Path;
import java.text.Collator;
import java.text.NumberFormat;
import java.text.SimpleDateFormat;
import java.time.LocalDate;
import java.time.format.DateTimeFormatter;
import java.util.ArrayList;
import java.util.Arrays;
import java.util.Base64;
import java.util.BitSet;
import java.util.Calendar;
import java.util.Collections;
import java.util.Comparator;
import java.util.Date;
import java.util.EnumMap;
import java.util.Iterator;
import java.util.List;
import java.util.Locale;
import java.util.Map;
import java.util.Random;
import java.util.TimeZone;
import java.util.concurrent.TimeUnit;
import java.util.concurrent.locks.ReentrantLock;
import java.util.function.Function;
import java.util.function.Supplier;
import java.util.logging.Level;
import java.util.logging.Logger;
import java.util.regex.Pattern;
import java.util.stream.Collectors;
import java.util.zip.CRC32;

/** Programs that share objects of the JDK as they may be shared. Nothing of them is told or named. */
public final class SharedClean {
    static void both(Runnable one, Runnable other) throws InterruptedException {
        Thread alice = new Thread(one, "alice");
        Thread bob = new Thread(other, "bob");
        alice.start();
        bob.start();
        alice.join();
        bob.join();
    }

    static void unchanging() throws InterruptedException {
        DateTimeFormatter days = DateTimeFormatter.ISO_DATE;
        Pattern words = Pattern.compile("[a-z]+");
        Random random = new Random(1);
        BigInteger number = BigInteger.TEN;
        Path path = Path.of("shop", "stock");
        Logger logger = Logger.getLogger("shop");
        Comparator<String> order = Comparator.comparing(String::length);
        List<String> names = List.of("one", "two", "three");
        Map<TimeUnit, String> units = Collections.unmodifiableMap(new EnumMap<>(Map.of(TimeUnit.DAYS, "d")));
        Runnable use =
                () -> {
                    logger.log(Level.FINE, days.format(LocalDate.EPOCH));
                    int count = number.add(BigInteger.valueOf(random.nextInt(5))).intValue() + path.getNameCount() + units.size();
                    for (String name : names) {
                        count += words.matcher(name).find() ? order.compare(name, "four") : 0;
                    }
                    for (String name : Collections.<String>emptyList()) {
                        count += name.length();
                    }
                    System.out.println(count > 99 ? TimeZone.getDefault() : Locale.ROOT);
                };
        both(use, use);
    }

    static void read() throws InterruptedException {
        List<Integer> numbers = new ArrayList<>(List.of(3, 1, 2));
        BitSet days = new BitSet();
        days.set(2);
        Date day = new Date(7);
        TimeZone zone = TimeZone.getTimeZone("UTC");
        StringBuilder text = new StringBuilder("shop");
        ByteBuffer buffer = ByteBuffer.wrap("stock".getBytes(StandardCharsets.UTF_8));
        Runnable use =
                () -> {
                    SimpleDateFormat format = new SimpleDateFormat("yyyy");
                    format.setTimeZone(zone);
                    System.out.println(format.format(day) + Calendar.getInstance(zone).getTimeZone().getID() + new String(text));
                    ByteBuffer own = buffer.duplicate();
                    int sum = own.get() + buffer.get(1);
                    Iterator<Integer> each = numbers.iterator();
                    while (each.hasNext()) {
                        sum += each.next();
                    }
                    sum += numbers.stream().sorted().map(Integer::doubleValue).collect(Collectors.toList()).size();
                    System.out.println(sum + days.cardinality() + day.getTime() + text.length() + text.toString());
                };
        both(use, use);
    }

    static void guarded() throws InterruptedException {
        BufferedReader reader = new BufferedReader(new StringReader("a\nb\n"));
        PrintWriter writer = new PrintWriter(new StringWriter());
        ByteArrayOutputStream bytes = new ByteArrayOutputStream();
        Collator order = Collator.getInstance();
        Base64.Encoder encoder = Base64.getEncoder();
        Object any = "text";
        Function<Object, String> show = Object::toString;
        String[] words = {"b", "a"};
        List<Integer> numbers = Collections.unmodifiableList(new ArrayList<>(List.of(1, 2)));
        Runnable use =
                () -> {
                    try {
                        reader.readLine();
                    } catch (IOException failure) {
                        writer.println(failure);
                    }
                    bytes.write(1);
                    writer.println(order.compare("a", "b") + encoder.encodeToString(new byte[2]) + any.hashCode() + show.apply(any));
                    System.out.println(Arrays.toString(words) + String.format("%s %s", words[0], numbers));
                    System.out.println(numbers.stream().map(String::valueOf).collect(Collectors.joining(",")) + System.getenv().size());
                    System.out.println(Calendar.getInstance().get(Calendar.YEAR) > 0 ? NumberFormat.getInstance().format(3.5) : "");
                };
        both(use, use);
    }

    static void inOrder() throws InterruptedException {
        StringBuilder text = new StringBuilder();
        SimpleDateFormat days = new SimpleDateFormat("yyyy");
        CRC32 sum = new CRC32();
        List<String> names = new ArrayList<>();
        Iterator<String> each = List.of("one", "two", "three", "four").iterator();
        for (String name : new String[] {"alice", "bob"}) {
            Thread thread =
                    new Thread(
                            () -> {
                                text.append(days.format(new Date(0)));
                                sum.update(7);
                                List.of(each.next(), name).forEach(names::add);
                            });
            thread.start();
            thread.join();
        }
        System.out.println(text + " " + sum.getValue() + " " + names + " " + each.next());
    }

    static void underALock() throws InterruptedException {
        ReentrantLock lock = new ReentrantLock();
        StringBuilder text = new StringBuilder();
        SimpleDateFormat days = new SimpleDateFormat("yyyy");
        Runnable acquire = lock::lock;
        Runnable release = lock::unlock;
        Runnable use =
                () -> {
                    acquire.run();
                    try {
                        text.append(days.format(new Date(0)));
                    } finally {
                        release.run();
                    }
                };
        both(use, use);
        System.out.println(text);
    }

    static void ofEach() throws InterruptedException {
        ThreadLocal<SimpleDateFormat> days = ThreadLocal.withInitial(() -> new SimpleDateFormat("yyyy"));
        Supplier<StringBuilder> making = StringBuilder::new;
        Runnable use =
                () -> {
                    StringBuilder text = making.get();
                    text.append(days.get().format(new Date(0)));
                    try (BufferedReader reader = new BufferedReader(new InputStreamReader(new ByteArrayInputStream(new byte[] {65, 10})))) {
                        text.append(reader.readLine());
                    } catch (IOException failure) {
                        text.append(failure.getMessage());
                    }
                    ByteArrayOutputStream bytes = new ByteArrayOutputStream();
                    bytes.write(1);
                    System.out.println(text.append(bytes.size()).reverse());
                };
        both(use, use);
    }

    /** A thread that is handed an object, and does nothing with it. */
    static final class Keeper extends Thread {
        private final StringBuilder kept;
        private final int[] numbers;

        Keeper(StringBuilder kept, int[] numbers) {
            this.kept = kept;
            this.numbers = numbers;
        }

        @Override
        public void run() {
            System.out.println(isThere(kept, numbers));
        }

        private boolean isThere(StringBuilder text, int[] all) {
            return text != null && all != null;
        }
    }

    static void handedToOwnMethods() throws InterruptedException {
        StringBuilder text = new StringBuilder("text");
        int[] numbers = {1, 2};
        both(new Keeper(text, numbers), new Keeper(text, numbers));
    }

    private SharedClean() {}

    public static void main(String[] words) throws Exception {
        SharedClean.class.getDeclaredMethod(words[0]).invoke(null);
    }
}
