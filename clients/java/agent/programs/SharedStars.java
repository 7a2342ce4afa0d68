import java.io.ByteArrayInputStream;
import java.io.ByteArrayOutputStream;
import java.io.DataInputStream;
import java.io.IOException;
import java.io.RandomAccessFile;
import java.io.SequenceInputStream;
import java.io.StreamTokenizer;
import java.io.StringReader;
import java.io.UncheckedIOException;
import java.lang.invoke.MethodHandle;
import java.lang.invoke.MethodHandles;
import java.lang.invoke.MethodType;
import java.lang.invoke.VarHandle;
import java.lang.reflect.Array;
import java.lang.reflect.Method;
import java.net.URL;
import java.net.URLConnection;
import java.nio.ByteBuffer;
import java.nio.ByteOrder;
import java.security.KeyPairGenerator;
import java.text.BreakIterator;
import java.text.MessageFormat;
import java.time.format.DateTimeFormatterBuilder;
import java.util.ArrayList;
import java.util.HashMap;
import java.util.List;
import java.util.Map;
import java.util.ServiceLoader;
import java.util.WeakHashMap;
import java.util.concurrent.atomic.AtomicIntegerFieldUpdater;
import java.util.zip.GZIPOutputStream;
import javax.xml.parsers.DocumentBuilderFactory;
import org.w3c.dom.Document;
import org.w3c.dom.Element;

/** Programs that share what is not followed. Each line that says so in a comment is named as not looked into, and no race is told. */
public final class SharedStars {
    static void both(Runnable one, Runnable other) throws InterruptedException {
        Thread first = new Thread(one, "first");
        Thread second = new Thread(other, "second");
        first.start();
        second.start();
        first.join();
        second.join();
    }

    static void sharedPattern() throws InterruptedException {
        MessageFormat format = new MessageFormat("{0} of {1}");
        both(
                () -> format.format(new Object[] {1, 2}), // star: sharedPattern
                () -> format.format(new Object[] {3, 4})); // star: sharedPattern
    }

    static void sharedStreams() throws Exception {
        DataInputStream input = new DataInputStream(new ByteArrayInputStream(new byte[64]));
        GZIPOutputStream output = new GZIPOutputStream(new ByteArrayOutputStream());
        Runnable use =
                () -> {
                    try {
                        input.readInt(); // star: sharedStreams
                        output.write(1); // star: sharedStreams
                    } catch (IOException failure) {
                        throw new UncheckedIOException(failure);
                    }
                };
        both(use, use);
    }

    static void sharedDocument() throws Exception {
        Document document = DocumentBuilderFactory.newInstance().newDocumentBuilder().newDocument();
        Element store = document.createElement("store");
        document.appendChild(store);
        both(
                () -> store.setAttribute("name", "north"), // star: sharedDocument
                () -> document.getDocumentElement().getAttribute("name")); // star: sharedDocument
    }

    static void sharedTokens() throws Exception {
        StreamTokenizer tokens = new StreamTokenizer(new StringReader("1 2 3 4"));
        both(
                () -> {
                    try {
                        tokens.nextToken(); // star: sharedTokens
                    } catch (IOException failure) {
                        throw new UncheckedIOException(failure);
                    }
                },
                () -> System.out.println(tokens.ttype > 9)); // star: sharedTokens
    }

    static void sharedViews() throws InterruptedException {
        int[] counts = {1, 2, 3};
        ByteBuffer buffer = ByteBuffer.wrap(new byte[8]);
        byte[] bytes = buffer.array();
        ByteBuffer same = buffer.duplicate();
        both(
                () -> {
                    Array.setInt(counts, 0, 4); // star: sharedViews
                    buffer.put(0, (byte) 1); // star: sharedViews
                },
                () -> {
                    System.out.println(counts[2]); // star: sharedViews
                    System.out.println(bytes[3]); // star: sharedViews
                    System.out.println(same.get(4)); // star: sharedViews
                });
    }

    static void sharedCaches() throws InterruptedException {
        Map<String, Integer> weak = new WeakHashMap<>();
        both(
                () -> weak.get("apple"), // star: sharedCaches
                () -> weak.get("pear")); // star: sharedCaches
    }

    static void sharedByTheWay() throws InterruptedException {
        String[] all = new String[4];
        both(
                () -> List.of("a", "b").toArray(all), // star: sharedByTheWay
                () -> System.out.println(all[1] == null)); // star: sharedByTheWay
    }

    static final class Store {
        int left = 2;
        volatile int sold;
    }

    static void byHandles() throws Exception {
        VarHandle volatileOne = MethodHandles.lookup().findVarHandle(Store.class, "sold", int.class);
        VarHandle bytes = MethodHandles.byteArrayViewVarHandle(int[].class, ByteOrder.BIG_ENDIAN);
        AtomicIntegerFieldUpdater<Store> sold = AtomicIntegerFieldUpdater.newUpdater(Store.class, "sold");
        MethodHandle adding = MethodHandles.lookup().findVirtual(List.class, "add", MethodType.methodType(boolean.class, Object.class)); // star: byHandles
        Method putting = Map.class.getMethod("put", Object.class, Object.class);
        Store store = new Store();
        Map<String, Integer> stock = new HashMap<>();
        List<String> names = new ArrayList<>();
        both(
                () -> {
                    volatileOne.set(store, 7); // star: byHandles
                    bytes.set(new byte[4], 0, 7); // star: byHandles
                    sold.updateAndGet(store, number -> number + 1); // star: byHandles
                    volatileOne.compareAndExchange(store, 8, 9); // star: byHandles
                    try {
                        putting.invoke(stock, "pear", 1); // star: byHandles
                        boolean isNew = (boolean) adding.invoke(names, "one");
                    } catch (Throwable failure) {
                        throw new IllegalStateException(failure);
                    }
                },
                () -> System.out.println(store.left + stock.size() + names.size() > 99));
    }

    static void sharedOthers() throws Exception {
        KeyPairGenerator keys = KeyPairGenerator.getInstance("RSA");
        URLConnection connection = new URL("http://localhost/").openConnection();
        ProcessBuilder command = new ProcessBuilder("true");
        DateTimeFormatterBuilder days = new DateTimeFormatterBuilder();
        ServiceLoader<Runnable> services = ServiceLoader.load(Runnable.class);
        RandomAccessFile file = new RandomAccessFile("/dev/null", "r");
        SequenceInputStream input = new SequenceInputStream(new ByteArrayInputStream(new byte[9]), new ByteArrayInputStream(new byte[9]));
        BreakIterator words = BreakIterator.getWordInstance();
        Runnable use =
                () -> {
                    keys.initialize(1024); // star: sharedOthers
                    connection.setUseCaches(true); // star: sharedOthers
                    command.directory(null); // star: sharedOthers
                    days.appendLiteral("x"); // star: sharedOthers
                    System.out.println(services.iterator() == null); // star: sharedOthers
                    System.out.println(words.current() > 99); // star: sharedOthers
                    try {
                        file.seek(0); // star: sharedOthers
                        input.read(); // star: sharedOthers
                    } catch (IOException failure) {
                        throw new UncheckedIOException(failure);
                    }
                };
        both(use, use);
    }

    static void otherProcess() throws Exception {
        Process process = new ProcessBuilder("true").start(); // star: otherProcess
        process.waitFor();
        Runtime.getRuntime().exec("true").waitFor(); // star: otherProcess
    }

    private SharedStars() {}

    public static void main(String[] words) throws Exception {
        SharedStars.class.getDeclaredMethod(words[0]).invoke(null);
    }
}
