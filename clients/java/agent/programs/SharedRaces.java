import java.nio.ByteBuffer;
import java.security.MessageDigest;
import java.text.DecimalFormat;
import java.text.SimpleDateFormat;
import java.util.ArrayList;
import java.util.BitSet;
import java.util.Calendar;
import java.util.Date;
import java.util.GregorianCalendar;
import java.util.IntSummaryStatistics;
import java.util.Iterator;
import java.util.List;
import java.util.Scanner;
import java.util.SplittableRandom;
import java.util.StringJoiner;
import java.util.StringTokenizer;
import java.util.function.Consumer;
import java.util.regex.Matcher;
import java.util.regex.Pattern;
import java.util.zip.CRC32;

/** Programs that share objects of the JDK which no thread may change beside another one. */
public final class SharedRaces {
    static void both(Runnable one, Runnable other) throws InterruptedException {
        Thread alice = new Thread(one, "alice");
        Thread bob = new Thread(other, "bob");
        alice.start();
        bob.start();
        alice.join();
        bob.join();
    }

    /** What a call throws beside another one is no matter. */
    static void quietly(Runnable body) {
        try {
            body.run();
        } catch (RuntimeException failure) {
            System.out.print("");
        }
    }

    static void sharedFormats() throws InterruptedException {
        SimpleDateFormat days = new SimpleDateFormat("yyyy-MM-dd");
        DecimalFormat prices = new DecimalFormat("0.00");
        Date day = new Date(0);
        both(
                () -> quietly(() -> {
                    days.format(day); // race: sharedFormats
                    prices.format(3.5); // race: sharedFormats
                }),
                () -> quietly(() -> {
                    days.format(day); // race: sharedFormats
                    prices.setMinimumFractionDigits(1); // race: sharedFormats
                }));
    }

    static void sharedTexts() throws InterruptedException {
        StringBuilder text = new StringBuilder();
        StringBuilder other = new StringBuilder();
        StringJoiner names = new StringJoiner(", ");
        CharSequence view = text;
        Object any = other;
        Consumer<String> appending = other::append; // race: sharedTexts
        both(
                () -> quietly(() -> {
                    text.append("one"); // race: sharedTexts
                    appending.accept("two");
                    names.add("three"); // race: sharedTexts
                }),
                () -> quietly(() -> {
                    System.out.print(view.length() > 9); // race: sharedTexts
                    System.out.print(any.toString().length() > 9); // race: sharedTexts
                    System.out.print("" + names.length() + "\n"); // race: sharedTexts
                }));
    }

    static void sharedDays() throws InterruptedException {
        BitSet days = new BitSet();
        Calendar calendar = new GregorianCalendar(2026, 1, 1);
        Date day = new Date();
        both(
                () -> quietly(() -> {
                    days.set(3); // race: sharedDays
                    calendar.add(Calendar.DATE, 1); // race: sharedDays
                    day.setTime(7); // race: sharedDays
                }),
                () -> quietly(() -> {
                    days.get(3); // race: sharedDays
                    calendar.getTime(); // race: sharedDays
                    day.getTime(); // race: sharedDays
                }));
    }

    static void sharedSteps() throws InterruptedException {
        Iterator<Integer> numbers = new ArrayList<>(List.of(1, 2, 3, 4)).iterator();
        Matcher words = Pattern.compile("[a-z]+").matcher("one two three");
        Scanner scanner = new Scanner("1 2 3 4");
        StringTokenizer tokens = new StringTokenizer("a b c d");
        both(
                () -> quietly(() -> {
                    numbers.next(); // race: sharedSteps
                    words.find(); // race: sharedSteps
                    scanner.nextInt(); // race: sharedSteps
                    tokens.nextToken(); // race: sharedSteps
                }),
                () -> quietly(() -> {
                    numbers.next(); // race: sharedSteps
                    words.hitEnd(); // race: sharedSteps
                    scanner.hasNext(); // race: sharedSteps
                    tokens.nextToken(); // race: sharedSteps
                }));
    }

    static void sharedSums() throws Exception {
        CRC32 sum = new CRC32();
        MessageDigest digest = MessageDigest.getInstance("SHA-256");
        SplittableRandom random = new SplittableRandom(1);
        IntSummaryStatistics counts = new IntSummaryStatistics();
        both(
                () -> quietly(() -> {
                    sum.update(1); // race: sharedSums
                    digest.update((byte) 1); // race: sharedSums
                    random.nextInt(); // race: sharedSums
                    counts.accept(3); // race: sharedSums
                }),
                () -> quietly(() -> {
                    sum.getValue(); // race: sharedSums
                    digest.digest(); // race: sharedSums
                    random.nextInt(); // race: sharedSums
                    counts.getMax(); // race: sharedSums
                }));
    }

    static void sharedBuffer() throws InterruptedException {
        ByteBuffer buffer = ByteBuffer.allocate(16);
        both(
                () -> buffer.get(), // race: sharedBuffer
                () -> buffer.get()); // race: sharedBuffer
    }

    static final class Store implements Cloneable {
        int left = 2;
        long total;

        Store copy() {
            try {
                return (Store) super.clone(); // race: copied
            } catch (CloneNotSupportedException impossible) {
                throw new IllegalStateException(impossible);
            }
        }
    }

    static void copied() throws InterruptedException {
        Store store = new Store();
        both(
                () -> {
                    store.total = 5; // race: copied
                },
                () -> {
                    Store own = store.copy();
                    own.left = 7;
                });
        store.left = 1;
    }

    private SharedRaces() {}

    public static void main(String[] words) throws Exception {
        SharedRaces.class.getDeclaredMethod(words[0]).invoke(null);
    }
}
