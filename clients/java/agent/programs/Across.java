import com.sun.net.httpserver.HttpServer;
import java.net.InetAddress;
import java.net.InetSocketAddress;
import java.net.URI;
import java.net.http.HttpClient;
import java.net.http.HttpRequest;
import java.net.http.HttpResponse;
import java.net.http.HttpResponse.BodyHandlers;
import java.nio.file.Files;
import java.nio.file.Path;
import java.util.Arrays;
import java.util.concurrent.CountDownLatch;
import java.util.concurrent.ExecutorService;
import java.util.concurrent.Executors;

/** A server, and what asks it, each a process of its own. clients/watched_web.py runs them, and those of Python. */
public final class Across {
    private static int stock;

    private Across() {}

    /**
     * Answers so many requests at a free port, which is told in the file. The first one is maybe answered before it is
     * done.
     */
    static void answer(Path file, int count, boolean isLate) throws Exception {
        CountDownLatch left = new CountDownLatch(count);
        ExecutorService pool = Executors.newFixedThreadPool(4);
        HttpServer server = HttpServer.create(new InetSocketAddress(InetAddress.getLoopbackAddress(), 0), 0);
        server.setExecutor(pool);
        server.createContext(
                "/first",
                exchange -> {
                    if (!isLate) {
                        stock = 5; // race: apart
                    }
                    Requested.answer(exchange, 200, "first");
                    if (isLate) {
                        stock = 4; // race: late
                    }
                    left.countDown();
                });
        server.createContext(
                "/second",
                exchange -> {
                    int seen = stock; // race: late apart
                    Requested.answer(exchange, 200, seen < 9 ? "second" : "none");
                    left.countDown();
                });
        server.start();
        Path written = Path.of(file + ".new");
        Files.writeString(written, String.valueOf(server.getAddress().getPort()));
        Files.move(written, file);
        left.await();
        server.stop(1);
        pool.shutdown();
    }

    /** Asks this host for these pages, one after the other. */
    static void ask(Path file, String how, String host, String... pages) throws Exception {
        while (!Files.exists(file)) {
            Thread.sleep(10);
        }
        for (String page : pages) {
            System.out.println(get(URI.create("http://" + host + ":" + Files.readString(file) + page), how));
        }
    }

    private static String get(URI address, String how) throws Exception {
        HttpRequest request = HttpRequest.newBuilder(address).build();
        HttpClient client = HttpClient.newHttpClient();
        return switch (how) {
            case "client" -> client.send(request, BodyHandlers.ofString()).body();
            case "later" -> client.sendAsync(request, BodyHandlers.ofString()).thenApply(HttpResponse::body).join();
            default -> Requested.get(address);
        };
    }

    public static void main(String[] words) throws Exception {
        Path file = Path.of(words[1]);
        if (words[0].equals("answer")) {
            answer(file, Integer.parseInt(words[2]), words[3].equals("late"));
        } else {
            ask(file, words[2], words[3], Arrays.copyOfRange(words, 4, words.length));
        }
    }
}
