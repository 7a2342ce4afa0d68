import com.sun.net.httpserver.HttpContext;
import com.sun.net.httpserver.HttpExchange;
import com.sun.net.httpserver.HttpServer;
import example.hometturi.itctrace.Traced;
import example.hometturi.itctrace.TracedWeb;
import java.io.IOException;
import java.io.InputStream;
import java.io.OutputStream;
import java.net.InetAddress;
import java.net.InetSocketAddress;
import java.net.URI;
import java.net.URL;
import java.net.http.HttpClient;
import java.net.http.HttpRequest;
import java.net.http.HttpResponse;
import java.net.http.HttpResponse.BodyHandlers;
import java.nio.charset.StandardCharsets;
import java.nio.file.Files;
import java.nio.file.Path;
import java.util.concurrent.CountDownLatch;
import java.util.concurrent.atomic.AtomicInteger;
import java.util.concurrent.locks.Lock;
import java.util.concurrent.locks.ReentrantLock;

/** A server and a client of HTTP. clients/web.py runs them beside those of other languages. */
final class WebPrograms {
    private static final String TRACED = "traced";

    private static final int ONE_IN = 1000;
    /** So many bytes more than after the first quarter of the requests are kept behind the last one. */
    private static final long MOST_MORE = 1_000_000;
    private static final int FEW_LOOKS = 20;
    private static final int MANY_LOOKS = 400;

    private WebPrograms() {}

    /** Answers so many requests. One in a thousand forgets the lock. */
    static void requests(int count) throws Exception {
        System.setProperty("sun.net.httpserver.nodelay", "true"); // Else each response waits 40 ms for the system.
        Lock lock = Traced.lock(new ReentrantLock());
        AtomicInteger number = new AtomicInteger();
        HttpServer server = HttpServer.create(new InetSocketAddress(InetAddress.getLoopbackAddress(), 0), 0);
        HttpContext context =
                server.createContext(
                        "/",
                        exchange -> {
                            if (number.getAndIncrement() % ONE_IN == 0) {
                                Traced.touch("total", true); // race: requests
                            } else {
                                lock.lock();
                                Traced.touch("stock", true);
                                lock.unlock();
                            }
                            answer(exchange);
                        });
        context.getFilters().add(TracedWeb.filter());
        server.start();
        URL address = new URL("http://127.0.0.1:" + server.getAddress().getPort() + "/");
        long before = Long.MAX_VALUE;
        for (int turn = 0; turn < count; turn++) {
            try (InputStream body = address.openStream()) {
                body.readAllBytes();
            }
            before = turn == count / 4 ? kept() : before;
        }
        server.stop(0);
        keepsNoMoreThan(before);
    }

    /** How many bytes are kept, once what is on its way is reported. */
    static long kept() throws InterruptedException {
        return kept(FEW_LOOKS, 0);
    }

    /** Fails if much more is kept than before. */
    static void keepsNoMoreThan(long before) throws InterruptedException {
        long after = kept(MANY_LOOKS, before + MOST_MORE);
        if (after > before + MOST_MORE) {
            throw new IllegalStateException(after + " bytes are kept, and " + before + " before");
        }
    }

    /** The same. It looks so often, or until these are enough. */
    private static long kept(int looks, long enough) throws InterruptedException {
        long least = Long.MAX_VALUE;
        for (int look = 0; look < looks && least > enough; look++) {
            System.gc();
            Thread.sleep(100);
            least = Math.min(least, Runtime.getRuntime().totalMemory() - Runtime.getRuntime().freeMemory());
        }
        return least;
    }

    /** Answers so many requests at a free port, which is told in the file. */
    static void serve(Path file, int count, String how) throws Exception {
        CountDownLatch left = new CountDownLatch(count);
        Traced.touch("prices", true); // race: plain_server
        HttpServer server = HttpServer.create(new InetSocketAddress(InetAddress.getLoopbackAddress(), 0), 0);
        HttpContext context =
                server.createContext(
                        "/",
                        exchange -> {
                            respond(exchange);
                            left.countDown();
                        });
        if (how.equals(TRACED)) {
            context.getFilters().add(TracedWeb.filter());
        }
        server.start();
        Path written = Path.of(file + ".new");
        Files.writeString(written, String.valueOf(server.getAddress().getPort()));
        Files.move(written, file);
        left.await();
        server.stop(1);
    }

    private static void respond(HttpExchange exchange) throws IOException {
        Traced.touchAcross("row", false); // race: web_server odd_heads two_requests
        Traced.touch("prices", false); // race: plain_server
        Traced.touch("log", true); // race: odd_heads two_requests
        answer(exchange);
    }

    private static void answer(HttpExchange exchange) throws IOException {
        byte[] body = "read".getBytes(StandardCharsets.US_ASCII);
        exchange.sendResponseHeaders(200, body.length);
        try (OutputStream response = exchange.getResponseBody()) {
            response.write(body);
        }
    }

    /** Writes before and after a request. */
    static void ask(Path file, String how) throws Exception {
        while (!Files.exists(file)) {
            Thread.sleep(10);
        }
        HttpRequest request = HttpRequest.newBuilder(URI.create("http://127.0.0.1:" + Files.readString(file).strip())).build();
        Traced.touchAcross("row", true); // race: web_client
        HttpResponse<String> response = get(request, how);
        Traced.touchAcross("row", true); // race: web_client
        System.out.println(response.body());
    }

    private static HttpResponse<String> get(HttpRequest request, String how) throws Exception {
        HttpClient plain = HttpClient.newHttpClient();
        return switch (how) {
            case TRACED -> TracedWeb.client(plain).send(request, BodyHandlers.ofString());
            case "async" -> TracedWeb.client(plain).sendAsync(request, BodyHandlers.ofString()).join();
            default -> plain.send(request, BodyHandlers.ofString());
        };
    }
}
