import com.sun.net.httpserver.HttpExchange;
import com.sun.net.httpserver.HttpHandler;
import com.sun.net.httpserver.HttpServer;
import java.io.IOException;
import java.io.InputStream;
import java.io.OutputStream;
import java.net.HttpURLConnection;
import java.net.InetAddress;
import java.net.InetSocketAddress;
import java.net.URI;
import java.net.http.HttpClient;
import java.net.http.HttpClient.Redirect;
import java.net.http.HttpRequest;
import java.net.http.HttpResponse;
import java.net.http.HttpResponse.BodyHandler;
import java.net.http.HttpResponse.BodyHandlers;
import java.net.http.HttpResponse.BodySubscribers;
import java.nio.charset.StandardCharsets;
import java.util.concurrent.CompletableFuture;
import java.util.concurrent.ExecutorService;
import java.util.concurrent.Executors;

/** Programs that ask themselves by HTTP, without a race. */
public final class Requested {
    static final class Store {
        int left;
        int sold;
        String owner = "nobody";
    }

    /** A server whose handlers run side by side. */
    static final class Shop implements AutoCloseable {
        private final ExecutorService pool = Executors.newFixedThreadPool(4);
        final HttpServer server = HttpServer.create(new InetSocketAddress(InetAddress.getLoopbackAddress(), 0), 0);

        Shop(HttpHandler handler) throws IOException {
            server.createContext("/", handler);
            server.setExecutor(pool);
            server.start();
        }

        URI address(String path) {
            return URI.create("http://127.0.0.1:" + server.getAddress().getPort() + path);
        }

        HttpRequest request() {
            return HttpRequest.newBuilder(address("/")).build();
        }

        HttpURLConnection connection() throws IOException {
            return (HttpURLConnection) address("/").toURL().openConnection();
        }

        @Override
        public void close() {
            server.stop(0);
            pool.shutdown();
        }
    }

    static void answer(HttpExchange exchange, int status, String text) throws IOException {
        byte[] body = text.getBytes(StandardCharsets.UTF_8);
        exchange.sendResponseHeaders(status, body.length);
        try (OutputStream response = exchange.getResponseBody()) {
            response.write(body);
        }
    }

    /** Moves the request to another path. */
    static void move(HttpExchange exchange, String path) throws IOException {
        exchange.getResponseHeaders().set("Location", path);
        exchange.sendResponseHeaders(302, -1);
        exchange.close();
    }

    static boolean isFor(HttpExchange exchange, String path) {
        return exchange.getRequestURI().getPath().equals(path);
    }

    static String readAll(InputStream body) throws IOException {
        try (body) {
            return new String(body.readAllBytes(), StandardCharsets.UTF_8);
        }
    }

    static void asked() throws Exception {
        Store store = new Store();
        try (Shop shop =
                new Shop(
                        exchange -> {
                            store.sold = store.left;
                            answer(exchange, 200, "sold");
                        })) {
            store.left = 5;
            HttpResponse<String> response = HttpClient.newHttpClient().send(shop.request(), BodyHandlers.ofString());
            System.out.println(response.body() + store.sold);
        }
    }

    static void askedLater() throws Exception {
        Store store = new Store();
        try (Shop shop =
                new Shop(
                        exchange -> {
                            store.sold = store.left;
                            answer(exchange, 200, "sold");
                        })) {
            store.left = 5;
            CompletableFuture<HttpResponse<String>> response =
                    HttpClient.newHttpClient().sendAsync(shop.request(), BodyHandlers.ofString());
            CompletableFuture<String> told = response.thenApply(one -> one.body() + store.sold);
            System.out.println(told.join());
            store.sold++;
        }
    }

    static void connected() throws Exception {
        Store store = new Store();
        try (Shop shop =
                new Shop(
                        exchange -> {
                            store.sold = store.left;
                            answer(exchange, 200, "sold");
                        })) {
            store.left = 5;
            System.out.println(readAll(shop.connection().getInputStream()) + store.sold);
        }
    }

    /** The order is that of the status, too, and of an answer that is an exception. */
    static void refused() throws Exception {
        Store store = new Store();
        try (Shop shop =
                new Shop(
                        exchange -> {
                            store.owner = readAll(exchange.getRequestBody()) + store.left;
                            answer(exchange, 404, "refused");
                        })) {
            store.left = 5;
            HttpURLConnection connection = shop.connection();
            connection.setDoOutput(true);
            connection.getOutputStream().write(65);
            try {
                connection.getInputStream();
            } catch (IOException refused) {
                System.out.println(store.owner + readAll(connection.getErrorStream()));
            }
        }
    }

    /** The second handler comes after the first, whatever threads they have. */
    static void twice() throws Exception {
        Store store = new Store();
        try (Shop shop =
                new Shop(
                        exchange -> {
                            store.sold++;
                            answer(exchange, 200, "sold");
                        })) {
            HttpClient client = HttpClient.newHttpClient();
            for (int turn = 0; turn < 3; turn++) {
                client.send(shop.request(), BodyHandlers.discarding());
                readAll(shop.connection().getInputStream());
            }
            System.out.println(store.sold);
        }
    }

    /** One thread answers all. */
    static void oneAfterTheOther() throws Exception {
        Store store = new Store();
        HttpServer server = HttpServer.create(new InetSocketAddress(InetAddress.getLoopbackAddress(), 0), 0);
        server.createContext(
                "/",
                exchange -> {
                    store.sold++;
                    answer(exchange, 200, "sold");
                });
        server.start();
        URI address = URI.create("http://127.0.0.1:" + server.getAddress().getPort());
        Thread[] clients = new Thread[3];
        for (int number = 0; number < clients.length; number++) {
            clients[number] = new Thread(() -> System.out.println(get(address)));
            clients[number].start();
        }
        for (Thread client : clients) {
            client.join();
        }
        server.stop(0);
        System.out.println(store.sold);
    }

    static String get(URI address) {
        try {
            return readAll(address.toURL().openStream());
        } catch (IOException failure) {
            return failure.toString();
        }
    }

    static void moved() throws Exception {
        Store store = new Store();
        try (Shop shop =
                new Shop(
                        exchange -> {
                            if (isFor(exchange, "/")) {
                                store.left = 5;
                                move(exchange, "/there");
                            } else {
                                store.sold = store.left;
                                answer(exchange, 200, "sold");
                            }
                        })) {
            HttpClient client = HttpClient.newBuilder().followRedirects(Redirect.NORMAL).build();
            String body = client.send(shop.request(), BodyHandlers.ofString()).body();
            System.out.println(body + store.sold);
            System.out.println(readAll(shop.connection().getInputStream()) + store.sold);
        }
    }

    /** Who has all of a body comes after what was done before its last byte was sent. */
    static void streamed() throws Exception {
        Store store = new Store();
        try (Shop shop =
                new Shop(
                        exchange -> {
                            exchange.sendResponseHeaders(200, isFor(exchange, "/") ? 0 : 4);
                            store.sold++;
                            exchange.getResponseBody().write("sold".getBytes(StandardCharsets.UTF_8));
                            if (isFor(exchange, "/")) {
                                store.left--;
                            }
                            exchange.close();
                        })) {
            HttpClient client = HttpClient.newHttpClient();
            System.out.println(client.send(shop.request(), BodyHandlers.ofString()).body() + store.sold + store.left);
            InputStream body = client.send(shop.request(), BodyHandlers.ofInputStream()).body();
            System.out.println(readAll(body) + store.sold + store.left);
            System.out.println(readAll(shop.connection().getInputStream()) + store.sold + store.left);
            System.out.println(get(shop.address("/four")) + store.sold);
        }
    }

    /** What looks at the head of a response comes after it, too. */
    static void handled() throws Exception {
        Store store = new Store();
        try (Shop shop =
                new Shop(
                        exchange -> {
                            store.sold = 1;
                            answer(exchange, 200, "sold");
                        })) {
            BodyHandler<String> handler =
                    head -> {
                        int sold = store.sold;
                        return BodySubscribers.mapping(
                                BodySubscribers.ofString(StandardCharsets.UTF_8), text -> text + sold);
                    };
            System.out.println(HttpClient.newHttpClient().send(shop.request(), handler).body() + store.sold);
        }
    }

    /** A handler asks another one. */
    static void handedOn() throws Exception {
        Store store = new Store();
        try (Shop inner =
                        new Shop(
                                exchange -> {
                                    store.sold = store.left;
                                    answer(exchange, 200, "sold");
                                });
                Shop outer = new Shop(exchange -> answer(exchange, 200, get(inner.address("/"))))) {
            store.left = 5;
            System.out.println(get(outer.address("/")) + store.sold);
        }
    }

    /** A handler sends on what headers it got, as a proxy does, and a client has a header of its own. */
    static void sentOn() throws Exception {
        Store store = new Store();
        HttpClient client = HttpClient.newHttpClient();
        try (Shop inner =
                        new Shop(
                                exchange -> {
                                    store.sold = store.left;
                                    answer(exchange, 200, "sold");
                                });
                Shop outer = new Shop(exchange -> sendOn(store, client, exchange, inner))) {
            System.out.println(get(outer.address("/connection")) + get(outer.address("/client")) + store.sold);
        }
    }

    private static void sendOn(Store store, HttpClient client, HttpExchange exchange, Shop inner) throws IOException {
        store.left = 5;
        if (isFor(exchange, "/connection")) {
            HttpURLConnection connection = inner.connection();
            exchange.getRequestHeaders().forEach((name, values) -> connection.setRequestProperty(name, values.get(0)));
            answer(exchange, 200, readAll(connection.getInputStream()));
            return;
        }
        HttpRequest.Builder request = HttpRequest.newBuilder(inner.address("/"));
        exchange.getRequestHeaders().forEach((name, values) -> copy(request, name, values.get(0)));
        answer(exchange, 200, client.sendAsync(request.build(), BodyHandlers.ofString()).join().body());
    }

    private static void copy(HttpRequest.Builder request, String name, String value) {
        try {
            request.header(name, value);
        } catch (IllegalArgumentException restricted) {
            return; // As Connection is.
        }
    }

    /** What is done before a context is made comes before its requests, though the server runs already. */
    static void madeLater() throws Exception {
        Store store = new Store();
        try (Shop shop = new Shop(exchange -> answer(exchange, 404, "none"))) {
            Thread maker =
                    new Thread(
                            () -> {
                                store.left = 5;
                                shop.server.createContext(
                                        "/later", exchange -> answer(exchange, 200, "sold" + store.left));
                            });
            maker.start();
            String told = "none";
            while (!told.startsWith("sold")) {
                told = get(shop.address("/later"));
            }
            System.out.println(told);
            maker.join();
        }
    }

    /** Who has stopped a server comes after all that its handlers did, if none of them is left. */
    static void stopped() throws Exception {
        Store store = new Store();
        ExecutorService pool = Executors.newCachedThreadPool();
        HttpServer server = HttpServer.create(new InetSocketAddress(InetAddress.getLoopbackAddress(), 0), 0);
        server.setExecutor(pool);
        server.createContext(
                "/",
                exchange -> {
                    exchange.sendResponseHeaders(200, 4);
                    store.sold++;
                    exchange.getResponseBody().write("sold".getBytes(StandardCharsets.UTF_8));
                    store.left--;
                    exchange.close();
                });
        server.start();
        get(URI.create("http://127.0.0.1:" + server.getAddress().getPort()));
        server.stop(3);
        System.out.println(store.sold + store.left);
        pool.shutdown();
    }

    private Requested() {}

    public static void main(String[] words) throws Exception {
        Requested.class.getDeclaredMethod(words[0]).invoke(null);
    }
}
