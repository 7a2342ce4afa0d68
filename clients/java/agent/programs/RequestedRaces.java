import com.sun.net.httpserver.HttpExchange;
import java.io.IOException;
import java.io.InputStream;
import java.net.HttpURLConnection;
import java.net.http.HttpClient;
import java.net.http.HttpClient.Redirect;
import java.net.http.HttpResponse;
import java.net.http.HttpResponse.BodyHandler;
import java.net.http.HttpResponse.BodyHandlers;
import java.net.http.HttpResponse.BodySubscribers;
import java.nio.charset.StandardCharsets;
import java.util.concurrent.CompletableFuture;

/** Programs that ask themselves by HTTP, each with a race. */
public final class RequestedRaces {
    /** The client writes once more while it waits. */
    static void behindTheRequest() throws Exception {
        Requested.Store store = new Requested.Store();
        try (Requested.Shop shop =
                new Requested.Shop(
                        exchange -> {
                            store.sold = store.left; // race: behindTheRequest
                            Requested.answer(exchange, 200, "sold");
                        })) {
            CompletableFuture<HttpResponse<String>> response =
                    HttpClient.newHttpClient().sendAsync(shop.request(), BodyHandlers.ofString());
            store.left = 5; // race: behindTheRequest
            System.out.println(response.join().body() + (store.sold < 9));
        }
    }

    /** The handler writes once more behind its answer. */
    static void behindTheAnswer() throws Exception {
        Requested.Store store = new Requested.Store();
        try (Requested.Shop shop =
                new Requested.Shop(
                        exchange -> {
                            Requested.answer(exchange, 200, "sold");
                            store.sold = 1; // race: behindTheAnswer
                        })) {
            String body = HttpClient.newHttpClient().send(shop.request(), BodyHandlers.ofString()).body();
            System.out.println(body + (store.sold < 9)); // race: behindTheAnswer
        }
    }

    static void behindTheConnection() throws Exception {
        Requested.Store store = new Requested.Store();
        try (Requested.Shop shop =
                new Requested.Shop(
                        exchange -> {
                            Requested.answer(exchange, 404, "none");
                            store.sold = 1; // race: behindTheConnection
                        })) {
            HttpURLConnection connection = shop.connection();
            int status = connection.getResponseCode();
            System.out.println(Requested.readAll(connection.getErrorStream()) + status);
            System.out.println(store.sold < 9); // race: behindTheConnection
        }
    }

    /** Two clients ask, and nothing orders their handlers. */
    static void twoClients() throws Exception {
        Requested.Store store = new Requested.Store();
        try (Requested.Shop shop =
                new Requested.Shop(
                        exchange -> {
                            store.sold++; // race: twoClients
                            Requested.answer(exchange, 200, "sold");
                        })) {
            Thread bob = new Thread(() -> System.out.println(Requested.get(shop.address("/"))));
            bob.start();
            System.out.println(HttpClient.newHttpClient().send(shop.request(), BodyHandlers.ofString()).body());
            bob.join();
        }
    }

    /** One client, which asks twice at once. */
    static void twoRequests() throws Exception {
        Requested.Store store = new Requested.Store();
        try (Requested.Shop shop =
                new Requested.Shop(
                        exchange -> {
                            store.sold++; // race: twoRequests
                            Requested.answer(exchange, 200, "sold");
                        })) {
            HttpClient client = HttpClient.newHttpClient();
            CompletableFuture<HttpResponse<String>> one = client.sendAsync(shop.request(), BodyHandlers.ofString());
            CompletableFuture<HttpResponse<String>> other = client.sendAsync(shop.request(), BodyHandlers.ofString());
            System.out.println(one.join().body() + other.join().body());
        }
    }

    /** The first handler writes once more behind what has the client go on to the second. */
    static void behindTheMove() throws Exception {
        Requested.Store store = new Requested.Store();
        try (Requested.Shop shop =
                new Requested.Shop(
                        exchange -> {
                            if (Requested.isFor(exchange, "/")) {
                                Requested.move(exchange, "/there");
                                store.left = 5; // race: behindTheMove
                            } else {
                                store.sold = store.left; // race: behindTheMove
                                Requested.answer(exchange, 200, "sold");
                            }
                        })) {
            HttpClient client = HttpClient.newBuilder().followRedirects(Redirect.NORMAL).build();
            System.out.println(client.send(shop.request(), BodyHandlers.ofString()).body());
        }
    }

    /** The client has the head, and not yet the body. */
    static void beforeTheBody() throws Exception {
        Requested.Store store = new Requested.Store();
        try (Requested.Shop shop =
                new Requested.Shop(
                        exchange -> {
                            exchange.sendResponseHeaders(200, 0);
                            exchange.getResponseBody().flush();
                            store.sold = 1; // race: beforeTheBody
                            exchange.close();
                        })) {
            HttpURLConnection connection = shop.connection();
            int status = connection.getResponseCode();
            System.out.println(status + store.sold < 999); // race: beforeTheBody
            System.out.println(Requested.readAll(connection.getInputStream()));
        }
    }

    static void beforeTheStream() throws Exception {
        Requested.Store store = new Requested.Store();
        try (Requested.Shop shop =
                new Requested.Shop(
                        exchange -> {
                            exchange.sendResponseHeaders(200, 0);
                            exchange.getResponseBody().flush();
                            store.sold = 1; // race: beforeTheStream
                            exchange.close();
                        })) {
            InputStream body = HttpClient.newHttpClient().send(shop.request(), BodyHandlers.ofInputStream()).body();
            System.out.println(store.sold < 9); // race: beforeTheStream
            System.out.println(Requested.readAll(body));
        }
    }

    /** The last byte of a body with a length is sent before the handler writes. */
    static void behindTheLastByte() throws Exception {
        Requested.Store store = new Requested.Store();
        try (Requested.Shop shop =
                new Requested.Shop(
                        exchange -> {
                            exchange.sendResponseHeaders(200, 4);
                            exchange.getResponseBody().write("sold".getBytes(StandardCharsets.UTF_8));
                            store.sold = 1; // race: behindTheLastByte
                            exchange.close();
                        })) {
            System.out.println(Requested.get(shop.address("/")) + (store.sold < 9)); // race: behindTheLastByte
        }
    }

    static void handledTooEarly() throws Exception {
        Requested.Store store = new Requested.Store();
        try (Requested.Shop shop =
                new Requested.Shop(
                        exchange -> {
                            exchange.sendResponseHeaders(200, 0);
                            exchange.getResponseBody().flush();
                            store.sold = 1; // race: handledTooEarly
                            exchange.close();
                        })) {
            BodyHandler<String> handler =
                    head -> {
                        System.out.println(store.sold < 9); // race: handledTooEarly
                        return BodySubscribers.ofString(StandardCharsets.UTF_8);
                    };
            System.out.println(HttpClient.newHttpClient().send(shop.request(), handler).body());
        }
    }

    /** The server is asked by a client that nobody has told of what is written. */
    static void toldByNobody() throws Exception {
        Requested.Store store = new Requested.Store();
        try (Requested.Shop shop =
                new Requested.Shop(
                        exchange -> {
                            store.sold = store.left; // race: toldByNobody
                            Requested.answer(exchange, 200, "sold");
                        })) {
            Thread bob = new Thread(() -> System.out.println(Requested.get(shop.address("/"))));
            bob.start();
            store.left = 5; // race: toldByNobody
            bob.join();
        }
    }

    /** What is written behind the making of a context. */
    static void behindTheMaking() throws Exception {
        Requested.Store store = new Requested.Store();
        try (Requested.Shop shop = new Requested.Shop(exchange -> Requested.answer(exchange, 404, "none"))) {
            Thread maker =
                    new Thread(
                            () -> {
                                shop.server.createContext("/later", exchange -> tell(exchange, store));
                                store.left = 5; // race: behindTheMaking
                            });
            maker.start();
            String told = "none";
            while (!told.startsWith("sold")) {
                told = Requested.get(shop.address("/later"));
            }
            maker.join();
        }
    }

    private static void tell(HttpExchange exchange, Requested.Store store) throws IOException {
        Requested.answer(exchange, 200, "sold" + store.left); // race: behindTheMaking
    }

    private RequestedRaces() {}

    public static void main(String[] words) throws Exception {
        RequestedRaces.class.getDeclaredMethod(words[0]).invoke(null);
    }
}
