package example.hometturi.itctrace;

import com.sun.net.httpserver.Filter;
import java.net.http.HttpClient;

/** Requests and responses of HTTP as messages, by the header {@code Itc-Trace}, for the client and the server of the JDK. */
public final class TracedWeb {
    private TracedWeb() {}

    /**
     * A client that sends a message with each request, and receives the one that the response brings. What takes the
     * response comes after it, as {@code send} does and whoever takes the value of {@code sendAsync}. It is closed by
     * closing the client that it wraps.
     */
    public static HttpClient client(HttpClient client) {
        return new TracedClient(client);
    }

    /**
     * A filter by which each request is a task of its own, which comes after what was done before this call: {@code
     * server.createContext("/", handler).getFilters().add(TracedWeb.filter())}. The response is a message, too, but for
     * one over TLS.
     */
    public static Filter filter() {
        return new TracedFilter();
    }
}
