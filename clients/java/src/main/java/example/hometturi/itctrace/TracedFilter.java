package example.hometturi.itctrace;

import com.sun.net.httpserver.Filter;
import com.sun.net.httpserver.Headers;
import com.sun.net.httpserver.HttpContext;
import com.sun.net.httpserver.HttpExchange;
import com.sun.net.httpserver.HttpPrincipal;
import com.sun.net.httpserver.HttpsExchange;
import example.hometturi.itctrace.Place.Gives;
import example.hometturi.itctrace.Place.Mark;
import example.hometturi.itctrace.Row.Site;
import java.io.IOException;
import java.io.InputStream;
import java.io.OutputStream;
import java.net.InetSocketAddress;
import java.net.URI;

/** Has each request be a task of its own. If it has brought a message, its response is one, too. */
final class TracedFilter extends Filter {
    private static final Gives MADE = Gives.order("filter", "make filter", "begin request");

    /** Whatever was done before the filter was made comes before each request. */
    private final Mark made = Traced.mark(MADE, Traced.site());

    @Override
    public String description() {
        return "reports requests and responses as messages";
    }

    @Override
    public void doFilter(HttpExchange exchange, Chain chain) throws IOException {
        String message = exchange.getRequestHeaders().getFirst(Traced.HEADER);
        TracedRequest request = Traced.request(message);
        try {
            Traced.take(made, Site.NONE);
            // A handler may want what only an exchange over TLS has.
            boolean isPlain = message == null || exchange instanceof HttpsExchange;
            chain.doFilter(isPlain ? exchange : new Answering(exchange));
        } finally {
            request.close();
        }
    }

    /** An exchange that sends a message with the head of its response. */
    private static final class Answering extends HttpExchange {
        private final HttpExchange exchange;

        Answering(HttpExchange exchange) {
            this.exchange = exchange;
        }

        @Override
        public void sendResponseHeaders(int status, long length) throws IOException {
            Traced.outgoing().ifPresent(message -> getResponseHeaders().set(Traced.HEADER, message));
            exchange.sendResponseHeaders(status, length);
        }

        @Override
        public Headers getRequestHeaders() {
            return exchange.getRequestHeaders();
        }

        @Override
        public Headers getResponseHeaders() {
            return exchange.getResponseHeaders();
        }

        @Override
        public URI getRequestURI() {
            return exchange.getRequestURI();
        }

        @Override
        public String getRequestMethod() {
            return exchange.getRequestMethod();
        }

        @Override
        public HttpContext getHttpContext() {
            return exchange.getHttpContext();
        }

        @Override
        public void close() {
            exchange.close();
        }

        @Override
        public InputStream getRequestBody() {
            return exchange.getRequestBody();
        }

        @Override
        public OutputStream getResponseBody() {
            return exchange.getResponseBody();
        }

        @Override
        public InetSocketAddress getRemoteAddress() {
            return exchange.getRemoteAddress();
        }

        @Override
        public int getResponseCode() {
            return exchange.getResponseCode();
        }

        @Override
        public InetSocketAddress getLocalAddress() {
            return exchange.getLocalAddress();
        }

        @Override
        public String getProtocol() {
            return exchange.getProtocol();
        }

        @Override
        public Object getAttribute(String name) {
            return exchange.getAttribute(name);
        }

        @Override
        public void setAttribute(String name, Object value) {
            exchange.setAttribute(name, value);
        }

        @Override
        public void setStreams(InputStream body, OutputStream response) {
            exchange.setStreams(body, response);
        }

        @Override
        public HttpPrincipal getPrincipal() {
            return exchange.getPrincipal();
        }
    }
}
