package example.hometturi.itctrace;

import java.io.InputStream;
import java.lang.ref.Reference;
import java.lang.ref.ReferenceQueue;
import java.lang.ref.WeakReference;
import java.net.URI;
import java.util.ArrayList;
import java.util.List;
import java.util.Map;
import java.util.Optional;
import java.util.Set;
import java.util.concurrent.ConcurrentHashMap;
import java.util.concurrent.Flow;
import java.util.function.BiPredicate;
import java.util.stream.BaseStream;
import java.util.stream.Collectors;
import sun.net.www.MessageHeader;

/**
 * What clients and servers of HTTP call by the agent. A request carries a message in a header, and so does its
 * response, if the request has brought one. If this process answers itself, the handler finds what is asked by the name
 * of that message.
 */
public final class Requests {
    /** Says that this process reports beside no other one. Then another machine has no use for the header. */
    private static final boolean IS_ALONE = System.getenv("ITC_TRACE_ALONE") != null;

    private static final Set<String> LOCAL = Set.of("localhost", "127.0.0.1", "::1", "[::1]");
    /** The requests of connections, and of what else asks. */
    private static final Keyed<Asked> OF_CLIENTS = new Keyed<>();
    /** The requests that are answered, by what answers them. */
    private static final Keyed<Asked> OF_SERVERS = new Keyed<>();
    /** The requests of which the body is still being read, by the stream that gives it. */
    private static final Keyed<Asked> OF_BODIES = new Keyed<>();
    /** The requests of this process that none of its handlers has found yet, by their messages. */
    private static final Map<String, Named> BY_MESSAGE = new ConcurrentHashMap<>();
    private static final ReferenceQueue<Asked> GONE = new ReferenceQueue<>();

    private Requests() {}

    /** A request, and what stands for the places of this process that others come after. */
    private static final class Asked {
        final Object request = new Object();
        /** The head of the response. */
        final Object head = new Object();
        /** What was sent of the body of the response. */
        final Object body = new Object();

        /** Whether a handler of this process has found it. */
        volatile boolean isOwn;
    }

    /** The message of a request, as long as somebody waits for its response. */
    private static final class Named extends WeakReference<Asked> {
        final String message;

        Named(String message, Asked asked) {
            super(asked, GONE);
            this.message = message;
        }
    }

    // Who asks

    /** A message for a request to this host. Null if it needs none. */
    private static String asks(Object client, String host) {
        if (!Traced.isOn() || IS_ALONE && (host == null || !LOCAL.contains(host))) {
            return null;
        }
        Asked asked = new Asked();
        Traced.before(asked.request);
        String message = Traced.outgoing().orElse(null);
        if (message != null) {
            for (Reference<?> old = GONE.poll(); old != null; old = GONE.poll()) {
                BY_MESSAGE.remove(((Named) old).message, old);
            }
            OF_CLIENTS.put(client, asked);
            BY_MESSAGE.put(message, new Named(message, asked));
        }
        return message;
    }

    /** A connection is about to send the head of its request. */
    public static void asks(Object connection, String host, MessageHeader headers) {
        String message = asks(connection, host);
        if (message != null) {
            headers.set(Traced.HEADER, message);
        }
    }

    /** A client is about to send a request. */
    public static void asks(Object request, URI address, Map<String, List<String>> headers) {
        String message = asks(request, address == null ? null : address.getHost());
        if (message != null) {
            headers.put(Traced.HEADER, new ArrayList<>(List.of(message)));
        }
    }

    /** A client asks again, as the response to an earlier request wants it. */
    public static void asksAgain(Object request, Object earlier, URI address, Map<String, List<String>> headers) {
        Asked asked = OF_CLIENTS.known(earlier);
        if (asked != null) {
            Traced.after(asked.request);
        }
        asks(request, address, headers);
    }

    /** What a program sends by itself, but for a message that came with another request. */
    public static Map<String, List<String>> ofProgram(Map<String, List<String>> headers) {
        return headers.entrySet().stream()
                .filter(entry -> !Traced.isOn() || !entry.getKey().equalsIgnoreCase(Traced.HEADER))
                .collect(Collectors.toMap(Map.Entry::getKey, Map.Entry::getValue));
    }

    public static BiPredicate<String, String> all() {
        return (name, value) -> true;
    }

    public static void answered(Object connection, MessageHeader headers) {
        answered(connection, Optional.ofNullable(headers.findValue(Traced.HEADER)));
    }

    /** The head of a response is there. */
    public static void answered(Object client, Optional<String> message) {
        Asked asked = OF_CLIENTS.known(client);
        if (asked != null) {
            if (asked.isOwn) {
                Traced.after(asked.head);
            }
            Traced.incoming(message.orElse(null));
        }
    }

    /** The response is there, with its body, if that is not a stream. */
    public static void completed(Object request, Object body) {
        Asked asked = OF_CLIENTS.known(request);
        if (asked == null || !asked.isOwn) {
            return;
        }
        if (body instanceof InputStream) {
            OF_BODIES.put(body, asked);
        } else if (!(body instanceof BaseStream) && !(body instanceof Flow.Publisher)) {
            Traced.after(asked.body);
        }
    }

    /** The stream that gives the body of a response has nothing more. */
    public static int read(int count, Object stream) {
        Asked asked = count < 0 ? OF_BODIES.known(stream) : null;
        if (asked != null) {
            Traced.after(asked.body);
        }
        return count;
    }

    /** The same of a connection. */
    public static int readOf(int count, Object connection) {
        Asked asked = count < 0 ? OF_CLIENTS.known(connection) : null;
        if (asked != null && asked.isOwn) {
            Traced.after(asked.body);
        }
        return count;
    }

    // Who answers

    /** A handler is about to be called. It comes after the making of its context, too. */
    public static void arrives(Object exchange, Object context, Map<String, List<String>> headers) {
        if (!Traced.isOn()) {
            return;
        }
        Traced.after(context);
        List<String> values = headers.get(Traced.HEADER);
        String message = values == null || values.isEmpty() ? null : values.get(0);
        if (message == null) {
            return;
        }
        Named named = BY_MESSAGE.remove(message);
        Asked asked = named == null ? null : named.get();
        if (asked == null) {
            Traced.incoming(message);
        } else {
            asked.isOwn = true;
            Traced.after(asked.request);
        }
        OF_SERVERS.put(exchange, asked == null ? new Asked() : asked);
    }

    /** The head of a response is about to be sent. */
    public static void answers(Object exchange, Map<String, List<String>> headers) {
        Asked asked = Traced.isOn() ? OF_SERVERS.known(exchange) : null;
        if (asked == null) {
            return;
        }
        if (asked.isOwn) {
            Traced.before(asked.head);
        } else {
            Traced.outgoing().ifPresent(message -> headers.put(Traced.HEADER, new ArrayList<>(List.of(message))));
        }
    }

    /** What ends the body of a response is maybe about to be sent. */
    public static void sends(Object exchange) {
        Asked asked = Traced.isOn() ? OF_SERVERS.known(exchange) : null;
        if (asked != null && asked.isOwn) {
            Traced.before(asked.body);
        }
    }

    /** A server is over. So are its handlers if none is counted any more. */
    public static void stopped(Object server, int exchanges) {
        if (exchanges == 0) {
            Traced.after(server);
        }
    }
}
