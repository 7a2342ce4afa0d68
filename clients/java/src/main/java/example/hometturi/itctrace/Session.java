package example.hometturi.itctrace;

import java.io.BufferedInputStream;
import java.io.EOFException;
import java.io.IOException;
import java.io.InputStream;
import java.io.OutputStream;
import java.net.Socket;
import java.nio.charset.StandardCharsets;
import java.util.Arrays;
import java.util.List;

/** A connection to one tenant of itc_trace serve. Any thread may use it; a request waits for the one before it. */
public final class Session implements AutoCloseable {
    /** A request was refused, with this code. */
    public static final class Refused extends IOException {
        private static final long serialVersionUID = 1;

        /** The first three digits of the reply, or 0 if it has none. */
        public final int code;

        Refused(String request, String reply) {
            super(request + ": " + reply);
            code = reply.matches("\\d{3}.*") ? Integer.parseInt(reply.substring(0, 3)) : 0;
        }
    }

    /** The report of an event: its kind, its task, what it names or "-", and the events that it follows. */
    public record Event(String kind, String task, String name, List<Integer> follows) {}

    /** How far a task has come: "live", "ended" or "joined", and its last event. */
    public record Task(String state, int last) {}

    /** The event that sent a message, and the events that received it. */
    public record Message(int sent, List<Integer> received) {}

    /** How many events, tasks and messages there are. */
    public record Count(int events, int tasks, int messages) {}

    private final Socket socket;
    private final OutputStream requests;
    private final InputStream replies;

    /** With the kind "report" it reports and asks, and is the only one that does; with "view" it asks. */
    public Session(String kind, String tenant, int port) throws IOException {
        socket = new Socket("127.0.0.1", port);
        try {
            socket.setTcpNoDelay(true);
            requests = socket.getOutputStream();
            replies = new BufferedInputStream(socket.getInputStream());
            answer(kind + " " + tenant, "count"); // A session that is refused is told so in place of the count.
        } catch (IOException failure) {
            socket.close();
            throw failure;
        }
    }

    @Override
    public void close() throws IOException {
        socket.close();
    }

    /** The words of the reply to one line, after its code. */
    public List<String> request(String line) throws IOException {
        return answer(line);
    }

    /** The words of the one reply to these lines. */
    private synchronized List<String> answer(String... lines) throws IOException {
        String text = String.join("\n", lines) + "\n";
        if (text.chars().filter(next -> next == '\n').count() > lines.length) {
            throw new Refused(lines[0], "400 line"); // It would be read as two, and answered twice.
        }
        requests.write(text.getBytes(StandardCharsets.UTF_8));
        requests.flush();
        String reply = readReply();
        if (!reply.startsWith("200 ") && !reply.startsWith("201 ")) {
            throw new Refused(lines[0], reply);
        }
        return Arrays.asList(reply.substring(4).split(" "));
    }

    private String readReply() throws IOException {
        StringBuilder reply = new StringBuilder();
        for (int next = replies.read(); next != '\n'; next = replies.read()) {
            if (next < 0) {
                throw new EOFException("the collector has ended the session");
            }
            reply.append((char) next);
        }
        return reply.toString();
    }

    private int number(String line) throws IOException {
        return Integer.parseInt(request(line).get(0));
    }

    private static List<Integer> numbers(List<String> words) {
        return words.stream().map(Integer::valueOf).toList();
    }

    private List<Integer> list(String line) throws IOException {
        List<String> words = request(line);
        return numbers(words.subList(1, words.size()));
    }

    // Reports: each gives the number of its event.

    public int local(String task) throws IOException {
        return number("local " + task);
    }

    public int spawn(String task, String child) throws IOException {
        return number("spawn " + task + " " + child);
    }

    public int send(String task, String message) throws IOException {
        return number("send " + task + " " + message);
    }

    public int recv(String task, String message) throws IOException {
        return number("recv " + task + " " + message);
    }

    public int end(String task) throws IOException {
        return number("end " + task);
    }

    public int join(String task, String child) throws IOException {
        return number("join " + task + " " + child);
    }

    // Queries.

    /** How event a stands to event b: "same", "before", "after" or "concurrent". */
    public String order(int a, int b) throws IOException {
        return request("order " + a + " " + b).get(0);
    }

    /** The events that happened before this one. */
    public List<Integer> past(int event) throws IOException {
        return list("past " + event);
    }

    /** The events that happened neither before this one nor after it. */
    public List<Integer> concurrent(int event) throws IOException {
        return list("concurrent " + event);
    }

    /** Of each task the last event that this one knows of, increasing; the event itself is among them. */
    public List<Integer> cut(int event) throws IOException {
        return list("cut " + event);
    }

    public Event event(int event) throws IOException {
        List<String> words = request("event " + event);
        return new Event(words.get(0), words.get(1), words.get(2), numbers(words.subList(4, words.size())));
    }

    public String stamp(int event) throws IOException {
        return request("stamp " + event).get(0);
    }

    public Task task(String task) throws IOException {
        List<String> words = request("task " + task);
        return new Task(words.get(0), Integer.parseInt(words.get(1)));
    }

    public Message message(String message) throws IOException {
        List<Integer> numbers = numbers(request("message " + message));
        return new Message(numbers.get(0), numbers.subList(2, numbers.size()));
    }

    public Count count() throws IOException {
        List<Integer> numbers = numbers(request("count"));
        return new Count(numbers.get(0), numbers.get(1), numbers.get(2));
    }
}
