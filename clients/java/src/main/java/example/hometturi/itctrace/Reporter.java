package example.hometturi.itctrace;

import java.io.IOException;
import java.io.OutputStream;
import java.nio.charset.StandardCharsets;
import java.util.List;
import java.util.Optional;

/**
 * A process that reports where its environment says, by ITC_TRACE_PORT, ITC_TRACE_TENANT, ITC_TRACE_PROCESS and ITC_TRACE_JOURNAL. It
 * has a task of its own under root, and a journal by which python3 -m itc_trace lists the races. Any thread may use it.
 */
public final class Reporter implements AutoCloseable {
    private static final int TASK_EXISTS = 402;

    /** The task of this process, and the first part of the names of its other tasks. */
    public final String task;

    private final Session session;
    private final OutputStream journal;
    private String process;

    /** None if the environment names no port. */
    public static Optional<Reporter> fromEnvironment() throws IOException {
        Optional<Environment> environment = Environment.read(System.getenv());
        return environment.isEmpty() ? Optional.empty() : Optional.of(new Reporter(environment.get()));
    }

    private Reporter(Environment environment) throws IOException {
        journal = environment.openJournal().output();
        session = new Session("report", environment.tenant(), environment.port());
        process = environment.process();
        task = begin(environment.tag());
    }

    private String begin(String name) throws IOException {
        for (int number = 1; ; number++) {
            String tried = number == 1 ? name : name + number;
            try {
                write(session.spawn("root", tried), Row.of("root", "spawn", Row.Site.NONE, "start process " + tried, null));
                process += number == 1 ? "" : " " + number; // What is its own is not that of the first one.
                journal.write(Row.process(process, tried).getBytes(StandardCharsets.UTF_8));
                return tried;
            } catch (Session.Refused refused) {
                if (refused.code != TASK_EXISTS) {
                    throw refused;
                }
            }
        }
    }

    /** The name of another task of this process, as of a thread. */
    public String name(String of) {
        return task + "_" + of;
    }

    /** The task reads or writes the thing, which is of this process, at the line that calls this. */
    public int touch(String task, String thing, boolean writes) throws IOException {
        return touched(task, thing + " of " + process, writes);
    }

    /** The same of a thing that all processes call by this name, as a file. */
    public int touchAcross(String task, String thing, boolean writes) throws IOException {
        return touched(task, thing, writes);
    }

    private int touched(String task, String thing, boolean writes) throws IOException {
        String kind = writes ? "write" : "read";
        return at("local " + task, task, kind, thing, kind + " " + thing);
    }

    public int spawn(String task, String child) throws IOException {
        return at("spawn " + task + " " + child, task, "spawn", null, "start " + child);
    }

    public int send(String task, String message) throws IOException {
        return at("send " + task + " " + message, task, "send", null, "send " + message);
    }

    public int recv(String task, String message) throws IOException {
        return at("recv " + task + " " + message, task, "recv", null, "receive " + message);
    }

    public int end(String task) throws IOException {
        return at("end " + task, task, "end", null, "end");
    }

    public int join(String task, String child) throws IOException {
        return at("join " + task + " " + child, task, "join", null, "join " + child);
    }

    /** Ends the session. The journal says that all was reported. */
    @Override
    public void close() throws IOException {
        synchronized (journal) {
            journal.write(Row.END.getBytes(StandardCharsets.UTF_8));
            journal.close();
        }
        session.close();
    }

    private int at(String request, String task, String kind, String thing, String label) throws IOException {
        long time = Row.now();
        Row.Site site = Row.Site.ofCaller().withoutFunction();
        int event = Integer.parseInt(session.request(request).get(0));
        write(event, new Row(task, thing, kind, site, label, List.of(), null, List.of(), time, null));
        return event;
    }

    private void write(int event, Row row) throws IOException {
        synchronized (journal) {
            journal.write(row.text(new Row.Event(event, 1), null).getBytes(StandardCharsets.UTF_8));
        }
    }
}
