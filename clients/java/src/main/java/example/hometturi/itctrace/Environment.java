package example.hometturi.itctrace;

import example.hometturi.itctrace.Nurseries.Width;
import java.io.FileOutputStream;
import java.io.IOException;
import java.io.OutputStream;
import java.nio.file.FileAlreadyExistsException;
import java.nio.file.Files;
import java.nio.file.Path;
import java.util.Map;
import java.util.Optional;

/**
 * Where a process reports to, as whoever starts it says: the collector's port and tenant, the process's name in full, its journal,
 * whether the relay divides a long run into parts, how many children a task starts itself, and what it is if the process that started it
 * has begun its task already.
 */
record Environment(int port, String tenant, String process, String journal, boolean hasParts, Width width, Optional<Child> child) {
    static final String JOURNAL = "ITC_TRACE_JOURNAL";
    /** Says how many children a task starts itself, and how many a nursery starts for it. */
    static final String NURSERIES = "ITC_TRACE_NURSERIES";

    private static final String CHILD = "ITC_TRACE_CHILD";
    private static final int MOST_PORT = 65535;
    /** How many letters and digits of a process's name stand before the names of its threads. */
    private static final int MOST_TAG = 8;
    /** How long the name of a task may be. */
    static final int MOST_NAME = 24;

    /** A process that is a child of another one: its task, the first part of its other names, and its name. */
    record Child(String task, String tag, String name) {
        /** Tells a new process so. What that one starts by other means finds the same, and is another one's child. */
        void tell(Map<String, String> environment) {
            environment.put(CHILD, ProcessHandle.current().pid() + " " + task + " " + tag + " " + name);
        }

        private static Optional<Child> read(String told) {
            String[] words = told.split(" ", 4);
            boolean isOwn = words.length == 4 && words[0].equals(parent());
            return isOwn ? Optional.of(new Child(words[1], words[2], words[3])) : Optional.empty();
        }

        private static String parent() {
            return ProcessHandle.current().parent().map(ProcessHandle::pid).map(String::valueOf).orElse("");
        }
    }

    /** None if the environment names no port. */
    static Optional<Environment> read(Map<String, String> named) throws IOException {
        String port = named.getOrDefault("ITC_TRACE_PORT", "");
        if (port.isEmpty()) {
            return Optional.empty();
        }
        String tenant = named.getOrDefault("ITC_TRACE_TENANT", "");
        Optional<Child> child = Child.read(named.getOrDefault(CHILD, ""));
        String process = child.map(Child::name).orElse(named.getOrDefault("ITC_TRACE_PROCESS", ""));
        return Optional.of(
                new Environment(
                        portOf(port),
                        tenant.isEmpty() ? "trace" : tenant,
                        process.isEmpty() ? "p" : process,
                        named.getOrDefault(JOURNAL, ""),
                        !named.getOrDefault("ITC_TRACE_PARTS", "").isEmpty(),
                        Width.of(named.getOrDefault(NURSERIES, "")),
                        child));
    }

    private static int portOf(String text) throws IOException {
        if (!text.matches("[1-9][0-9]{0,4}") || Integer.parseInt(text) > MOST_PORT) {
            throw new IOException("ITC_TRACE_PORT is " + text + ", which is no port: set it to a number from 1 to " + MOST_PORT);
        }
        return Integer.parseInt(text);
    }

    /** The name of the process's task. */
    String task() {
        String name = process.replaceAll("[^A-Za-z0-9]", "_").replaceAll("^_+|_+$", "");
        return name.isEmpty() ? "p" : name.substring(0, Math.min(MOST_NAME, name.length()));
    }

    /** What the names of its other tasks begin with. */
    String tag() {
        String letters = process.replaceAll("[^A-Za-z0-9]", "");
        return letters.isEmpty() ? "p" : letters.substring(0, Math.min(MOST_TAG, letters.length()));
    }

    /** A journal that is open, and its path. */
    record Opened(OutputStream output, String path) {}

    /**
     * Opens a file that was not there. A process that is started again does not overwrite its first journal, and a child adds to that of
     * its parent.
     */
    Opened openJournal() throws IOException {
        if (journal.isEmpty()) {
            return new Opened(OutputStream.nullOutputStream(), "");
        }
        if (child.isPresent()) {
            return new Opened(new FileOutputStream(journal, true), journal);
        }
        for (int number = 1; ; number++) {
            String path = number == 1 ? journal : journal + "." + number;
            try {
                Files.createFile(Path.of(path));
                return new Opened(new FileOutputStream(path, true), path);
            } catch (FileAlreadyExistsException taken) {
                continue;
            }
        }
    }
}
