import example.hometturi.itctrace.Session;
import java.io.IOException;
import java.io.UncheckedIOException;
import java.util.concurrent.locks.ReentrantLock;

/**
 * Two threads sell from one stock, without a lock and with one. The collector tells whether that is a race.
 *
 * <p>Usage: java Example PORT TENANT
 */
public final class Example {
    private static volatile int stock;

    /** A lock whose release is a message to whoever acquires it next. */
    private static final class TracedLock {
        private final Session session;
        private final String name;
        private final ReentrantLock lock = new ReentrantLock();
        private int releases = 0;

        TracedLock(Session session, String name) {
            this.session = session;
            this.name = name;
        }

        void acquire(String task) throws IOException {
            lock.lock();
            if (releases > 0) {
                session.recv(task, name + "_" + releases);
            }
        }

        void release(String task) throws IOException {
            releases++;
            session.send(task, name + "_" + releases);
        }

        /** Whatever became of the reports, nobody waits for a thread that has ended. */
        void unlock() {
            if (lock.isHeldByCurrentThread()) {
                lock.unlock();
            }
        }
    }

    /** A thread that sells, and the events at which it read and wrote the stock. */
    private static final class Seller extends Thread {
        private final Session session;
        private final String task;
        private final TracedLock lock;
        private volatile int read;
        private volatile int write;

        Seller(Session session, String task, TracedLock lock) {
            this.session = session;
            this.task = task;
            this.lock = lock;
        }

        @Override
        public void run() {
            try {
                sell();
                session.end(task);
            } catch (IOException failure) {
                throw new UncheckedIOException(failure);
            }
        }

        private void sell() throws IOException {
            try {
                if (lock != null) {
                    lock.acquire(task);
                }
                int left = stock;
                read = session.local(task);
                stock = left - 1;
                write = session.local(task);
                if (lock != null) {
                    lock.release(task);
                }
            } finally {
                if (lock != null) {
                    lock.unlock();
                }
            }
        }
    }

    /** Has two threads sell at once, and tells whether nothing orders the write of one and the read of the other. */
    private static boolean isRace(Session session, Session asking, String[] names, TracedLock lock) throws Exception {
        stock = 2;
        Seller[] sellers = new Seller[names.length];
        for (int place = 0; place < names.length; place++) {
            session.spawn("root", names[place]);
            sellers[place] = new Seller(session, names[place], lock);
            sellers[place].start();
        }
        for (Seller seller : sellers) {
            seller.join();
            session.join("root", seller.task);
        }
        return asking.order(sellers[0].write, sellers[1].read).equals("concurrent");
    }

    private static void tell(String title, boolean isRace) {
        System.out.println(title + ": " + (isRace ? "a race" : "no race"));
    }

    public static void main(String[] words) throws Exception {
        int port = Integer.parseInt(words[0]);
        try (Session session = new Session("report", words[1], port);
                Session asking = new Session("view", words[1], port)) {
            tell("without a lock", isRace(session, asking, new String[] {"alice", "bob"}, null));
            TracedLock lock = new TracedLock(session, "stock");
            tell("with a lock", isRace(session, asking, new String[] {"carol", "dave"}, lock));
            Session.Count count = asking.count();
            System.out.println("events: " + count.events() + ", tasks: " + count.tasks() + ", messages: " + count.messages());
        }
    }
}
