import example.hometturi.itctrace.Session;
import java.io.IOException;

/**
 * Makes every call of the client: see clients/test.
 *
 * <p>Usage: java Check PORT TENANT PORT_OF_CUT_REPLIES
 */
public final class Check {
    private static final int TASKS = 4;
    private static final int EVENTS = 25;

    private interface Call {
        Object make() throws IOException;
    }

    /** The code with which the call is refused, or "closed" where there is no whole reply. */
    private static String code(Call call) {
        try {
            return "answered " + call.make();
        } catch (Session.Refused refused) {
            return String.valueOf(refused.code);
        } catch (IOException failure) {
            return "closed";
        }
    }

    /** Reports for one task, beside others; tells whether each reply was to its own request, and came in order. */
    private static final class Worker extends Thread {
        private final Session session;
        private final String task;
        private volatile boolean isRight = false;

        Worker(Session session, String task) {
            this.session = session;
            this.task = task;
        }

        @Override
        public void run() {
            try {
                int[] events = new int[EVENTS];
                boolean isOwn = true;
                for (int place = 0; place < EVENTS; place++) {
                    events[place] = session.local(task);
                    isOwn &= place == 0 || events[place - 1] < events[place];
                }
                for (int event : events) {
                    isOwn &= session.event(event).task().equals(task);
                }
                isRight = isOwn;
            } catch (IOException failure) {
                failure.printStackTrace();
            }
        }
    }

    private static void tell(Object... words) {
        StringBuilder line = new StringBuilder();
        for (Object word : words) {
            line.append(line.isEmpty() ? "" : " ").append(word);
        }
        System.out.println(line);
    }

    public static void main(String[] words) throws Exception {
        int port = Integer.parseInt(words[0]);
        String tenant = words[1];
        Session session = new Session("report", tenant, port);
        Session asking = new Session("view", tenant, port);
        tell(session.local("root"), session.spawn("root", "a"), session.local("a"), session.local("root"), session.send("a", "m"),
                session.recv("root", "m"), session.end("a"), session.join("root", "a"));
        tell(asking.order(4, 5), asking.order(6, 5), asking.past(5), asking.concurrent(5), asking.past(1), asking.cut(6));
        Session.Event event = asking.event(6);
        Session.Task task = asking.task("a");
        Session.Message message = asking.message("m");
        Session.Count count = asking.count();
        tell(event.kind(), event.task(), event.name(), event.follows(), asking.stamp(6), task.state(), task.last(),
                message.sent(), message.received(), count.events(), count.tasks(), count.messages());
        tell(code(() -> session.local("nobody")), code(() -> session.local("a")), code(() -> session.send("root", "m")),
                code(() -> asking.local("root")), code(() -> session.past(9)), code(() -> session.local("\u00e4")),
                code(() -> session.local("root\nlocal root")), code(() -> new Session("report", tenant, port)),
                code(() -> new Session("report", "nobody", port)));
        Worker[] workers = new Worker[TASKS];
        for (int number = 0; number < TASKS; number++) {
            session.spawn("root", "t" + number);
            workers[number] = new Worker(session, "t" + number);
        }
        for (Worker worker : workers) {
            worker.start();
        }
        int right = 0;
        for (Worker worker : workers) {
            worker.join();
            right += worker.isRight ? 1 : 0;
        }
        tell(right, asking.count().events());
        Session cut = new Session("report", tenant, Integer.parseInt(words[2]));
        tell(code(() -> session.request("quit")), code(() -> cut.local("root")));
    }
}
