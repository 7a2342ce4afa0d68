package example.hometturi.itctrace;

import java.util.concurrent.ThreadFactory;

/** A thread whose start and whose end are reported. It comes after what its starter did before, and before what its joiner does then. */
public final class TracedThread {
    private final Thread thread;
    private final Task task;

    TracedThread(String name, Runnable body, ThreadFactory factory) {
        task = Traced.spawn(name, Traced.site());
        thread = factory.newThread(() -> Traced.run(task, body));
        thread.setName(name);
        thread.start();
    }

    /** Waits for its end. */
    public void join() throws InterruptedException {
        thread.join();
        Traced.join(task, Traced.site());
    }

    /** Waits at most so long. Gives whether it has ended. */
    public boolean join(long milliseconds) throws InterruptedException {
        thread.join(milliseconds);
        if (thread.isAlive()) {
            return false;
        }
        Traced.join(task, Traced.site());
        return true;
    }

    /** Whether it goes on. Whoever sees that it does not comes after its end. */
    public boolean isAlive() {
        if (thread.isAlive()) {
            return true;
        }
        Traced.join(task, Traced.site());
        return false;
    }

    /** Interrupts it. */
    public void interrupt() {
        thread.interrupt();
    }

    /** The thread itself. To wait for it by its own join is no order that is reported. */
    public Thread thread() {
        return thread;
    }
}
