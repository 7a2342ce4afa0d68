package example.hometturi.itctrace;

import java.util.concurrent.RecursiveTask;

/**
 * A piece of work of a {@code ForkJoinPool}, as a task of its own. It comes after {@link #start()}, and whoever takes its {@link
 * #result()} comes after it. The methods {@code fork} and {@code join} of the JDK give no order that is reported.
 */
public abstract class TracedRecursiveTask<V> extends RecursiveTask<V> {
    private static final long serialVersionUID = 1;

    private transient Task task;

    /** For the pieces of work of a program. */
    protected TracedRecursiveTask() {}

    /** The work, which may start further pieces. */
    protected abstract V work();

    /** Starts it in the pool of this thread, as {@code fork} does. */
    public final TracedRecursiveTask<V> start() {
        task = Traced.spawn("piece", Traced.site());
        fork();
        return this;
    }

    /** Waits for it, as {@code join} does. */
    public final V result() {
        V value = join();
        Traced.join(task, Traced.site());
        return value;
    }

    @Override
    protected final V compute() {
        Task own = task;
        return own == null ? work() : Traced.call(own, this::work);
    }
}
