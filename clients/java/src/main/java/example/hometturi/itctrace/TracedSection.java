package example.hometturi.itctrace;

import example.hometturi.itctrace.Place.Gives;
import example.hometturi.itctrace.Place.Mark;
import java.util.List;
import java.util.Map;
import java.util.concurrent.Callable;
import java.util.concurrent.ConcurrentHashMap;
import java.util.concurrent.CopyOnWriteArrayList;
import java.util.function.BinaryOperator;
import java.util.function.Consumer;
import java.util.function.Function;
import java.util.function.Predicate;
import java.util.function.Supplier;

/**
 * What the threads of a pool do on behalf of one thread, as for a parallel stream. Each of them is a task of its own, which comes after
 * what the thread that has begun the section did before it wrapped the function. Whoever ends the section comes after all of them:
 *
 * <pre>{@code
 * try (TracedSection section = Traced.section()) {
 *     orders.parallelStream().forEach(section.consumer(this::sell));
 * }
 * }</pre>
 */
public final class TracedSection implements AutoCloseable {
    private static final Gives GIVES = Gives.order("section", "begin section", "work in section");

    private final Mark begun = Traced.mark(GIVES, Traced.site());
    private final Thread owner = Thread.currentThread();
    private final Map<Thread, Task> tasks = new ConcurrentHashMap<>();
    private final List<Mark> marks = new CopyOnWriteArrayList<>();

    TracedSection() {}

    /** What comes before the calls of a function that is wrapped now. */
    private Mark wrapped() {
        if (Thread.currentThread() != owner) {
            return begun;
        }
        Mark mark = Traced.mark(GIVES, Traced.site());
        if (mark != null) {
            marks.add(mark);
        }
        return mark;
    }

    private <T, X extends Exception> T call(Mark wrapped, Traced.Body<T, X> body) throws X {
        if (!Traced.isOn() || Thread.currentThread() == owner) {
            return body.run();
        }
        Task task = tasks.computeIfAbsent(Thread.currentThread(), thread -> Traced.stranger(thread.getName()));
        return Traced.callIn(
                task,
                () -> {
                    Traced.take(wrapped, Traced.site());
                    return body.run();
                });
    }

    /** The same function, for the threads of the pool. */
    public <T, R> Function<T, R> function(Function<? super T, ? extends R> body) {
        Mark wrapped = wrapped();
        return value -> call(wrapped, () -> body.apply(value));
    }

    /** The same operator. */
    public <T> BinaryOperator<T> operator(BinaryOperator<T> body) {
        Mark wrapped = wrapped();
        return (first, second) -> call(wrapped, () -> body.apply(first, second));
    }

    /** The same predicate. */
    public <T> Predicate<T> predicate(Predicate<? super T> body) {
        Mark wrapped = wrapped();
        return value -> call(wrapped, () -> body.test(value));
    }

    /** The same consumer. */
    public <T> Consumer<T> consumer(Consumer<? super T> body) {
        Mark wrapped = wrapped();
        return value ->
                call(
                        wrapped,
                        () -> {
                            body.accept(value);
                            return null;
                        });
    }

    /** The same supplier. */
    public <T> Supplier<T> supplier(Supplier<? extends T> body) {
        Mark wrapped = wrapped();
        return () -> call(wrapped, body::get);
    }

    /** The same job. */
    public <T> Callable<T> job(Callable<T> body) {
        Mark wrapped = wrapped();
        return () -> call(wrapped, body::call);
    }

    /** Ends it, once what the threads of the pool do is over. */
    @Override
    public void close() {
        tasks.values().forEach(
                task -> {
                    Traced.end(task);
                    Traced.join(task, Traced.site());
                });
        tasks.clear();
        marks.forEach(Mark::endShared);
        marks.clear();
        Mark.endShared(begun);
    }
}
