package example.hometturi.itctrace;

import example.hometturi.itctrace.Place.Gives;
import example.hometturi.itctrace.Place.Mark;
import example.hometturi.itctrace.Row.Site;
import java.util.List;
import java.util.concurrent.CompletableFuture;
import java.util.concurrent.CompletionException;
import java.util.concurrent.CompletionStage;
import java.util.concurrent.ExecutionException;
import java.util.concurrent.Executor;
import java.util.concurrent.TimeUnit;
import java.util.concurrent.TimeoutException;
import java.util.concurrent.atomic.AtomicReference;
import java.util.function.BiConsumer;
import java.util.function.BiFunction;
import java.util.function.Consumer;
import java.util.function.Function;
import java.util.function.Supplier;

/**
 * A future whose value carries the order. Whoever takes the value comes after its completion. A function that is given to it is a task
 * of its own, which comes after the call that gave it and after the completion. One for either of two futures comes after the one that
 * was first.
 *
 * <p>A future that a function completes and somebody by hand tells no order, since nobody knows who was first.
 */
public final class TracedFuture<T> extends CompletableFuture<T> {
    private static final Gives RESULT = Gives.order("result", "complete future", "take result");

    private final AtomicReference<Mark> completed = new AtomicReference<>();
    private final AtomicReference<Origin> origin = new AtomicReference<>();

    /** What completes a future: a function that runs as this task, after these sources, and then perhaps the future that it has given. */
    private static final class Origin {
        /** What the JDK does by itself: nobody knows what that comes after. */
        private static final Origin UNKNOWN = new Origin(null);

        private final List<CompletableFuture<?>> sources;
        private final Task task;
        private volatile boolean hasRun;
        private volatile CompletionStage<?> awaited;

        Origin(String hint, CompletableFuture<?>... sources) {
            this.sources = List.of(sources);
            this.task = hint == null ? null : Traced.spawn(hint, Traced.site());
        }

        <U> U run(Supplier<U> body) {
            hasRun = true;
            return Traced.call(
                    task,
                    () -> {
                        sources.forEach(TracedFuture::taken);
                        return body.get();
                    });
        }

        /** What the function has given is done before the future is. */
        <U extends CompletionStage<?>> U awaiting(U given) {
            awaited = given;
            return given;
        }

        <U> CompletableFuture<U> of(CompletableFuture<U> future) {
            ((TracedFuture<U>) future).origin.set(this);
            return future;
        }

        /** This thread comes after what completed the future. A function that was passed over is told by its sources. */
        void taken() {
            if (hasRun) {
                Traced.join(task, Traced.site());
                TracedFuture.taken(awaited);
            } else {
                sources.forEach(TracedFuture::taken);
            }
        }
    }

    /** The supplier's value. It runs in the common pool. */
    public static <U> CompletableFuture<U> supplyAsync(Supplier<U> supplier) {
        return supplyAsync(supplier, new TracedFuture<U>().defaultExecutor());
    }

    public static <U> CompletableFuture<U> supplyAsync(Supplier<U> supplier, Executor executor) {
        return new TracedFuture<U>().completeAsync(supplier, executor);
    }

    public static CompletableFuture<Void> runAsync(Runnable body) {
        return supplyAsync(supplying(body));
    }

    public static CompletableFuture<Void> runAsync(Runnable body, Executor executor) {
        return supplyAsync(supplying(body), executor);
    }

    private static Supplier<Void> supplying(Runnable body) {
        return () -> {
            body.run();
            return null;
        };
    }

    @Override
    public CompletableFuture<T> completeAsync(Supplier<? extends T> supplier) {
        return completeAsync(supplier, defaultExecutor());
    }

    @Override
    public CompletableFuture<T> completeAsync(Supplier<? extends T> supplier, Executor executor) {
        Origin made = new Origin("future");
        if (!origin.compareAndSet(null, made)) {
            origin.set(Origin.UNKNOWN); // Another function may be faster.
        }
        executor.execute(
                () -> {
                    if (!super.isDone()) {
                        completeBy(made, supplier);
                    }
                });
        return this;
    }

    private void completeBy(Origin origin, Supplier<? extends T> supplier) {
        try {
            super.complete(origin.run(supplier));
        } catch (CompletionException failure) {
            super.completeExceptionally(failure);
        } catch (Throwable failure) {
            super.completeExceptionally(new CompletionException(failure));
        }
    }

    /** A future that is complete. Whoever takes the value comes after this call. */
    public static <U> CompletableFuture<U> completedFuture(U value) {
        CompletableFuture<U> future = new TracedFuture<>();
        future.complete(value);
        return future;
    }

    /** The same, as a stage. */
    public static <U> CompletionStage<U> completedStage(U value) {
        return completedFuture(value);
    }

    /** A future that has failed. */
    public static <U> CompletableFuture<U> failedFuture(Throwable failure) {
        CompletableFuture<U> future = new TracedFuture<>();
        future.completeExceptionally(failure);
        return future;
    }

    /** The same, as a stage. */
    public static <U> CompletionStage<U> failedStage(Throwable failure) {
        return failedFuture(failure);
    }

    /** Completes once all have. Whoever waits for it comes after all of them. */
    public static CompletableFuture<Void> allOf(CompletableFuture<?>... futures) {
        TracedFuture<Void> all = new TracedFuture<>();
        new Origin(null, futures).of(all);
        CompletableFuture.allOf(futures).whenComplete(all::completeAs);
        return all;
    }

    /** Completes as the first of them does. Whoever takes the value comes after that one, and not after the others. */
    public static CompletableFuture<Object> anyOf(CompletableFuture<?>... futures) {
        return TracedFuture.<Object>firstOf(List.of(futures));
    }

    private static <U> TracedFuture<U> firstOf(List<? extends CompletableFuture<? extends U>> futures) {
        TracedFuture<U> first = new TracedFuture<>();
        futures.forEach(future -> watch(future, (value, failure) -> first.completeAfter(future, value, failure)));
        return first;
    }

    /** Has this done by the thread that completes the future, as no task of its own. */
    private static <U> void watch(CompletableFuture<U> future, BiConsumer<? super U, ? super Throwable> body) {
        if (future instanceof TracedFuture<U> traced) {
            traced.watch(body);
        } else {
            future.whenComplete(body);
        }
    }

    private void watch(BiConsumer<? super T, ? super Throwable> body) {
        super.whenComplete(body);
    }

    private void completeAfter(CompletableFuture<?> source, T value, Throwable failure) {
        if (origin.compareAndSet(null, new Origin(null, source))) {
            completeAs(value, failure == null || failure instanceof CompletionException ? failure : new CompletionException(failure));
        }
    }

    /** Completes as the other one does, once this was done with its value as a task of its own. To cancel it cancels the other one. */
    static <T> CompletableFuture<T> following(CompletableFuture<T> other, Consumer<? super T> body) {
        TracedFuture<T> future = new TracedFuture<>();
        Origin origin = new Origin("response");
        origin.of(future);
        future.cancelAlso(other);
        other.whenComplete(
                (value, failure) -> {
                    if (failure == null) {
                        future.completeBy(origin, () -> after(body, value));
                    } else {
                        future.completeAs(null, failure);
                    }
                });
        return future;
    }

    private static <T> T after(Consumer<? super T> body, T value) {
        body.accept(value);
        return value;
    }

    private void cancelAlso(CompletableFuture<T> other) {
        watch(
                (value, failure) -> {
                    if (super.isCancelled()) {
                        other.cancel(true);
                    }
                });
    }

    private void completeAs(T value, Throwable failure) {
        if (failure == null) {
            super.complete(value);
        } else {
            super.completeExceptionally(failure);
        }
    }

    /** This thread comes after the completion. */
    private static void taken(Object future) {
        if (future instanceof TracedFuture<?> traced) {
            traced.taken(Traced.site());
        }
    }

    private void taken(Site site) {
        Mark mark = completed.get();
        Origin origin = this.origin.get();
        if (mark != null && origin == null) {
            Traced.take(mark, site);
        } else if (mark == null && origin != null) {
            origin.taken();
        }
    }

    @Override
    public <U> CompletableFuture<U> newIncompleteFuture() {
        return Origin.UNKNOWN.of(new TracedFuture<>());
    }

    @Override
    public CompletableFuture<T> copy() {
        return new Origin(null, this).of(super.copy());
    }

    // Completing: who is first has it done, and the others come too late.

    @Override
    public boolean complete(T value) {
        return isFirst() && super.complete(value);
    }

    @Override
    public boolean completeExceptionally(Throwable failure) {
        return isFirst() && super.completeExceptionally(failure);
    }

    @Override
    public boolean cancel(boolean mayInterrupt) {
        if (isFirst()) {
            return super.cancel(mayInterrupt);
        }
        return isCancelled();
    }

    private boolean isFirst() {
        if (super.isDone()) {
            return false;
        }
        Mark mark = Traced.mark(RESULT, Traced.site());
        boolean isFirst = mark == null || completed.compareAndSet(null, mark);
        if (!isFirst) {
            mark.end();
        }
        while (!isFirst && !super.isDone()) {
            Thread.onSpinWait(); // Whoever is first is about to complete it.
        }
        return isFirst;
    }

    /** A timer of its own looks whether the time is over: what the JDK's would see here, its thread would know for all later timeouts. */
    @Override
    public CompletableFuture<T> orTimeout(long time, TimeUnit unit) {
        CompletableFuture<T> timer = new CompletableFuture<T>().orTimeout(time, unit);
        timer.exceptionally(
                late -> {
                    completeExceptionally(late);
                    return null;
                });
        watch((value, failure) -> timer.complete(null));
        return this;
    }

    // Taking.

    @Override
    public T get() throws InterruptedException, ExecutionException {
        return Traced.waited(super::get, this::takenIfDone);
    }

    @Override
    public T get(long time, TimeUnit unit) throws InterruptedException, ExecutionException, TimeoutException {
        return Traced.waited(() -> super.get(time, unit), this::takenIfDone);
    }

    @Override
    public T join() {
        try {
            return super.join();
        } finally {
            takenIfDone();
        }
    }

    @Override
    public T getNow(T absent) {
        return takenIfDone() ? super.getNow(absent) : absent;
    }

    @Override
    public boolean isDone() {
        return takenIfDone();
    }

    @Override
    public boolean isCancelled() {
        return takenIf(super.isCancelled());
    }

    @Override
    public boolean isCompletedExceptionally() {
        return takenIf(super.isCompletedExceptionally());
    }

    private boolean takenIfDone() {
        return takenIf(super.isDone());
    }

    private boolean takenIf(boolean isDone) {
        if (isDone) {
            taken(Traced.site());
        }
        return isDone;
    }

    // Functions that are given to it.

    private Origin origin(CompletionStage<?>... others) {
        CompletableFuture<?>[] sources = new CompletableFuture<?>[others.length + 1];
        sources[0] = this;
        for (int place = 0; place < others.length; place++) {
            sources[place + 1] = others[place].toCompletableFuture();
        }
        return new Origin("callback", sources);
    }

    private static <A, U> Function<A, U> by(Origin origin, Function<? super A, ? extends U> body) {
        return value -> origin.run(() -> body.apply(value));
    }

    private static <A, U extends CompletionStage<?>> Function<A, U> composing(Origin origin, Function<? super A, ? extends U> body) {
        return value -> origin.awaiting(origin.run(() -> body.apply(value)));
    }

    private static <A, B, U> BiFunction<A, B, U> by(Origin origin, BiFunction<? super A, ? super B, ? extends U> body) {
        return (first, second) -> origin.run(() -> body.apply(first, second));
    }

    private static <A, B> BiFunction<A, B, Void> returning(BiConsumer<? super A, ? super B> body) {
        return (first, second) -> {
            body.accept(first, second);
            return null;
        };
    }

    private static <A> Function<A, Void> returning(Consumer<? super A> body) {
        return value -> {
            body.accept(value);
            return null;
        };
    }

    @Override
    public <U> CompletableFuture<U> thenApply(Function<? super T, ? extends U> body) {
        Origin origin = origin();
        return origin.of(super.thenApply(by(origin, body)));
    }

    @Override
    public <U> CompletableFuture<U> thenApplyAsync(Function<? super T, ? extends U> body) {
        return thenApplyAsync(body, defaultExecutor());
    }

    @Override
    public <U> CompletableFuture<U> thenApplyAsync(Function<? super T, ? extends U> body, Executor executor) {
        Origin origin = origin();
        return origin.of(super.thenApplyAsync(by(origin, body), executor));
    }

    @Override
    public CompletableFuture<Void> thenAccept(Consumer<? super T> body) {
        return thenApply(returning(body));
    }

    @Override
    public CompletableFuture<Void> thenAcceptAsync(Consumer<? super T> body) {
        return thenApplyAsync(returning(body));
    }

    @Override
    public CompletableFuture<Void> thenAcceptAsync(Consumer<? super T> body, Executor executor) {
        return thenApplyAsync(returning(body), executor);
    }

    @Override
    public CompletableFuture<Void> thenRun(Runnable body) {
        return thenApply(returning(value -> body.run()));
    }

    @Override
    public CompletableFuture<Void> thenRunAsync(Runnable body) {
        return thenApplyAsync(returning(value -> body.run()));
    }

    @Override
    public CompletableFuture<Void> thenRunAsync(Runnable body, Executor executor) {
        return thenApplyAsync(returning(value -> body.run()), executor);
    }

    @Override
    public <U> CompletableFuture<U> thenCompose(Function<? super T, ? extends CompletionStage<U>> body) {
        Origin origin = origin();
        return origin.of(super.<U>thenCompose(composing(origin, body)));
    }

    @Override
    public <U> CompletableFuture<U> thenComposeAsync(Function<? super T, ? extends CompletionStage<U>> body) {
        return thenComposeAsync(body, defaultExecutor());
    }

    @Override
    public <U> CompletableFuture<U> thenComposeAsync(Function<? super T, ? extends CompletionStage<U>> body, Executor executor) {
        Origin origin = origin();
        return origin.of(super.<U>thenComposeAsync(composing(origin, body), executor));
    }

    @Override
    public <U, V> CompletableFuture<V> thenCombine(
            CompletionStage<? extends U> other, BiFunction<? super T, ? super U, ? extends V> body) {
        Origin origin = origin(other);
        return origin.of(super.<U, V>thenCombine(other, by(origin, body)));
    }

    @Override
    public <U, V> CompletableFuture<V> thenCombineAsync(
            CompletionStage<? extends U> other, BiFunction<? super T, ? super U, ? extends V> body) {
        return thenCombineAsync(other, body, defaultExecutor());
    }

    @Override
    public <U, V> CompletableFuture<V> thenCombineAsync(
            CompletionStage<? extends U> other, BiFunction<? super T, ? super U, ? extends V> body, Executor executor) {
        Origin origin = origin(other);
        return origin.of(super.<U, V>thenCombineAsync(other, by(origin, body), executor));
    }

    @Override
    public <U> CompletableFuture<Void> thenAcceptBoth(CompletionStage<? extends U> other, BiConsumer<? super T, ? super U> body) {
        return thenCombine(other, returning(body));
    }

    @Override
    public <U> CompletableFuture<Void> thenAcceptBothAsync(
            CompletionStage<? extends U> other, BiConsumer<? super T, ? super U> body) {
        return thenCombineAsync(other, returning(body));
    }

    @Override
    public <U> CompletableFuture<Void> thenAcceptBothAsync(
            CompletionStage<? extends U> other, BiConsumer<? super T, ? super U> body, Executor executor) {
        return thenCombineAsync(other, returning(body), executor);
    }

    @Override
    public CompletableFuture<Void> runAfterBoth(CompletionStage<?> other, Runnable body) {
        return thenAcceptBoth(other, (own, others) -> body.run());
    }

    @Override
    public CompletableFuture<Void> runAfterBothAsync(CompletionStage<?> other, Runnable body) {
        return thenAcceptBothAsync(other, (own, others) -> body.run());
    }

    @Override
    public CompletableFuture<Void> runAfterBothAsync(CompletionStage<?> other, Runnable body, Executor executor) {
        return thenAcceptBothAsync(other, (own, others) -> body.run(), executor);
    }

    private TracedFuture<T> either(CompletionStage<? extends T> other) {
        return TracedFuture.<T>firstOf(List.of(this, other.toCompletableFuture()));
    }

    private TracedFuture<Object> eitherOfAny(CompletionStage<?> other) {
        return TracedFuture.<Object>firstOf(List.of(this, other.toCompletableFuture()));
    }

    @Override
    public <U> CompletableFuture<U> applyToEither(CompletionStage<? extends T> other, Function<? super T, U> body) {
        return either(other).thenApply(body);
    }

    @Override
    public <U> CompletableFuture<U> applyToEitherAsync(CompletionStage<? extends T> other, Function<? super T, U> body) {
        return either(other).thenApplyAsync(body);
    }

    @Override
    public <U> CompletableFuture<U> applyToEitherAsync(
            CompletionStage<? extends T> other, Function<? super T, U> body, Executor executor) {
        return either(other).thenApplyAsync(body, executor);
    }

    @Override
    public CompletableFuture<Void> acceptEither(CompletionStage<? extends T> other, Consumer<? super T> body) {
        return either(other).thenAccept(body);
    }

    @Override
    public CompletableFuture<Void> acceptEitherAsync(CompletionStage<? extends T> other, Consumer<? super T> body) {
        return either(other).thenAcceptAsync(body);
    }

    @Override
    public CompletableFuture<Void> acceptEitherAsync(CompletionStage<? extends T> other, Consumer<? super T> body, Executor executor) {
        return either(other).thenAcceptAsync(body, executor);
    }

    @Override
    public CompletableFuture<Void> runAfterEither(CompletionStage<?> other, Runnable body) {
        return eitherOfAny(other).thenRun(body);
    }

    @Override
    public CompletableFuture<Void> runAfterEitherAsync(CompletionStage<?> other, Runnable body) {
        return eitherOfAny(other).thenRunAsync(body);
    }

    @Override
    public CompletableFuture<Void> runAfterEitherAsync(CompletionStage<?> other, Runnable body, Executor executor) {
        return eitherOfAny(other).thenRunAsync(body, executor);
    }

    @Override
    public <U> CompletableFuture<U> handle(BiFunction<? super T, Throwable, ? extends U> body) {
        Origin origin = origin();
        return origin.of(super.<U>handle(by(origin, body)));
    }

    @Override
    public <U> CompletableFuture<U> handleAsync(BiFunction<? super T, Throwable, ? extends U> body) {
        return handleAsync(body, defaultExecutor());
    }

    @Override
    public <U> CompletableFuture<U> handleAsync(BiFunction<? super T, Throwable, ? extends U> body, Executor executor) {
        Origin origin = origin();
        return origin.of(super.<U>handleAsync(by(origin, body), executor));
    }

    @Override
    public CompletableFuture<T> whenComplete(BiConsumer<? super T, ? super Throwable> body) {
        Origin origin = origin();
        return origin.of(super.whenComplete(by(origin, returning(body))::apply));
    }

    @Override
    public CompletableFuture<T> whenCompleteAsync(BiConsumer<? super T, ? super Throwable> body) {
        return whenCompleteAsync(body, defaultExecutor());
    }

    @Override
    public CompletableFuture<T> whenCompleteAsync(BiConsumer<? super T, ? super Throwable> body, Executor executor) {
        Origin origin = origin();
        return origin.of(super.whenCompleteAsync(by(origin, returning(body))::apply, executor));
    }

    @Override
    public CompletableFuture<T> exceptionally(Function<Throwable, ? extends T> body) {
        Origin origin = origin();
        return origin.of(super.exceptionally(by(origin, body)));
    }

    @Override
    public CompletableFuture<T> exceptionallyAsync(Function<Throwable, ? extends T> body) {
        return exceptionallyAsync(body, defaultExecutor());
    }

    @Override
    public CompletableFuture<T> exceptionallyAsync(Function<Throwable, ? extends T> body, Executor executor) {
        Origin origin = origin();
        return origin.of(super.exceptionallyAsync(by(origin, body), executor));
    }

    @Override
    public CompletableFuture<T> exceptionallyCompose(Function<Throwable, ? extends CompletionStage<T>> body) {
        Origin origin = origin();
        return origin.of(super.exceptionallyCompose(composing(origin, body)));
    }

    @Override
    public CompletableFuture<T> exceptionallyComposeAsync(Function<Throwable, ? extends CompletionStage<T>> body) {
        return exceptionallyComposeAsync(body, defaultExecutor());
    }

    @Override
    public CompletableFuture<T> exceptionallyComposeAsync(Function<Throwable, ? extends CompletionStage<T>> body, Executor executor) {
        Origin origin = origin();
        return origin.of(super.exceptionallyComposeAsync(composing(origin, body), executor));
    }
}
