package example.hometturi.itctrace;

import java.util.Queue;
import java.util.concurrent.Callable;
import java.util.concurrent.ConcurrentLinkedQueue;
import java.util.concurrent.Delayed;
import java.util.concurrent.ExecutionException;
import java.util.concurrent.Executors;
import java.util.concurrent.ScheduledExecutorService;
import java.util.concurrent.ScheduledFuture;
import java.util.concurrent.TimeUnit;
import java.util.concurrent.TimeoutException;

/** An executor of jobs that are done later, or again and again. What is done again is one task: each run comes after its last one. */
final class TracedScheduledExecutor extends TracedExecutor implements ScheduledExecutorService {
    private final ScheduledExecutorService executor;
    private final Queue<Task> repeated = new ConcurrentLinkedQueue<>();

    TracedScheduledExecutor(ScheduledExecutorService executor) {
        super(executor);
        this.executor = executor;
    }

    /** A job that is done later. Whoever takes its result comes after it. */
    private record Later<V>(ScheduledFuture<V> future, Task task, Cancellable once) implements ScheduledFuture<V> {
        @Override
        public V get() throws InterruptedException, ExecutionException {
            return Traced.waited(future::get, this::taken);
        }

        @Override
        public V get(long time, TimeUnit unit) throws InterruptedException, ExecutionException, TimeoutException {
            return Traced.waited(() -> future.get(time, unit), this::taken);
        }

        @Override
        public boolean isDone() {
            boolean isDone = future.isDone();
            if (isDone) {
                taken();
            }
            return isDone;
        }

        /** This thread comes after a job that is done. One that was cancelled may go on. */
        private void taken() {
            if (!future.isCancelled()) {
                Traced.join(task, Traced.site());
            }
        }

        @Override
        public boolean isCancelled() {
            return future.isCancelled();
        }

        @Override
        public boolean cancel(boolean mayInterrupt) {
            boolean isCancelled = future.cancel(mayInterrupt);
            if (isCancelled && once != null) {
                once.cancelled();
            }
            return isCancelled;
        }

        @Override
        public long getDelay(TimeUnit unit) {
            return future.getDelay(unit);
        }

        @Override
        public int compareTo(Delayed other) {
            return future.compareTo(other instanceof Later<?> later ? later.future : other);
        }
    }

    @Override
    public ScheduledFuture<?> schedule(Runnable body, long delay, TimeUnit unit) {
        return schedule(Executors.callable(body), delay, unit);
    }

    @Override
    public <V> ScheduledFuture<V> schedule(Callable<V> body, long delay, TimeUnit unit) {
        Task task = newTask();
        Cancellable once = new Cancellable(task);
        return new Later<>(executor.schedule(() -> once.run(this, body::call), delay, unit), task, once);
    }

    @Override
    public ScheduledFuture<?> scheduleAtFixedRate(Runnable body, long delay, long period, TimeUnit unit) {
        Task task = repeatedTask();
        return new Later<>(executor.scheduleAtFixedRate(() -> again(task, body), delay, period, unit), task, null);
    }

    @Override
    public ScheduledFuture<?> scheduleWithFixedDelay(Runnable body, long delay, long pause, TimeUnit unit) {
        Task task = repeatedTask();
        return new Later<>(executor.scheduleWithFixedDelay(() -> again(task, body), delay, pause, unit), task, null);
    }

    private Task repeatedTask() {
        Task task = newTask();
        if (task != null) {
            repeated.add(task);
        }
        return task;
    }

    /** What fails is not done again. */
    private void again(Task task, Runnable body) {
        boolean isDone = false;
        try {
            Traced.callIn(
                    task,
                    () ->
                            inTurn(
                                    () -> {
                                        body.run();
                                        return null;
                                    }));
            isDone = true;
        } finally {
            if (!isDone) {
                Traced.end(task);
            }
        }
    }

    @Override
    void endRepeated() {
        repeated.forEach(Traced::end);
        repeated.clear();
    }
}
