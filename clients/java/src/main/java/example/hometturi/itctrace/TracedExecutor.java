package example.hometturi.itctrace;

import example.hometturi.itctrace.Place.Gives;
import example.hometturi.itctrace.Place.Mark;
import java.util.LinkedHashSet;
import java.util.List;
import java.util.Set;
import java.util.concurrent.AbstractExecutorService;
import java.util.concurrent.Callable;
import java.util.concurrent.ExecutionException;
import java.util.concurrent.ExecutorService;
import java.util.concurrent.Executors;
import java.util.concurrent.FutureTask;
import java.util.concurrent.RunnableFuture;
import java.util.concurrent.ThreadPoolExecutor;
import java.util.concurrent.TimeUnit;
import java.util.concurrent.TimeoutException;
import java.util.concurrent.atomic.AtomicBoolean;

/**
 * An executor each of whose jobs is a task of its own: it follows its submission. It follows the job before too, if the executor has
 * one thread alone.
 */
class TracedExecutor extends AbstractExecutorService {
    private static final Gives NEXT = Gives.order("next", "end job", "begin next job");
    private static final Gives JOBS = Gives.order("jobs", "end jobs", "see all jobs end");
    /** From so many jobs on, it is looked which of them are over. */
    private static final int MANY = 64;
    /** What the JDK gives for an executor of one thread. */
    private static final List<String> OF_ONE_THREAD =
            List.of("FinalizableDelegatedExecutorService", "AutoShutdownDelegatedExecutorService", "DelegatedScheduledExecutorService");

    private final ExecutorService executor;
    /** The jobs that were not over when it was looked for that, and later ones. They are looked at with their own lock held. */
    private final Set<Task> tasks = new LinkedHashSet<>();

    private int swept;
    /** A place of a task that comes after all other jobs. It is null if there are none. */
    private Mark over;
    /** Where the last job has ended, if they are done one by one. */
    private final Givers last = new Givers();

    TracedExecutor(ExecutorService executor) {
        this.executor = executor;
    }

    /** Whether one thread does all jobs, one after the other. */
    private boolean isOfOneThread() {
        return executor instanceof ThreadPoolExecutor pool
                ? pool.getMaximumPoolSize() == 1
                : OF_ONE_THREAD.contains(executor.getClass().getSimpleName());
    }

    /** Does a job as this task, which ends with it. */
    final <T, X extends Exception> T run(Task task, Traced.Body<T, X> body) throws X {
        return Traced.call(task, () -> inTurn(body));
    }

    /** Does a job behind the one before, if one thread does them all. */
    final <T, X extends Exception> T inTurn(Traced.Body<T, X> body) throws X {
        if (!isOfOneThread()) {
            return body.run();
        }
        last.take(Traced.site());
        try {
            return body.run();
        } finally {
            last.replace(NEXT, Traced.site());
        }
    }

    /** The task of a job that may be cancelled before its body begins. Then it ends there. */
    static final class Cancellable {
        private final AtomicBoolean isDecided = new AtomicBoolean();
        /** Null if there is no trace, or if it was cancelled: an executor may keep what it will not do. */
        private Task task;

        Cancellable(Task task) {
            this.task = task;
        }

        /** Does the body as the task. If the job was cancelled in this moment, it is a task of its own. */
        <T, X extends Exception> T run(TracedExecutor executor, Traced.Body<T, X> body) throws X {
            boolean isFirst = isDecided.compareAndSet(false, true);
            return executor.run(isFirst ? task : Traced.spawn("job", Traced.site()), body);
        }

        /** The job was cancelled, and nobody comes after it. */
        void cancelled() {
            if (isDecided.compareAndSet(false, true)) {
                Traced.end(task);
                task = null;
            }
        }
    }

    /** A job that was submitted. Whoever takes its result comes after it. */
    private static final class Job<T> extends FutureTask<T> {
        private final Task task;
        private final Cancellable once;

        private Job(TracedExecutor executor, Task task, Cancellable once, Callable<T> body) {
            super(() -> once.run(executor, body::call)); // The task ends before the result is there to be taken.
            this.task = task;
            this.once = once;
        }

        static <T> Job<T> of(TracedExecutor executor, Callable<T> body) {
            Task task = executor.newTask();
            return new Job<>(executor, task, new Cancellable(task), body);
        }

        @Override
        protected void done() {
            if (isCancelled()) {
                once.cancelled();
            }
        }

        @Override
        public T get() throws InterruptedException, ExecutionException {
            return Traced.waited(super::get, this::taken);
        }

        @Override
        public T get(long time, TimeUnit unit) throws InterruptedException, ExecutionException, TimeoutException {
            return Traced.waited(() -> super.get(time, unit), this::taken);
        }

        @Override
        public boolean isDone() {
            boolean isDone = super.isDone();
            if (isDone) {
                taken();
            }
            return isDone;
        }

        /** This thread comes after a job that is done. One that was cancelled may go on. */
        private void taken() {
            if (!isCancelled()) {
                Traced.join(task, Traced.site());
            }
        }
    }

    @Override
    protected <T> RunnableFuture<T> newTaskFor(Runnable body, T value) {
        return newTaskFor(Executors.callable(body, value));
    }

    @Override
    protected <T> RunnableFuture<T> newTaskFor(Callable<T> body) {
        return Job.of(this, body);
    }

    @Override
    public void execute(Runnable body) {
        if (body instanceof Job<?>) {
            executor.execute(body);
        } else {
            Task task = newTask();
            executor.execute(
                    () ->
                            run(
                                    task,
                                    () -> {
                                        body.run();
                                        return null;
                                    }));
        }
    }

    final Task newTask() {
        Task task = Traced.spawn("job", Traced.site());
        if (task != null) {
            synchronized (tasks) {
                tasks.add(task);
                if (tasks.size() > 2 * swept + MANY) {
                    sweep();
                }
            }
        }
        return task;
    }

    /** One task comes after the jobs that are over, so that they need not be kept for whoever waits for all of them. */
    private void sweep() {
        List<Task> ended = tasks.stream().filter(task -> task.isEnded).toList();
        if (!ended.isEmpty()) {
            Mark before = over;
            List<Mark> ends = ended.stream().map(task -> task.end).toList();
            over = Traced.keep(before == null ? null : before.place.task, ends, JOBS);
            Mark.endIfAny(before);
            ended.forEach(tasks::remove);
        }
        swept = tasks.size();
    }

    /** What was done again and again is done no more. */
    void endRepeated() {}

    /** Whoever has seen the end of the executor comes after all of its jobs. */
    private boolean endedIf(boolean isTerminated) {
        if (isTerminated) {
            endRepeated();
            synchronized (tasks) {
                Traced.take(over, Traced.site());
                tasks.forEach(task -> Traced.join(task, Traced.site()));
            }
        }
        return isTerminated;
    }

    @Override
    public void shutdown() {
        executor.shutdown();
    }

    @Override
    public List<Runnable> shutdownNow() {
        return executor.shutdownNow();
    }

    @Override
    public boolean isShutdown() {
        return executor.isShutdown();
    }

    @Override
    public boolean isTerminated() {
        return endedIf(executor.isTerminated());
    }

    @Override
    public boolean awaitTermination(long time, TimeUnit unit) throws InterruptedException {
        return endedIf(executor.awaitTermination(time, unit));
    }
}
