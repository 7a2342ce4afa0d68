package example.hometturi.itctrace;

import example.hometturi.itctrace.Traced.Own;
import java.util.ArrayDeque;
import java.util.Deque;
import java.util.concurrent.CompletableFuture;
import java.util.concurrent.ForkJoinWorkerThread;
import java.util.concurrent.atomic.AtomicInteger;
import jdk.internal.misc.Unsafe;

/**
 * What fork-join pools and futures call by the agent. Each job, and each stage, is a task of its own, whichever thread
 * does it.
 */
public final class Jobs {
    /**
     * So many jobs of a process are tasks of their own. Those behind them are of the thread that does them, and are
     * named.
     */
    private static final int MOST = 5_000;

    private static final AtomicInteger COUNT = new AtomicInteger();
    private static final Unsafe UNSAFE = Unsafe.getUnsafe();
    private static final Class<?> OF_ONE = classNamed("UniCompletion");
    private static final Class<?> OF_TWO = classNamed("BiCompletion");
    private static final long FIRST = UNSAFE.objectFieldOffset(OF_ONE, "src");
    private static final long SECOND = UNSAFE.objectFieldOffset(OF_TWO, "snd");

    private Jobs() {}

    private static Class<?> classNamed(String name) {
        for (Class<?> one : CompletableFuture.class.getDeclaredClasses()) {
            if (one.getSimpleName().equals(name)) {
                return one;
            }
        }
        throw new IllegalStateException("there is no " + name);
    }

    /** What a thread does, as which task, and which task it was before. Both are null if it stays what it is. */
    private record Doing(Object job, Task task, Task before) {}

    @SuppressWarnings("unchecked")
    private static Deque<Doing> of(Own own) {
        if (own.doing == null) {
            own.doing = new ArrayDeque<Doing>();
        }
        return (Deque<Doing>) own.doing;
    }

    /** Another thread may have handed over the job. */
    public static void begins(Object job) {
        if (Traced.isOn()) {
            begin(job);
            Traced.after(job);
        }
    }

    private static void begin(Object job) {
        Own own = Traced.own();
        own.lendLocals();
        boolean isOwn = COUNT.incrementAndGet() <= MOST;
        if (!isOwn && COUNT.get() == MOST + 1) {
            String what = "which job of a fork-join pool does what, behind the first " + MOST;
            Traced.tracer().passOver(what, Traced.site());
        }
        Task task = isOwn ? Traced.stranger("job") : null;
        of(own).push(new Doing(job, task, task == null ? null : Traced.become(task)));
    }

    /** What began within the job, and did not come to its end, ends, too. */
    public static void ends(Object job) {
        Own own = Traced.isOn() ? Traced.own() : null;
        if (own == null || of(own).stream().noneMatch(one -> one.job == job)) {
            return;
        }
        boolean isOver = false;
        while (!isOver) {
            Doing last = of(own).pop();
            own.lendLocals();
            Trusting.end(own, true);
            if (last.task != null) {
                if (own.thread instanceof ForkJoinWorkerThread worker) {
                    Traced.before(worker.getPool()); // Somebody may wait for its end.
                }
                Traced.endUnawaited(last.task, last.before);
            }
            isOver = last.job == job;
        }
    }

    /** A thread that has completed a future is about to do a stage behind it. */
    public static void stageBegins(Object completion, int mode) {
        if (mode <= 0 && completion != null && Traced.isOn()) {
            begin(completion);
            Traced.after(completion);
            takesSource(completion, OF_ONE, FIRST);
            takesSource(completion, OF_TWO, SECOND);
        }
    }

    private static void takesSource(Object completion, Class<?> type, long offset) {
        Object source = type.isInstance(completion) ? UNSAFE.getReference(completion, offset) : null;
        if (source != null) {
            Traced.after(source);
        }
    }
}
