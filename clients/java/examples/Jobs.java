import example.hometturi.itctrace.Traced;
import java.util.concurrent.ExecutorService;
import java.util.concurrent.Executors;
import java.util.concurrent.Future;
import java.util.concurrent.ScheduledExecutorService;
import java.util.concurrent.ScheduledFuture;
import java.util.concurrent.ScheduledThreadPoolExecutor;
import java.util.concurrent.TimeUnit;

/** Executors that live long. clients/wrappers.py runs them. */
final class Jobs {
    private static final int ONE_IN = 1000;

    private Jobs() {}

    /** Does so many jobs one after the other, each beside a time limit that is cancelled. One in a thousand is read too early. */
    static void run(int count) throws Exception {
        ExecutorService pool = Traced.executor(Executors.newFixedThreadPool(2));
        ScheduledThreadPoolExecutor timers = new ScheduledThreadPoolExecutor(1);
        timers.setRemoveOnCancelPolicy(true); // Else it keeps what was cancelled.
        ScheduledExecutorService limits = Traced.scheduled(timers);
        long before = Long.MAX_VALUE;
        for (int turn = 0; turn < count; turn++) {
            String thing = turn % ONE_IN == 0 ? "total" : "stock";
            ScheduledFuture<?> limit = limits.schedule(() -> Traced.touch("stock", true), 1, TimeUnit.HOURS);
            Future<?> job = pool.submit(() -> Traced.touch(thing, true)); // race: jobs
            if (turn % ONE_IN == 0) {
                Traced.touch("total", false); // race: jobs
            }
            job.get();
            limit.cancel(false);
            Traced.touch("stock", false);
            before = turn == count / 4 ? WebPrograms.kept() : before;
        }
        WebPrograms.keepsNoMoreThan(before);
        pool.shutdown();
        limits.shutdownNow();
        if (!pool.awaitTermination(1, TimeUnit.MINUTES) || !limits.awaitTermination(1, TimeUnit.MINUTES)) {
            throw new IllegalStateException("jobs go on");
        }
    }
}
