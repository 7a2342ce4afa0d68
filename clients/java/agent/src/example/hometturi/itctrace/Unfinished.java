package example.hometturi.itctrace;

import example.hometturi.itctrace.Row.Site;
import java.lang.invoke.VarHandle;
import java.lang.ref.WeakReference;
import java.util.ArrayList;
import java.util.Arrays;
import java.util.List;

/**
 * What a thread does with collections that tells at its end what it has changed. Others may see the change before that, and end the
 * process. So its end waits for those that are about to tell. A call that throws tells nothing, and is known by where the thread is.
 */
final class Unfinished {
    private static final int MOST = 16;
    private static final int ROUNDS = 200;
    private static final long REST_MILLISECONDS = 5;

    private static final List<Unfinished> ALL = new ArrayList<>();
    private static final ThreadLocal<Unfinished> MINE = ThreadLocal.withInitial(Unfinished::new);

    private final WeakReference<Thread> thread = new WeakReference<>(Thread.currentThread());
    private final Use[] open = new Use[MOST];
    private int depth;

    private Unfinished() {
        synchronized (ALL) {
            if (ALL.isEmpty()) {
                Traced.beforeEnd(Unfinished::await);
            }
            ALL.removeIf(Unfinished::isOfEndedThread);
            ALL.add(this);
        }
    }

    private boolean isOfEndedThread() {
        Thread one = thread.get();
        return one == null || !one.isAlive();
    }

    /** This thread may change something by the call. Who sees the change sees this, too. */
    static void begin(Use use) {
        Unfinished mine = MINE.get();
        int depth = mine.depth == MOST ? 0 : mine.depth;
        if (depth == 0 || mine.open[depth - 1] != use) {
            mine.open[depth] = use;
            VarHandle.storeStoreFence();
            mine.depth = depth + 1;
            VarHandle.storeStoreFence();
        }
    }

    /** The call has told what it has done. Those within it that are open still have thrown. */
    static void end(Use use) {
        Unfinished mine = MINE.get();
        for (int at = mine.depth - 1; at >= 0; at--) {
            if (mine.open[at] == use) {
                VarHandle.storeStoreFence();
                mine.depth = at;
                return;
            }
        }
    }

    /** Waits some time for those that are about to tell. What goes on still is named. */
    private static void await() {
        List<Unfinished> all;
        synchronized (ALL) {
            all = List.copyOf(ALL);
        }
        for (int round = 0; round < ROUNDS && all.stream().anyMatch(one -> one.goingOn().length > 0); round++) {
            try {
                Thread.sleep(REST_MILLISECONDS);
            } catch (InterruptedException interrupted) {
                break;
            }
        }
        all.forEach(one -> Arrays.stream(one.goingOn()).forEach(Use::nameUnfinished));
    }

    /** The calls that the thread is in. */
    private Use[] goingOn() {
        Thread one = thread.get();
        int count = depth;
        VarHandle.loadLoadFence();
        if (count == 0 || one == null || one == Thread.currentThread() || !one.isAlive()) {
            return new Use[0];
        }
        Use[] begun = Arrays.copyOf(open, count);
        StackTraceElement[] frames = one.getStackTrace();
        return Arrays.stream(begun).filter(use -> Arrays.stream(frames).anyMatch(frame -> isAt(use.site(), frame))).toArray(Use[]::new);
    }

    private static boolean isAt(Site site, StackTraceElement frame) {
        boolean isInFile = site.file() != null && frame.getFileName() != null && site.file().endsWith(frame.getFileName());
        return isInFile && site.line() == frame.getLineNumber();
    }
}
