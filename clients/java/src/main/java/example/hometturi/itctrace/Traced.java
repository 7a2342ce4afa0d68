package example.hometturi.itctrace;

import example.hometturi.itctrace.Environment.Child;
import example.hometturi.itctrace.Place.Gives;
import example.hometturi.itctrace.Place.Kind;
import example.hometturi.itctrace.Place.Mark;
import example.hometturi.itctrace.Place.Noted;
import example.hometturi.itctrace.Row.Site;
import example.hometturi.itctrace.Task.Held;
import example.hometturi.itctrace.Task.HeldLock;
import example.hometturi.itctrace.Task.Stretch;
import java.io.IOException;
import java.util.Collections;
import java.util.IdentityHashMap;
import java.util.List;
import java.util.Map;
import java.util.Optional;
import java.util.Set;
import java.util.WeakHashMap;
import java.util.concurrent.BlockingQueue;
import java.util.concurrent.CancellationException;
import java.util.concurrent.ConcurrentMap;
import java.util.concurrent.CountDownLatch;
import java.util.concurrent.CyclicBarrier;
import java.util.concurrent.Exchanger;
import java.util.concurrent.ExecutionException;
import java.util.concurrent.ExecutorService;
import java.util.concurrent.Phaser;
import java.util.concurrent.ScheduledExecutorService;
import java.util.concurrent.Semaphore;
import java.util.concurrent.ThreadFactory;
import java.util.concurrent.locks.Lock;
import java.util.concurrent.locks.ReadWriteLock;
import java.util.concurrent.locks.ReentrantReadWriteLock;
import java.util.concurrent.locks.StampedLock;
import java.util.function.UnaryOperator;

/**
 * What a program marks and wraps, so that its order and its touches are reported behind its back. It reports where the environment
 * says. Where the environment names no port, nothing is reported, and all that is wrapped works as it does by itself.
 *
 * <p>The trace begins with the first call, and ends with the process. It may end before, as when it is full. Then one line on standard
 * error says so, and the program goes on.
 */
public final class Traced {
    /** What the end of the process does first. */
    private static volatile Runnable beforeEnd = () -> {};
    /** What stands in front of the journal's last line, by the name of the process. */
    private static volatile UnaryOperator<String> lastRow = process -> "";

    private static final Gives BEFORE = Gives.order("mark", "before", "after");
    private static final Tracer TRACER = begin();
    private static final ThreadLocal<Own> OWN = ThreadLocal.withInitial(Own::new);
    private static final Keyed<Givers> TOKENS = new Keyed<>();
    private static final Keyed<TracedMonitor> MONITORS = new Keyed<>();
    /** The tasks of threads that were started by the program itself, as the agent sees. */
    private static final Keyed<Task> STARTED = new Keyed<>();
    /** The thread of the JVM that ends it, once main and all that it waits for are over. */
    private static final String LAST = "DestroyJavaVM";
    /** What each thread gives at its end that the JVM waits for. */
    private static final Object ENDED = new Object();

    /** What a thread knows of itself: its task, and the locks that it holds. */
    static final class Own {
        final Thread thread = Thread.currentThread();
        private Task task;
        private Holding holding;
        /** The last place of another task that the task has come after, to be read under a lock, and by what. */
        private Place taken;

        private Kind takenBy;
        /** Where it has released the lock that it has acquired last, if it does nothing else but to release it again. It has a mark. */
        private Place kept;

        void keep(Place place) {
            dropKept();
            kept = place;
        }

        void dropKept() {
            if (kept != null) {
                kept.removeMark();
                kept = null;
            }
        }

        /** Whether the place has a mark that was kept. */
        boolean takesKept(Place place) {
            boolean isKept = kept == place;
            if (isKept) {
                kept = null;
            }
            return isKept;
        }

        /** What the task does since its last synchronization, if it is known, and which of its stretches that is. */
        private Stretch stretch;

        private long stretches;

        /** The stretch of what this thread does now. Null without a trace. */
        Stretch stretch() {
            dropKept();
            Task now = task();
            if (stretch == null || !goesOn(now, stretches)) {
                stretch = TRACER.stretch(now);
                stretches = now.stretches;
            }
            return stretch;
        }

        /** Whether the task is still in the stretch of this number, and nobody can come after a place in it. */
        boolean goesOn(Task of, long number) {
            return of == task && of.stretches == number && !of.here.hasMark() && of.here.position == 0;
        }

        Held held() {
            return Holding.locks(holding);
        }

        /** What the agent keeps of what the thread reads on trust. Null if it does not. */
        Object trusting;

        /** What the agent keeps of the jobs that the thread does within one another. */
        Object doing;

        boolean holds(String lock) {
            return Holding.isIn(holding, lock);
        }

        /** The classes that the task has come to after their initialization. */
        private final Set<Object> classes = Collections.newSetFromMap(new IdentityHashMap<>());

        boolean seesFirst(Object type) {
            return classes.add(type);
        }

        /** The job of an executor that the thread does, and what the thread was before. */
        private Task job;

        private Task beforeJob;
        private boolean isInJob;

        /** The thread does a job from now on, as a task of its own if there is one. */
        void beginJob(Task of) {
            isInJob = true;
            job = of;
            if (of != null) {
                beforeJob = become(of);
            }
        }

        boolean isInJob() {
            return isInJob;
        }

        /** What stands for each variable of the thread alone, of which the jobs come in order that use it. */
        private final Map<Object, Object> locals = new WeakHashMap<>();

        private final Set<Object> usedLocals = Collections.newSetFromMap(new IdentityHashMap<>());

        /** The job uses a variable that the thread has for itself. */
        void usesLocal(Object variable) {
            if (isInJob && job != null || doing != null) {
                Object token = locals.computeIfAbsent(variable, fresh -> new Object());
                if (usedLocals.add(token)) {
                    after(token);
                }
            }
        }

        /** Another job of the thread may use what this one has used of the variables of the thread alone. */
        void lendLocals() {
            usedLocals.forEach(Traced::before);
            usedLocals.clear();
        }

        /** The job is over, and the thread is what it was before. */
        void endJob() {
            isInJob = false;
            lendLocals();
            if (job != null) {
                endUnawaited(job, beforeJob);
                job = null;
            }
        }

        boolean hasTaken(Mark mark) {
            return taken == mark.place && takenBy.compareTo(mark.noted.gives().kind()) <= 0;
        }

        void tookLast(Mark mark) {
            taken = mark.place;
            takenBy = mark.noted.gives().kind();
        }

        boolean holdsAny() {
            return holding != null;
        }

        /** The locks that are held, and one more. */
        Holding with(LockName name, HeldLock lock) {
            return new Holding(name, lock, holding);
        }

        /** This thread holds one lock more from now on. If it has waited for it with others held, that is told. */
        void hold(Holding held, boolean hasWaited) {
            boolean isInner = holdsAny();
            holding = held;
            List<HeldLock> awaited = isInner && hasWaited ? holding.awaited() : List.of();
            if (awaited.size() > 1) {
                dropKept();
                holding.tellNested();
                TRACER.acquire(task(), awaited);
            }
        }

        /**
         * This thread no longer holds the lock, or lends it for the time of a wait. Gives whether it still holds one that it acquired
         * later.
         */
        boolean letGo(String lock, boolean isLent) {
            if (holding != null && holding.isOf(lock)) {
                holding = holding.others();
                return false;
            }
            Holding without = Holding.without(holding, lock, isLent);
            boolean isCrossed = without != holding;
            holding = without;
            return isCrossed;
        }

        Task task() {
            if (task == null) {
                task = STARTED.known(thread);
            }
            if (task == null && thread.getName().equals(LAST)) {
                task = TRACER.main; // It is the same thread, as the JVM ends behind all others.
                after(ENDED);
            }
            if (task == null) {
                task = thread.getName().equals("main") && thread.getId() == 1 ? TRACER.main : TRACER.stranger(thread);
            }
            return task;
        }
    }

    private Traced() {}

    private static Tracer begin() {
        try {
            Optional<Environment> environment = Environment.read(System.getenv());
            if (environment.isEmpty()) {
                return null;
            }
            Tracer tracer = new Tracer(environment.get());
            Runtime.getRuntime().addShutdownHook(new Thread(() -> finish(tracer), "itctrace end"));
            return tracer;
        } catch (IOException failure) {
            System.err.println("itc_trace: nothing is traced: " + failure.getMessage());
            return null;
        } catch (IllegalStateException shutdown) {
            System.err.println("itc_trace: nothing is traced: the first call came when the program was ending");
            return null;
        }
    }

    private static void finish(Tracer tracer) {
        beforeEnd.run();
        tracer.finish(true);
    }

    /** The end of the process does this first. */
    static void beforeEnd(Runnable body) {
        beforeEnd = body;
    }

    /** This stands in front of the journal's last line. It gets the name of the process. */
    static void tellLast(UnaryOperator<String> row) {
        lastRow = row;
    }

    static String lastRow(String process) {
        return lastRow.apply(process);
    }

    /** This thread reads or writes the thing, which is of this process, at the line that calls this. */
    public static void touch(String thing, boolean writes) {
        touched(thing, writes, false);
    }

    /** The same of a thing that all processes call by this name, as a file. */
    public static void touchAcross(String thing, boolean writes) {
        touched(thing, writes, true);
    }

    private static void touched(String thing, boolean writes, boolean isAcross) {
        if (isOn()) {
            Own own = OWN.get();
            own.dropKept();
            TRACER.touch(own.task(), thing, writes, isAcross, Site.ofCaller(), Holding.locks(own.holding));
        }
    }

    /**
     * What this thread did by now comes before whoever calls {@code after} with the same object from now on. It stands in front of what
     * lets the other thread go on. Neither call waits for the collector.
     */
    public static void before(Object token) {
        if (isOn()) {
            TOKENS.of(token, Givers::new).give(BEFORE, site());
        }
    }

    /** This thread comes after all who have called {@code before} with this object by now. It stands behind what has waited for them. */
    public static void after(Object token) {
        Givers givers = isOn() ? TOKENS.known(token) : null;
        if (givers != null && givers.isOfOthers(current())) {
            givers.take(site());
        }
    }

    /**
     * Reports all that was noted by now, as if the process ended here. What is done from here on is reported as it is done. A program
     * needs this before it ends in a way that nobody can see, as by {@code Runtime.halt} or by SIGKILL.
     */
    public static void finish() {
        if (TRACER != null) {
            TRACER.finish(false);
        }
    }

    /** Starts a thread of this name. */
    public static TracedThread start(String name, Runnable body) {
        return start(name, body, Thread::new);
    }

    /** Starts a thread that the factory makes, as one of virtual threads. */
    public static TracedThread start(String name, Runnable body, ThreadFactory factory) {
        return new TracedThread(name, body, factory);
    }

    /** Starts a process. If it reports too, it is a child of this one: it comes after this call, and before whoever waits for it. */
    public static Process start(ProcessBuilder builder) throws IOException {
        return TracedProcess.start(builder);
    }

    /** The lock, whose release comes before the next time that it is acquired. */
    public static Lock lock(Lock lock) {
        return new TracedLock(lock);
    }

    /** The lock for readers and writers. A writer comes after those who read before, and readers come after the last writer. */
    public static ReadWriteLock lock(ReentrantReadWriteLock lock) {
        return new TracedReadWriteLock(lock);
    }

    /** A lock with stamps. Its readers come after the last writer, also one that reads on trust and validates. */
    public static StampedLock stampedLock() {
        return new TracedStampedLock();
    }

    /**
     * The monitor of an object that this thread has, up to the end of what this gives:
     *
     * <pre>{@code
     * synchronized (stock) {
     *     try (TracedMonitor monitor = Traced.monitor(stock)) {
     *         while (stock.isEmpty()) {
     *             monitor.await();
     *         }
     *         take(stock);
     *     }
     * }
     * }</pre>
     */
    public static TracedMonitor monitor(Object object) {
        if (!Thread.holdsLock(object)) {
            throw new IllegalMonitorStateException("this thread does not have the monitor: enter it by synchronized first");
        }
        return monitorOf(object).enter();
    }

    static TracedMonitor monitorOf(Object object) {
        return MONITORS.of(object, () -> new TracedMonitor(object));
    }

    /** Null if nobody has asked for it. */
    static TracedMonitor knownMonitorOf(Object object) {
        return MONITORS.known(object);
    }

    /** The executor. Each of its jobs is a task, which comes after its submission. Whoever takes the result comes after the job. */
    public static ExecutorService executor(ExecutorService executor) {
        return new TracedExecutor(executor);
    }

    /** The same, for jobs that are done later or again and again. Each run of a job comes after its last one. */
    public static ScheduledExecutorService scheduled(ScheduledExecutorService executor) {
        return new TracedScheduledExecutor(executor);
    }

    /** What is done in the threads of a pool on behalf of this thread, as by a parallel stream, up to the end of what this gives. */
    public static TracedSection section() {
        return new TracedSection();
    }

    /**
     * A queue over an empty one. Whoever takes an element comes after whoever has put it: {@code BlockingQueue<Order> orders =
     * Traced.queue(new LinkedBlockingQueue<>());}
     */
    public static <E> BlockingQueue<E> queue(BlockingQueue<TracedQueue.Carried<E>> queue) {
        return new TracedQueue<>(queue);
    }

    /**
     * A map over an empty one. Whoever sees a value comes after whoever has put it or computed it: {@code ConcurrentMap<String, Price>
     * prices = Traced.map(new ConcurrentHashMap<>());}
     */
    public static <K, V> ConcurrentMap<K, V> map(ConcurrentMap<K, TracedMap.Carried<V>> map) {
        return new TracedMap<>(map);
    }

    /** A latch. Whoever has waited for it comes after all who have counted it down. */
    public static CountDownLatch latch(int count) {
        return new TracedLatch(count);
    }

    /** A barrier. Whoever leaves it comes after all who arrived at it. */
    public static CyclicBarrier barrier(int parties) {
        return barrier(parties, null);
    }

    /** The same, with what the last one does that arrives. */
    public static CyclicBarrier barrier(int parties, Runnable action) {
        return new TracedBarrier(parties, action);
    }

    /** A phaser. Whoever sees that a phase is over comes after all who arrived in it. */
    public static Phaser phaser(int parties) {
        return new TracedPhaser(parties);
    }

    /** An exchanger. Each of the two comes after what the other one did before. */
    public static <V> Exchanger<V> exchanger() {
        return new TracedExchanger<>();
    }

    /** A semaphore. Whoever acquires comes after all who have released. */
    public static Semaphore semaphore(int permits) {
        return semaphore(permits, false);
    }

    /** The same, which may be fair. */
    public static Semaphore semaphore(int permits, boolean isFair) {
        return new TracedSemaphore(permits, isFair);
    }

    /** The name of a new message from here, if there is a trace: hand it to another process, which calls {@code incoming} with it. */
    public static Optional<String> outgoing() {
        return isOn() ? Optional.ofNullable(TRACER.outgoing(current(), Site.ofCaller())) : Optional.empty();
    }

    /** From now on this thread comes after the place where the message was sent. What is no message is passed over. */
    public static void incoming(String message) {
        if (isOn() && message != null && message.matches("[A-Za-z0-9_]{1,24}")) {
            TRACER.incoming(current(), message, Site.ofCaller());
        }
    }

    /**
     * Has this thread answer a request of another process, as a task of its own, up to the end of what this gives. The
     * task comes after what the thread did before as itself, and not after its other requests. What the request brings may
     * be null. A response that is to be a message, too, needs {@code outgoing} before its head is sent. {@link TracedWeb}
     * does both for the server of the JDK.
     */
    public static TracedRequest request(String message) {
        TracedRequest request = new TracedRequest(spawn("request", site()));
        incoming(message);
        return request;
    }

    /** The header of HTTP that carries a message. */
    public static final String HEADER = "Itc-Trace";

    static boolean isOn() {
        return TRACER != null && !TRACER.isOver();
    }

    /** The task of this thread, which is about to do something. */
    static Task current() {
        Own own = OWN.get();
        own.dropKept();
        return own.task();
    }

    static Site site() {
        return isOn() ? Site.ofCaller() : Site.NONE;
    }

    static Tracer tracer() {
        return TRACER;
    }

    /** The thread is about to be started by this one. */
    static void starts(Thread thread, Site site) {
        STARTED.of(thread, () -> spawn(thread.getName(), site));
    }

    /** A thread that the program has started is over. */
    static void ends(Thread thread) {
        Task task = STARTED.known(thread);
        if (task != null && !task.isEnded) {
            if (!thread.isDaemon()) {
                before(ENDED);
            }
            end(task);
        }
    }

    /** The task of a thread that the program has started. Null of others. */
    static Task started(Thread thread) {
        return STARTED.known(thread);
    }

    static Own own() {
        return OWN.get();
    }

    /** Where this thread is. */
    static Place here() {
        return current().here;
    }

    /** A place in this thread that somebody may come after. Null if there is no trace. */
    static Mark mark(Gives gives, Site site) {
        if (!isOn()) {
            return null;
        }
        Place here = here();
        Noted noted = new Noted(gives, site, Row.now());
        here.slot(gives.kind()).noted = noted;
        return new Mark(here, noted);
    }

    /** The place was sent, and has no mark any more. */
    static void unmark(Place place) {
        if (isOn()) {
            TRACER.unmark(place);
        }
    }

    /** This thread comes after the place. */
    static void take(Mark mark, Site site) {
        if (mark != null) {
            take(mark.place, mark.noted, site);
        }
    }

    static void take(Place place, Noted noted, Site site) {
        if (isOn()) {
            Task task = current();
            if (place.task != task) {
                TRACER.take(task, place, noted, site);
            }
        }
    }

    /** Null if there is no trace. */
    static Task spawn(String hint, Site site) {
        return isOn() ? TRACER.spawn(current(), hint, site) : null;
    }

    /** The task of what nobody was seen to start. */
    static Task stranger(String hint) {
        return TRACER.stranger(hint);
    }

    /** This thread is the task from now on. Gives the task that it was. */
    static Task become(Task task) {
        Own own = OWN.get();
        Task before = own.task;
        own.dropKept();
        own.task = task;
        own.stretch = null;
        own.classes.clear();
        own.taken = null;
        return before;
    }

    /** The task of this thread ends, and the thread is the one before again. */
    static void end(Task task, Task before) {
        end(task);
        become(before);
    }

    static void end(Task task) {
        if (task != null && isOn()) {
            TRACER.end(task, true);
        }
    }

    /** A task that nobody waits for ends, and this thread is the one before again. */
    static void endUnawaited(Task task, Task before) {
        if (task != null && isOn()) {
            TRACER.end(task, false);
        }
        become(before);
    }

    /** One mark for those of tasks that have ended. It is of a task that comes after them, which is the one that is given, if there is one. */
    static Mark keep(Task keeper, List<Mark> marks, Gives gives) {
        return TRACER.kept(keeper == null ? TRACER.stranger("keeper") : keeper, marks, gives);
    }

    /** What is done as a task, and what it may throw. */
    interface Body<T, X extends Exception> {
        T run() throws X;
    }

    /** Does this as the task, which ends with it. */
    static <T, X extends Exception> T call(Task task, Body<T, X> body) throws X {
        Task before = become(task);
        try {
            return body.run();
        } finally {
            end(task, before);
        }
    }

    /** Does this as the task, which goes on later. */
    static <T, X extends Exception> T callIn(Task task, Body<T, X> body) throws X {
        Task before = become(task);
        try {
            return body.run();
        } finally {
            become(before);
        }
    }

    static void run(Task task, Runnable body) {
        call(
                task,
                () -> {
                    body.run();
                    return null;
                });
    }

    /** A wait for a value, and what tells that it took too long. */
    interface Wait<T, X extends Exception> {
        T value() throws InterruptedException, ExecutionException, X;
    }

    /** Waits for the value. This thread has seen the end of what gives it then, unless it stopped waiting before. */
    static <T, X extends Exception> T waited(Wait<T, X> wait, Runnable seen) throws InterruptedException, ExecutionException, X {
        try {
            T value = wait.value();
            seen.run();
            return value;
        } catch (ExecutionException | CancellationException failure) {
            seen.run();
            throw failure;
        }
    }

    static void join(Task child, Site site) {
        if (child != null && isOn()) {
            TRACER.join(current(), child, site);
        }
    }

    static String lockName(Site site) {
        return isOn() ? TRACER.lockName("lock (" + site + ")") : "";
    }

    /** Starts the task of a process, and tells the process so. Null if there is no trace. */
    static Child beginChild(ProcessBuilder builder, String hint) {
        Child child = isOn() ? TRACER.beginChild(current(), hint, site()) : null;
        if (child != null) {
            child.tell(builder.environment());
            builder.environment().put(Environment.JOURNAL, TRACER.journal());
        }
        return child;
    }

    static void joinProcess(Child child, Site site) {
        if (isOn()) {
            TRACER.joinProcess(current(), child, site);
        }
    }
}
