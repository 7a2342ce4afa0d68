package example.hometturi.itctrace;

import example.hometturi.itctrace.Cell.Place;
import example.hometturi.itctrace.Place.Gives;
import example.hometturi.itctrace.Row.Site;
import example.hometturi.itctrace.Traced.Own;
import java.util.Arrays;
import java.util.ArrayDeque;
import java.util.Date;
import java.util.Deque;
import java.util.List;
import java.util.Map;
import java.util.Properties;
import java.util.Set;
import java.util.concurrent.CompletableFuture;
import java.util.concurrent.ConcurrentHashMap;
import java.util.concurrent.CountDownLatch;
import java.util.concurrent.ForkJoinPool;
import java.util.concurrent.ForkJoinTask;
import java.util.concurrent.FutureTask;
import java.util.concurrent.ScheduledThreadPoolExecutor;
import java.util.concurrent.Semaphore;
import java.util.concurrent.ThreadPoolExecutor;
import java.util.concurrent.TimeUnit;
import java.util.concurrent.atomic.AtomicBoolean;
import java.util.concurrent.atomic.AtomicInteger;
import java.util.concurrent.atomic.AtomicLong;
import java.util.concurrent.atomic.AtomicIntegerArray;
import java.util.concurrent.atomic.AtomicLongArray;
import java.util.concurrent.atomic.AtomicMarkableReference;
import java.util.concurrent.atomic.AtomicReferenceArray;
import java.util.concurrent.atomic.AtomicStampedReference;
import java.util.concurrent.atomic.DoubleAccumulator;
import java.util.concurrent.atomic.DoubleAdder;
import java.util.concurrent.atomic.LongAccumulator;
import java.util.concurrent.atomic.LongAdder;
import java.util.concurrent.atomic.AtomicReference;
import java.util.concurrent.locks.Condition;
import java.util.concurrent.locks.Lock;
import java.util.concurrent.locks.ReentrantLock;
import java.util.function.BiFunction;
import java.util.function.BinaryOperator;
import java.util.function.Function;
import java.util.function.Supplier;
import java.util.function.UnaryOperator;

/** What the code of a watched class calls, by the agent. No call throws anything that what stood there does not throw. */
public final class Watched {
    /** What is in the name of each method that the agent adds to a class. */
    public static final String OWN_METHOD = "$itctrace";

    static final Gives INITIALIZED = Gives.order("class", "initialize class", "use class");
    private static final Gives VOLATILE = Gives.order("volatile", "write volatile", "read volatile");
    private static final Gives ATOMIC = Gives.order("atomic", "write atomic", "read atomic");

    private static final int MOST_NANOSECONDS = 999_999;
    private static final String FRAMES = "example.hometturi.itctrace.";
    private static final String CONCURRENT = "java.util.concurrent.";

    /** Those of the JDK whose orders are followed. */
    private static final Set<Class<?>> FOLLOWED =
            Set.of(
                    CountDownLatch.class,
                    Semaphore.class,
                    ReentrantLock.class,
                    AtomicBoolean.class,
                    AtomicInteger.class,
                    AtomicLong.class,
                    AtomicReference.class,
                    AtomicStampedReference.class,
                    AtomicMarkableReference.class,
                    AtomicIntegerArray.class,
                    AtomicLongArray.class,
                    AtomicReferenceArray.class,
                    LongAdder.class,
                    DoubleAdder.class,
                    LongAccumulator.class,
                    DoubleAccumulator.class,
                    TimeUnit.class);

    /** Those that tell of their orders by themselves, and what is below them. */
    private static final Set<Class<?>> EXACT =
            Set.of(FutureTask.class, ThreadPoolExecutor.class, CompletableFuture.class, ForkJoinTask.class, ForkJoinPool.class);

    /** The same by their names, if the agent has rewritten them. */
    private static final Set<String> REWRITTEN = ConcurrentHashMap.newKeySet();

    static {
        for (String name :
                List.of(
                        "ArrayBlockingQueue", "LinkedBlockingQueue", "LinkedBlockingDeque", "PriorityBlockingQueue", "DelayQueue",
                        "SynchronousQueue", "LinkedTransferQueue", "ConcurrentLinkedQueue", "ConcurrentLinkedDeque", "Exchanger",
                        "CyclicBarrier", "Phaser", "CopyOnWriteArrayList", "CopyOnWriteArraySet", "locks.ReentrantReadWriteLock",
                        "locks.StampedLock")) {
            REWRITTEN.add(CONCURRENT + name);
        }
        REWRITTEN.addAll(List.of("java.util.Vector", "java.util.Hashtable", "java.util.Collections", "java.lang.StringBuffer"));
    }

    /** A class of the JDK runs as it is. What its objects order is not followed exactly. */
    public static void unfollowed(String name) {
        REWRITTEN.remove(name);
        if (name.endsWith("CopyOnWriteArrayList")) {
            REWRITTEN.remove(CONCURRENT + "CopyOnWriteArraySet");
        }
    }

    /** How the order is followed that an object gives. */
    private enum How {
        UNFOLLOWED,
        BY_MONITOR,
        /** There is none, or it is followed elsewhere. */
        ELSEWHERE
    }

    private static final ClassValue<How> HOW =
            new ClassValue<>() {
                @Override
                protected How computeValue(Class<?> type) {
                    return isUnfollowed(type) ? How.UNFOLLOWED : Mutexes.mayHave(type) ? How.BY_MONITOR : How.ELSEWHERE;
                }
            };

    private static boolean isUnfollowed(Object object) {
        return HOW.get(object.getClass()) == How.UNFOLLOWED;
    }

    private static final Keyed<VolatileCell> ATOMICS = new Keyed<>();
    private static final Keyed<TracedLock> LOCKS = new Keyed<>();
    private static final Keyed<ReportingLock> CONDITIONS = new Keyed<>();
    private static final Keyed<ReadWriteOrder> ORDERS = new Keyed<>();
    private static final Keyed<FollowedSide> SIDES = new Keyed<>();
    private static final Keyed<Deque<Task>> JOBS = new Keyed<>();
    private static final Keyed<Shared> SHARED = new Keyed<>();

    private static volatile Place[] places = new Place[0];
    private static int placeCount;
    private static volatile Use[] uses = new Use[0];
    private static int useCount;
    private static volatile Type[] types = new Type[0];
    private static volatile Call[] calls = new Call[0];

    /** A call that is not followed exactly. It is told when it is done for the first time. */
    private static final class Call {
        private final String what;
        private final Site site;
        private volatile boolean isTold;

        Call(String what, Site site) {
            this.what = what;
            this.site = site;
        }

        void tell() {
            if (!isTold && Traced.isOn()) {
                isTold = true;
                Traced.tracer().passOver(what, site);
            }
        }
    }

    private Watched() {}

    /** From here on it is known after which touches of others a task comes. */
    public static void keepAges() {
        Traced.tellLast(Counted::row);
        Task.keepAges();
    }

    /** Whether the environment names a collector. */
    public static boolean isOn() {
        return Traced.isOn();
    }

    /** The file of a class by its package, as files of two packages may have one name. Null if the class does not say its file. */
    public static String fileOf(String type, String name) {
        return Site.fileOf(type.replace('/', '.'), name);
    }

    // What the agent asks for while it rewrites a class

    /** The number of a place that touches a field. */
    public static synchronized int placeOf(Field field, boolean writes, String file, int line, String function) {
        if (placeCount == places.length) {
            places = Arrays.copyOf(places, 2 * placeCount + 64);
        }
        places[placeCount] = new Place(field, writes, new Site(file, line, function));
        return placeCount++;
    }

    /** The number of a call of the JDK, and of what one of its objects is to it: OWNER, SUPER, GIVEN or LOOKED_INTO. */
    public static synchronized int useOf(String owner, String call, String role, boolean changes, String file, int line, String function) {
        if (useCount == uses.length) {
            uses = Arrays.copyOf(uses, 2 * useCount + 64);
        }
        int end = call.indexOf('(');
        uses[useCount] = new Use(owner, call.substring(0, end), call.substring(end), Use.Role.valueOf(role), changes, new Site(file, line, function));
        return useCount++;
    }

    /** The number of a class that has something to initialize. */
    public static synchronized int numberOf(Type type) {
        Type[] longer = Arrays.copyOf(types, types.length + 1);
        longer[types.length] = type;
        types = longer;
        return types.length - 1;
    }

    /** The number of a call that may have to be told as not followed. */
    public static synchronized int callOf(String what, String file, int line) {
        Call[] longer = Arrays.copyOf(calls, calls.length + 1);
        longer[calls.length] = new Call(what, new Site(file, line, ""));
        calls = longer;
        return calls.length - 1;
    }

    static Site siteOf(int call) {
        return calls[call].site;
    }

    /** Something is not looked into. */
    public static void passOver(String what, String file, int line) {
        if (Traced.isOn()) {
            Traced.tracer().passOver(what, new Site(file, line, ""));
        }
    }

    /** The program runs as it is. */
    public static void unwatched(String why) {
        if (Traced.isOn()) {
            Traced.tracer().miss("nothing of the program was watched: " + why);
        }
    }

    /** A class runs as it is. */
    public static void unwatched(String name, String why) {
        if (Traced.isOn()) {
            Traced.tracer().miss("class " + name + " was not watched: " + why);
        }
    }

    // Fields

    public static void touch(Object object, int number) {
        if (object != null) {
            Place place = places[number];
            Field field = place.field();
            ((Cell) field.type().cellOf(object, field)).touch(place);
        }
    }

    public static void touch(int number) {
        Place place = places[number];
        ((Cell) place.field().cell).touch(place);
    }

    private static VolatileCell volatileOf(Object object, Place place) {
        Field field = place.field();
        return (VolatileCell) (field.isStatic() ? field.cell : field.type().cellOf(object, field));
    }

    /** An access to a volatile field begins. It ends at once, as nothing stands between that throws if there is an object. */
    public static void begin(Object object, int number) {
        Place place = places[number];
        if (object != null || place.field().isStatic()) {
            VolatileCell cell = volatileOf(object, place);
            if (place.writes()) {
                cell.beginWrite(VOLATILE, place.site());
            } else {
                cell.begin();
            }
        }
    }

    public static void end(Object object, int number) {
        Place place = places[number];
        VolatileCell cell = volatileOf(object, place);
        if (place.writes()) {
            cell.end();
        } else {
            cell.endRead(place.site());
        }
    }

    public static void begin(int number) {
        begin(null, number);
    }

    public static void end(int number) {
        end(null, number);
    }

    // Arrays. What throws has touched nothing

    /** An element of an array is about to be read, or to be written. */
    public static void element(Object array, int index, int number) {
        if (array != null) {
            Wholes.touchElement(array, index, uses[number]);
        }
    }

    /** The same of an array of objects, which may be none for this one. */
    public static void store(Object[] array, int index, Object value, int number) {
        if (array != null && (value == null || array.getClass().getComponentType().isInstance(value))) {
            Wholes.touchElement(array, index, uses[number]);
        }
    }

    public static void all(Object array, int number) {
        if (array != null) {
            Wholes.touchRange(array, 0, Wholes.lengthOf(array), uses[number], true);
        }
    }

    public static void range(Object array, int from, int to, int number) {
        if (array != null) {
            Wholes.touchRange(array, from, to, uses[number], true);
        }
    }

    /** The elements from one on, and as many of them as there are. */
    public static void rangeUpTo(Object array, int from, int to, int number) {
        if (array != null) {
            Wholes.touchRange(array, from, Math.min(to, Wholes.lengthOf(array)), uses[number], true);
        }
    }

    /** What System.arraycopy reads and writes, by the numbers of both. It may end early if not each element fits. */
    public static void copies(Object from, int begin, Object to, int place, int count, int reading, int writing) {
        boolean isRight = Wholes.canCopy(from, to) && count >= 0 && begin >= 0 && place >= 0;
        if (isRight && begin <= Wholes.lengthOf(from) - count && place <= Wholes.lengthOf(to) - count) {
            boolean isSure = Wholes.fits(from, to);
            Wholes.touchRange(from, begin, begin + count, uses[reading], isSure);
            Wholes.touchRange(to, place, place + count, uses[writing], isSure);
        }
    }

    // What is watched as a whole, or by its methods

    public static void whole(Object object, int number) {
        Wholes.touch(object, uses[number]);
    }

    /** An array or a collection is made. */
    public static void made(Object object, int number) {
        Wholes.made(object, uses[number]);
    }

    /** Whether a method of this name tells at its end what it has done. */
    public static boolean hasEnd(String method) {
        return Deed.hasEnd(method);
    }

    /** Gives what the end has to know. */
    public static int begins(Object object, int number) {
        return Wholes.begin(object, uses[number]);
    }

    public static void ends(Object given, Object object, Object key, int changes, int number) {
        Wholes.end(object, uses[number], new Touching.End(key, changes, given, 0));
    }

    public static void ends(int given, Object object, Object key, int changes, int number) {
        Wholes.end(object, uses[number], new Touching.End(key, changes, null, given));
    }

    /** The same of a call that is given the number of an element. */
    public static void endsAt(Object object, int index, int number) {
        Wholes.endAt(object, uses[number], index);
    }

    /** A method looks into each of what it is given. */
    public static void elements(Object[] array, int number) {
        if (Traced.isOn()) {
            Wholes.touchElements(array, uses[number]);
        }
    }

    public static void derive(Object given, Object shown) {
        Wholes.derive(given, shown, 0, false);
    }

    /** The same of a part of a list. */
    public static void deriveFrom(Object given, Object shown, int from) {
        Wholes.derive(given, shown, from, true);
    }

    /** The same of an entry that an iterator has given. What else it gives shows nothing. */
    public static void deriveEntry(Object given, Object shown) {
        if (given instanceof Map.Entry) {
            Wholes.derive(given, shown, 0, false);
        }
    }

    /** The same of what leaves out some elements. */
    public static void deriveSome(Object given, Object shown) {
        Wholes.derive(given, shown, 0, true);
    }

    // Classes

    public static void initialized(int type) {
        types[type].initialized();
    }

    public static void sees(int type) {
        types[type].seen();
    }

    /** What a class declares, without what the agent has added. */
    public static java.lang.reflect.Field[] declared(java.lang.reflect.Field[] fields) {
        for (java.lang.reflect.Field one : fields) {
            if (one.getName().equals(Type.CELLS)) {
                return Arrays.stream(fields).filter(field -> !field.getName().equals(Type.CELLS)).toArray(java.lang.reflect.Field[]::new);
            }
        }
        return fields;
    }

    /** The same of methods. */
    public static java.lang.reflect.Method[] declared(java.lang.reflect.Method[] methods) {
        boolean isPlain = Arrays.stream(methods).noneMatch(one -> one.getName().contains(OWN_METHOD));
        return isPlain ? methods : Arrays.stream(methods).filter(one -> !one.getName().contains(OWN_METHOD)).toArray(java.lang.reflect.Method[]::new);
    }

    // Monitors

    public static void entered(Object object) {
        Traced.monitorOf(object).enter();
    }

    public static void exiting(Object object) {
        Traced.monitorOf(object).close();
    }

    /** A class of the JDK has entered a monitor, maybe one of an object that the program uses. */
    public static void enteredKnown(Object object) {
        TracedMonitor known = Traced.isOn() ? Traced.knownMonitorOf(object) : null;
        if (known != null) {
            known.enter();
        }
    }

    public static void exitingKnown(Object object) {
        TracedMonitor known = Traced.isOn() ? Traced.knownMonitorOf(object) : null;
        if (known != null) {
            known.close();
        }
    }

    public static void await(Object object) throws InterruptedException {
        waitFor(object, 0, () -> object.wait());
    }

    public static void await(Object object, long milliseconds) throws InterruptedException {
        waitFor(object, milliseconds, () -> object.wait(milliseconds));
    }

    public static void await(Object object, long milliseconds, int nanoseconds) throws InterruptedException {
        boolean isRight = nanoseconds >= 0 && nanoseconds <= MOST_NANOSECONDS;
        long time = nanoseconds > 0 && milliseconds < Long.MAX_VALUE ? milliseconds + 1 : milliseconds;
        waitFor(object, isRight ? time : -1, () -> object.wait(milliseconds, nanoseconds));
    }

    /** A wait as the program has it. */
    private interface Wait {
        void run() throws InterruptedException;
    }

    /** Waits, or throws what is wrong. */
    private static void waitFor(Object object, long milliseconds, Wait plain) throws InterruptedException {
        try {
            if (milliseconds < 0 || !Thread.holdsLock(object)) {
                plain.run();
            } else {
                Traced.monitorOf(object).await(milliseconds);
            }
        } catch (InterruptedException | RuntimeException thrown) {
            strip(thrown);
            throw thrown;
        }
    }

    /** The same as if the program had called the JDK by itself. */
    static void strip(Throwable thrown) {
        thrown.setStackTrace(
                Arrays.stream(thrown.getStackTrace()).filter(frame -> !frame.getClassName().startsWith(FRAMES)).toArray(StackTraceElement[]::new));
    }

    // Threads

    public static void threadStarts(Thread thread) {
        boolean isOther = thread.getClass().getName().startsWith("jdk.internal.") || thread.getName().startsWith("itctrace ");
        if (Traced.isOn() && !isOther && thread.getState() == Thread.State.NEW) {
            Traced.starts(thread, Traced.site());
        }
    }

    public static void threadEnds(Thread thread) {
        if (Traced.isOn()) {
            Trusting.end(Traced.own(), true);
            Traced.ends(thread);
        }
    }

    /** This thread may have waited for the end of the other one. */
    public static void threadJoined(Thread thread) {
        if (Traced.isOn() && !thread.isAlive()) {
            Traced.join(Traced.started(thread), Traced.site());
        }
    }

    public static boolean isAlive(Thread thread, boolean isAlive) {
        if (!isAlive) {
            threadJoined(thread);
        }
        return isAlive;
    }

    public static void interrupts(Thread thread) {
        if (Traced.isOn()) {
            Traced.before(thread);
        }
    }

    /** Whether this thread was interrupted. */
    public static boolean interrupted(boolean isInterrupted) {
        return isInterrupted(Thread.currentThread(), isInterrupted);
    }

    public static boolean isInterrupted(Thread thread, boolean isInterrupted) {
        return takesIf(isInterrupted, thread);
    }

    /** A handler of this thread has caught what may tell that it was interrupted. */
    public static void caught(Object thrown) {
        if (thrown instanceof InterruptedException) {
            Traced.after(Thread.currentThread());
        }
    }

    /** What stands for the permit of each thread. */
    private static final Keyed<Object> PERMITS = new Keyed<>();

    public static void unparks(Object thread) {
        if (thread != null && Traced.isOn()) {
            Traced.before(PERMITS.of(thread, Object::new));
        }
    }

    /** Whoever has given this thread its permit by now has done so before. */
    public static void parked() {
        Object permit = Traced.isOn() ? PERMITS.known(Thread.currentThread()) : null;
        if (permit != null) {
            Traced.after(permit);
        }
    }

    // Orders of the JDK that an object gives

    public static void gives(Object token) {
        if (token != null) {
            Traced.before(token);
        }
    }

    public static void takes(Object token) {
        if (token != null) {
            Traced.after(token);
        }
    }

    /** The call has seen what another thread has done, if it says so. */
    public static boolean takesIf(boolean isSeen, Object token) {
        if (isSeen) {
            takes(token);
        }
        return isSeen;
    }

    /** What a future has, if it has it. */
    public static Object seesResult(Object future, Object result) {
        takesIf(result != null, future);
        return result;
    }

    /** What a task of a fork-join pool says of itself. It is below zero once it is over. */
    public static int seesStatus(Object task, int status) {
        takesIf(status < 0, task);
        return status;
    }

    public static int waited(int status, Object task) {
        return seesStatus(task, status);
    }

    /** For how many parts a task waits. This thread may be about to count one of them, or has seen the last. */
    public static int seesPending(Object task, int pending) {
        gives(task);
        takesIf(pending == 0, task);
        return pending;
    }

    public static long takesIfZero(long count, Object token) {
        takesIf(count == 0, token);
        return count;
    }

    // Executors

    public static void submitted(ThreadPoolExecutor executor, Runnable job) {
        if (job == null || !Traced.isOn()) {
            return;
        }
        if (isSequential(executor)) {
            Traced.before(job);
            return;
        }
        Deque<Task> tasks = JOBS.of(job, ArrayDeque::new);
        Task task = Traced.spawn("job", Traced.site());
        if (task != null) {
            synchronized (tasks) {
                tasks.add(task);
            }
        }
    }

    /** Whether one thread does all jobs. A queue without a limit never has the executor start more threads than its core. */
    private static boolean isSequential(ThreadPoolExecutor executor) {
        boolean isUnlimited = executor instanceof ScheduledThreadPoolExecutor || executor.getQueue().remainingCapacity() > Integer.MAX_VALUE / 2;
        return executor.getMaximumPoolSize() == 1 || isUnlimited && executor.getCorePoolSize() <= 1;
    }

    /** This thread uses a variable that it has for itself alone. */
    public static void local(Object variable) {
        if (variable != null && Traced.isOn()) {
            Traced.own().usesLocal(variable);
        }
    }

    public static void jobBegins(Runnable job) {
        if (Traced.isOn()) {
            Task task = taskOf(job);
            if (task != null) {
                Traced.before(job); // What the executor does in this thread before a job.
            }
            Traced.own().beginJob(task);
            Traced.after(job);
        }
    }

    /** Whether an executor has got the job, and no thread does it yet. */
    static boolean isSubmitted(Runnable job) {
        Deque<Task> tasks = JOBS.known(job);
        if (tasks == null) {
            return false;
        }
        synchronized (tasks) {
            return !tasks.isEmpty();
        }
    }

    private static Task taskOf(Runnable job) {
        Deque<Task> tasks = JOBS.known(job);
        if (tasks == null) {
            return null;
        }
        synchronized (tasks) {
            return tasks.poll();
        }
    }

    public static void jobEnds(Object executor) {
        if (Traced.isOn() && Traced.own().isInJob()) {
            Trusting.end(Traced.own(), true);
            Traced.before(executor);
            Traced.own().endJob();
        }
    }

    // Locks

    private static ReportingLock followed(Lock lock) {
        if (lock instanceof ReentrantLock) {
            return LOCKS.of(lock, () -> new TracedLock(new ReentrantLock()));
        }
        ReportingLock known = lock == null ? null : SIDES.known(lock);
        Object whole = known == null ? Whole.of(lock) : null;
        return whole == null ? known : SIDES.of(lock, () -> new FollowedSide(orderOf(whole), Whole.isOfWriters(lock)));
    }

    /** The order of a lock for readers and writers. */
    static ReadWriteOrder orderOf(Object whole) {
        return ORDERS.of(whole, ReadWriteOrder::new);
    }

    /** A thread that only tries has not waited for the lock. */
    private static boolean acquired(Lock lock, boolean isAcquired, boolean hasWaited) {
        ReportingLock followed = isAcquired ? followed(lock) : null;
        if (followed != null) {
            followed.acquired(hasWaited);
        }
        return isAcquired;
    }

    public static void lock(Lock lock) {
        try {
            lock.lock();
        } catch (RuntimeException | Error thrown) {
            strip(thrown);
            throw thrown;
        }
        acquired(lock, true, true);
    }

    public static void lockInterruptibly(Lock lock) throws InterruptedException {
        try {
            lock.lockInterruptibly();
        } catch (RuntimeException | Error | InterruptedException thrown) {
            strip(thrown);
            throw thrown;
        }
        acquired(lock, true, true);
    }

    public static boolean tryLock(Lock lock) {
        try {
            return acquired(lock, lock.tryLock(), false);
        } catch (RuntimeException | Error thrown) {
            strip(thrown);
            throw thrown;
        }
    }

    public static boolean tryLock(Lock lock, long time, TimeUnit unit) throws InterruptedException {
        try {
            return acquired(lock, lock.tryLock(time, unit), false);
        } catch (RuntimeException | Error | InterruptedException thrown) {
            strip(thrown);
            throw thrown;
        }
    }

    public static void unlock(Lock lock) {
        try {
            ReportingLock followed = followed(lock);
            if (followed != null) {
                followed.releasing(false);
            }
            lock.unlock();
        } catch (RuntimeException | Error thrown) {
            strip(thrown);
            throw thrown;
        }
    }

    public static Condition newCondition(Lock lock) {
        try {
            Condition condition = lock.newCondition();
            ReportingLock followed = followed(lock);
            if (followed != null) {
                followed.becomeGuard();
                CONDITIONS.of(condition, () -> followed);
            } else if (isUnfollowed(lock)) {
                Shared shared = sharedOf(lock);
                SHARED.of(condition, () -> shared);
            }
            return condition;
        } catch (RuntimeException | Error thrown) {
            strip(thrown);
            throw thrown;
        }
    }

    private static Runnable lend(Condition condition) {
        ReportingLock followed = condition == null ? null : CONDITIONS.known(condition);
        Shared shared = condition == null || !Traced.isOn() ? null : SHARED.known(condition);
        if (shared != null) {
            shared.order();
            return shared::order;
        }
        return followed == null ? () -> {} : followed.lend();
    }

    public static void await(Condition condition) throws InterruptedException {
        Runnable again = lend(condition);
        try {
            condition.await();
        } catch (RuntimeException | Error | InterruptedException thrown) {
            strip(thrown);
            throw thrown;
        } finally {
            again.run();
        }
    }

    public static void awaitUninterruptibly(Condition condition) {
        Runnable again = lend(condition);
        try {
            condition.awaitUninterruptibly();
        } catch (RuntimeException | Error thrown) {
            strip(thrown);
            throw thrown;
        } finally {
            again.run();
        }
    }

    public static boolean await(Condition condition, long time, TimeUnit unit) throws InterruptedException {
        Runnable again = lend(condition);
        try {
            return condition.await(time, unit);
        } catch (RuntimeException | Error | InterruptedException thrown) {
            strip(thrown);
            throw thrown;
        } finally {
            again.run();
        }
    }

    public static long awaitNanos(Condition condition, long time) throws InterruptedException {
        Runnable again = lend(condition);
        try {
            return condition.awaitNanos(time);
        } catch (RuntimeException | Error | InterruptedException thrown) {
            strip(thrown);
            throw thrown;
        } finally {
            again.run();
        }
    }

    public static boolean awaitUntil(Condition condition, Date deadline) throws InterruptedException {
        Runnable again = lend(condition);
        try {
            return condition.awaitUntil(deadline);
        } catch (RuntimeException | Error | InterruptedException thrown) {
            strip(thrown);
            throw thrown;
        } finally {
            again.run();
        }
    }

    // Atomics: each access and its report are one

    public static void beginAtomic(Object atomic) {
        if (atomic != null) {
            ATOMICS.of(atomic, VolatileCell::new).begin();
        }
    }

    public static void endAtomicRead(Object atomic) {
        ATOMICS.of(atomic, VolatileCell::new).endRead(Traced.site());
    }

    public static void endAtomicWrite(Object atomic) {
        ATOMICS.of(atomic, VolatileCell::new).endWrite(ATOMIC, Traced.site());
    }

    public static boolean endAtomicTry(boolean isChanged, Object atomic) {
        if (isChanged) {
            endAtomicChange(atomic);
        } else {
            endAtomicRead(atomic);
        }
        return isChanged;
    }

    /** What is done with the atomic from here on comes after all that was done with it before, and the other way round. */
    public static void orderAtomic(Object atomic) {
        if (atomic != null) {
            beginAtomic(atomic);
            endAtomicChange(atomic);
        }
    }

    public static void endAtomicChange(Object atomic) {
        ATOMICS.of(atomic, VolatileCell::new).endChange(ATOMIC, Traced.site());
    }

    // What is not followed exactly

    /** Such a call orders all that is done by the same object. It is told once two tasks use that. */
    public static void calling(Object object, int call) {
        if (object == null || !Traced.isOn()) {
            return;
        }
        How how = HOW.get(object.getClass());
        if (how == How.UNFOLLOWED) {
            Shared shared = sharedOf(object);
            if (shared.isUsedBySeveral(Traced.own().task())) {
                calls[call].tell();
            }
            shared.order();
        } else if (how == How.BY_MONITOR) {
            Object mutex = Mutexes.of(object);
            Traced.monitorOf(mutex);
            boolean isShared = sharedOf(object).isUsedBySeveral(Traced.own().task());
            if (isShared && Mutexes.isUnguarded(object, calls[call].what) && !Thread.holdsLock(mutex)) {
                calls[call].tell();
            }
        }
    }

    public static void called(Object object, int call) {
        if (Traced.isOn() && isUnfollowed(object)) {
            sharedOf(object).order();
        }
    }

    /** What a call has given may be a part of the object, as the lock of its readers is. */
    public static void part(Object given, Object object) {
        if (given != null && given != object && Traced.isOn() && isPart(given, object)) {
            Shared shared = sharedOf(object);
            SHARED.of(given, () -> shared);
        }
    }

    private static boolean isPart(Object given, Object object) {
        return isUnfollowed(object) && (given instanceof Condition || isUnfollowed(given));
    }

    private static Shared sharedOf(Object object) {
        return SHARED.of(object, Shared::new);
    }

    /** An object that orders what its users do, in a way that is not followed exactly. */
    private static final class Shared {
        private final Object token = new Object();
        private Task user;
        private volatile boolean isUsedBySeveral;

        synchronized boolean isUsedBySeveral(Task task) {
            user = user == null ? task : user;
            isUsedBySeveral |= user != task;
            return isUsedBySeveral;
        }

        void order() {
            Traced.after(token);
            Traced.before(token);
        }
    }

    /** A function that an object calls while it has others wait, or once it has seen what they did. */
    private record Ordered(Object object) {
        <T> T of(Supplier<T> body) {
            order();
            try {
                return body.get();
            } catch (RuntimeException | Error thrown) {
                strip(thrown);
                throw thrown;
            } finally {
                order();
            }
        }

        private void order() {
            if (isAtomic(object)) {
                orderAtomic(object);
            } else {
                sharedOf(object).order();
            }
        }
    }

    private static Ordered orderedBy(Object object) {
        boolean isOrdering = object != null && Traced.isOn() && (isUnfollowed(object) || isAtomic(object));
        return isOrdering ? new Ordered(object) : null;
    }

    private static boolean isAtomic(Object object) {
        return object instanceof AtomicReference;
    }

    public static <T, R> Function<T, R> ordered(Function<T, R> function, Object object) {
        Ordered by = orderedBy(object);
        return by == null || function == null ? function : given -> by.of(() -> function.apply(given));
    }

    public static <T, U, R> BiFunction<T, U, R> ordered(BiFunction<T, U, R> function, Object object) {
        Ordered by = orderedBy(object);
        return by == null || function == null ? function : (given, other) -> by.of(() -> function.apply(given, other));
    }

    public static <T> UnaryOperator<T> orderedSame(UnaryOperator<T> function, Object object) {
        Ordered by = orderedBy(object);
        return by == null || function == null ? function : given -> by.of(() -> function.apply(given));
    }

    public static <T> BinaryOperator<T> orderedSame(BinaryOperator<T> function, Object object) {
        Ordered by = orderedBy(object);
        return by == null || function == null ? function : (given, other) -> by.of(() -> function.apply(given, other));
    }

    /** A method of the JDK that is called by reflection has no hook. It is told if it is of an object that is looked at. */
    public static void invokes(java.lang.reflect.Method method, Object object, Object[] given, int call) {
        if (method != null && Traced.isOn() && Kinds.isOfJdk(method.getDeclaringClass())) {
            boolean isOfSome = isLookedAt(object) || given != null && Arrays.stream(given).anyMatch(Watched::isLookedAt);
            if (isOfSome) {
                calls[call].tell();
            }
        }
    }

    private static boolean isLookedAt(Object object) {
        return object != null
                && (Kinds.of(object).isLookedAt() || isUnfollowed(object) || object.getClass().getName().startsWith(CONCURRENT));
    }

    /** A handle of a method is looked for, by its class, by the method, or for an object. */
    public static void finds(Object of, int call) {
        Class<?> type = of instanceof Class<?> one ? one : of instanceof java.lang.reflect.Method method ? method.getDeclaringClass() : null;
        boolean isOfSome =
                type == null
                        ? isLookedAt(of)
                        : Kinds.isOfJdk(type)
                                && type != Object.class
                                && (type.getName().startsWith(CONCURRENT) || !Kinds.isSurelySafe(type.getName()) || type.getName().startsWith("java.util."));
        if (isOfSome && Traced.isOn()) {
            calls[call].tell();
        }
    }

    // Processes

    /** This thread starts a process. Nobody looks at what that one does. */
    public static void startsProcess(ProcessBuilder builder) {
        if (Traced.isOn() && !builder.command().isEmpty()) {
            String command = builder.command().get(0);
            String name = command.substring(command.lastIndexOf('/') + 1);
            Site site = Traced.site();
            if (name.equals("java") || name.equals("java.exe")) {
                Traced.tracer().missChild("a child process was not traced: " + name + ", which was started at " + site);
            } else {
                Traced.tracer().passOver("child process " + name, site);
            }
        }
    }

    // Copies

    /** This thread has copied an object of the program, field by field. What is known of the fields stays with the first one. */
    public static Object cloned(Object copy, Object object, int number) {
        Type.cloned(copy, object, places[number]);
        return copy;
    }

    /** This call is told, whatever it is done with. */
    public static void passes(int call) {
        calls[call].tell();
    }

    private static boolean isUnfollowed(Class<?> type) {
        if (EXACT.stream().anyMatch(one -> one.isAssignableFrom(type)) || Entries.isOfThose(type)) {
            return false;
        }
        for (Class<?> one = type; one != null; one = one.getSuperclass()) {
            String name = one.getName();
            String outer = name.substring(0, Math.max(name.indexOf('$'), 0));
            if (one == Properties.class) {
                return true;
            }
            if (FOLLOWED.contains(one) || REWRITTEN.contains(name) || REWRITTEN.contains(outer) || name.startsWith("java.util.concurrent.Executors$") || Throwable.class == one) {
                return false;
            }
            if (name.equals(CONCURRENT + "locks.AbstractQueuedSynchronizer$ConditionObject")
                    || name.equals(CONCURRENT + "ThreadLocalRandom")) {
                return false;
            }
            if (name.startsWith(CONCURRENT)
                    || name.startsWith("java.util.Collections$Synchronized")
                    || name.equals("java.util.Vector")
                    || name.equals("java.util.Hashtable")
                    || name.equals("java.lang.StringBuffer")
                    || name.equals("java.lang.invoke.VarHandle")) {
                return true;
            }
        }
        return false;
    }
}
