package example.hometturi.itctrace;

import java.util.HashMap;
import java.util.List;
import java.util.Map;

/**
 * How a call of a VarHandle or of an updater accesses its variable. A plain one is as one without a handle. What takes an order comes after
 * what has given it.
 */
record Mode(boolean reads, boolean writes, boolean isPlain, boolean takes, boolean gives, boolean mayFail) {
    private static final String HANDLE = "java/lang/invoke/VarHandle";
    private static final Mode READ = new Mode(true, false, false, true, false, false);
    private static final Mode WRITE = new Mode(false, true, false, false, true, false);
    private static final Mode CHANGE = new Mode(true, true, false, true, true, false);
    private static final Mode TRY = new Mode(true, true, false, true, true, true);

    private static final Map<String, Mode> OF_HANDLES = new HashMap<>();
    private static final Map<String, Mode> OF_UPDATERS = new HashMap<>();

    static {
        OF_HANDLES.put("get", new Mode(true, false, true, false, false, false));
        OF_HANDLES.put("set", new Mode(false, true, true, false, false, false));
        OF_HANDLES.put("getOpaque", new Mode(true, false, false, false, false, false));
        OF_HANDLES.put("setOpaque", new Mode(false, true, false, false, false, false));
        OF_HANDLES.put("getVolatile", READ);
        OF_HANDLES.put("getAcquire", READ);
        OF_HANDLES.put("setVolatile", WRITE);
        OF_HANDLES.put("setRelease", WRITE);
        OF_HANDLES.put("compareAndSet", TRY);
        OF_HANDLES.put("weakCompareAndSet", TRY);
        OF_HANDLES.put("weakCompareAndSetAcquire", new Mode(true, true, false, true, false, true));
        OF_HANDLES.put("weakCompareAndSetRelease", new Mode(true, true, false, false, true, true));
        OF_HANDLES.put("weakCompareAndSetPlain", new Mode(true, true, false, false, false, true));
        for (String name : List.of("getAndSet", "getAndAdd", "getAndBitwiseOr", "getAndBitwiseAnd", "getAndBitwiseXor")) {
            OF_HANDLES.put(name, CHANGE);
            OF_HANDLES.put(name + "Acquire", new Mode(true, true, false, true, false, false));
            OF_HANDLES.put(name + "Release", new Mode(true, true, false, false, true, false));
        }
        OF_UPDATERS.put("get", READ);
        OF_UPDATERS.put("set", WRITE);
        OF_UPDATERS.put("lazySet", WRITE);
        OF_UPDATERS.put("compareAndSet", TRY);
        OF_UPDATERS.put("weakCompareAndSet", TRY);
        List<String> changes =
                List.of(
                        "getAndSet", "getAndAdd", "addAndGet", "getAndIncrement", "incrementAndGet", "getAndDecrement", "decrementAndGet");
        changes.forEach(name -> OF_UPDATERS.put(name, CHANGE));
    }

    /** That of a method of this class of the JDK. Null if it is not followed. */
    static Mode of(String owner, String name) {
        boolean isOfField = owner.startsWith("java/util/concurrent/atomic/Atomic") && owner.endsWith("FieldUpdater");
        return owner.equals(HANDLE) ? OF_HANDLES.get(name) : isOfField ? OF_UPDATERS.get(name) : null;
    }
}
