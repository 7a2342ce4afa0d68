package example.hometturi.itctrace.agent;

import static example.hometturi.itctrace.agent.Rewriter.hook;
import static example.hometturi.itctrace.agent.Rewriter.listOf;

import example.hometturi.itctrace.Entries;
import example.hometturi.itctrace.Handles;
import example.hometturi.itctrace.Watched;
import java.util.Arrays;
import java.util.HashSet;
import java.util.List;
import java.util.Map;
import java.util.Set;
import org.objectweb.asm.Handle;
import org.objectweb.asm.Opcodes;
import org.objectweb.asm.Type;
import org.objectweb.asm.tree.AbstractInsnNode;
import org.objectweb.asm.tree.ClassNode;
import org.objectweb.asm.tree.InsnList;
import org.objectweb.asm.tree.InsnNode;
import org.objectweb.asm.tree.InvokeDynamicInsnNode;
import org.objectweb.asm.tree.LdcInsnNode;
import org.objectweb.asm.tree.MethodInsnNode;
import org.objectweb.asm.tree.MethodNode;
import org.objectweb.asm.tree.VarInsnNode;

/** Puts hooks where a method calls what the JDK has for threads. */
final class Calls {
    private static final String OBJECT = "Ljava/lang/Object;";
    private static final String OF_ANY = "(" + OBJECT + ")V";
    private static final Set<String> FUNCTIONS =
            Set.of(
                    "Ljava/util/function/Function;", "Ljava/util/function/BiFunction;", "Ljava/util/function/UnaryOperator;",
                    "Ljava/util/function/BinaryOperator;");
    private static final String CONCURRENT = "java/util/concurrent/";
    private static final String LOCK = CONCURRENT + "locks/Lock";
    private static final String REENTRANT = CONCURRENT + "locks/ReentrantLock";
    private static final String CONDITION = CONCURRENT + "locks/Condition";
    private static final String STAMPED = CONCURRENT + "locks/StampedLock";
    /** Those whose calls are those of any lock. */
    private static final Set<String> LOCKS =
            Set.of(REENTRANT, CONCURRENT + "locks/ReentrantReadWriteLock$ReadLock", CONCURRENT + "locks/ReentrantReadWriteLock$WriteLock");
    private static final String STAMPS = "example/hometturi/itctrace/Stamps";

    /** Calls in whose place stands another one, which takes the object first: by class, name and descriptor. */
    private static final Map<String, Set<String>> REPLACED =
            Map.of(
                    LOCK,
                    Set.of(
                            "lock()V",
                            "lockInterruptibly()V",
                            "tryLock()Z",
                            "tryLock(JLjava/util/concurrent/TimeUnit;)Z",
                            "unlock()V",
                            "newCondition()Ljava/util/concurrent/locks/Condition;"),
                    CONDITION,
                    Set.of(
                            "await()V",
                            "awaitUninterruptibly()V",
                            "await(JLjava/util/concurrent/TimeUnit;)Z",
                            "awaitNanos(J)J",
                            "awaitUntil(Ljava/util/Date;)Z"));

    private static final Set<String> OF_STAMPS =
            Set.of(
                    "writeLock", "tryWriteLock", "writeLockInterruptibly", "readLock", "tryReadLock", "readLockInterruptibly",
                    "tryOptimisticRead", "validate", "unlockWrite", "unlockRead", "unlock", "tryUnlockWrite", "tryUnlockRead",
                    "tryConvertToWriteLock", "tryConvertToReadLock", "tryConvertToOptimisticRead");

    private static final Set<String> WAITS = Set.of("wait()V", "wait(J)V", "wait(JI)V");
    private static final Set<String> ATOMICS = new HashSet<>();
    private static final Set<String> ATOMIC_ARRAYS = new HashSet<>();
    private static final Set<String> ADDERS = new HashSet<>();
    private static final Set<String> ADDING = Set.of("add", "increment", "decrement", "accumulate", "reset");
    private static final Set<String> ADDING_UP_AND_RESETTING = Set.of("sumThenReset", "getThenReset");
    private static final Set<String> ATOMIC_READS =
            Set.of("get", "getAcquire", "intValue", "longValue", "floatValue", "doubleValue", "getReference", "getStamp", "isMarked");
    private static final Set<String> ATOMIC_WRITES = Set.of("set", "lazySet", "setRelease");
    private static final Set<String> ATOMIC_TRIES =
            Set.of(
                    "compareAndSet", "weakCompareAndSet", "weakCompareAndSetVolatile", "weakCompareAndSetAcquire", "weakCompareAndSetRelease",
                    "attemptStamp", "attemptMark");
    private static final Set<String> ATOMIC_FUNCTIONS = Set.of("updateAndGet", "getAndUpdate", "accumulateAndGet", "getAndAccumulate", "toString");
    private static final Set<String> ATOMIC_UNORDERED = Set.of("getPlain", "getOpaque", "setPlain", "setOpaque", "weakCompareAndSetPlain");

    static {
        for (String name : List.of("Boolean", "Integer", "Long", "Reference", "StampedReference", "MarkableReference")) {
            ATOMICS.add(CONCURRENT + "atomic/Atomic" + name);
        }
        for (String name : List.of("Integer", "Long", "Reference")) {
            ATOMIC_ARRAYS.add(CONCURRENT + "atomic/Atomic" + name + "Array");
        }
        for (String name : List.of("LongAdder", "DoubleAdder", "LongAccumulator", "DoubleAccumulator")) {
            ADDERS.add(CONCURRENT + "atomic/" + name);
        }
    }

    /** Kinds of the library, of which some objects give an order. */
    private static final Set<String> MAYBE_CONCURRENT =
            Set.of(
                    "java/util/Map", "java/util/Collection", "java/util/List", "java/util/Set", "java/util/Queue", "java/util/Deque",
                    "java/util/SortedMap", "java/util/NavigableMap", "java/util/SortedSet", "java/util/NavigableSet", "java/util/Vector",
                    "java/util/Hashtable", "java/util/Stack", "java/util/Properties", "java/lang/StringBuffer");
    /** Of these some are concurrent maps and sets, of which each entry has an order of its own, or views of them. */
    private static final Set<String> OF_ENTRIES =
            Set.of(
                    "java/util/Map", "java/util/Collection", "java/util/Set", "java/util/SortedMap", "java/util/NavigableMap",
                    "java/util/SortedSet", "java/util/NavigableSet", CONCURRENT + "ConcurrentMap", CONCURRENT + "ConcurrentHashMap",
                    CONCURRENT + "ConcurrentHashMap$KeySetView", CONCURRENT + "ConcurrentNavigableMap", CONCURRENT + "ConcurrentSkipListMap",
                    CONCURRENT + "ConcurrentSkipListSet");
    /** What is of that package, and gives no order by itself. */
    private static final Set<String> HARMLESS =
            Set.of(
                    CONCURRENT + "Executors", CONCURRENT + "TimeUnit", CONCURRENT + "ThreadLocalRandom", CONCURRENT + "Callable",
                    CONCURRENT + "ThreadFactory", CONCURRENT + "locks/LockSupport");
    /** Calls that do something which no hook sees: what begins so. */
    private static final List<String> UNSEEN =
            List.of(
                    "java/lang/reflect/Field.get", "java/lang/reflect/Field.set",
                    "java/lang/invoke/MethodHandles.arrayElementGetter", "java/lang/invoke/MethodHandles.arrayElementSetter", "jdk/internal/misc/Unsafe.",
                    "sun/misc/Unsafe.",
                    "java/lang/Thread.startVirtualThread",
                    "java/lang/Thread.ofVirtual", CONCURRENT + "Executors.newVirtualThread",
                    "java/lang/invoke/MethodHandles$Lookup.findGetter", "java/lang/invoke/MethodHandles$Lookup.findSetter",
                    "java/lang/invoke/MethodHandles$Lookup.findStaticGetter", "java/lang/invoke/MethodHandles$Lookup.findStaticSetter",
                    "java/lang/invoke/MethodHandles$Lookup.unreflectGetter", "java/lang/invoke/MethodHandles$Lookup.unreflectSetter",
                    "java/lang/invoke/MethodHandles$Lookup.defineHiddenClass", "java/io/ObjectOutputStream.writeObject",
                    "java/io/ObjectOutputStream.defaultWriteObject", "java/io/ObjectOutputStream.writeUnshared",
                    "java/io/ObjectInputStream.readObject", "java/io/ObjectInputStream.defaultReadObject",
                    "java/io/ObjectInputStream.readUnshared");
    /** What gives a handle of a method. If that is one of the JDK, a call by it has no hook. */
    private static final Set<String> FINDING = Set.of("findVirtual", "findSpecial", "findStatic", "bind", "unreflect", "unreflectSpecial");
    /** What a VarHandle tells of itself. */
    private static final Set<String> ASKING_HANDLES =
            Set.of(
                    "isAccessModeSupported", "varType", "coordinateTypes", "accessModeType", "describeConstable", "hasInvokeExactBehavior",
                    "withInvokeBehavior", "withInvokeExactBehavior");
    private static final Set<String> OF_A_FIELD_HANDLE = Set.of("setAccessible", "getType", "getName", "getModifiers", "getAnnot", "getGenericType", "getDecl");

    private final Classes classes;
    private final ClassLoader loader;
    private final ClassNode node;
    private final MethodNode method;
    private final String function;
    private final InsnList code;

    Calls(Classes classes, ClassLoader loader, ClassNode node, MethodNode method, String function) {
        this.classes = classes;
        this.loader = loader;
        this.node = node;
        this.method = method;
        this.function = function;
        code = method.instructions;
    }

    /** The class of the JDK that the method is one of, or is above. Null if there is none but Object. */
    void rewrite(MethodInsnNode call, String owner, int line) {
        String named = call.name + call.desc;
        boolean isOnObject = call.getOpcode() == Opcodes.INVOKEVIRTUAL || call.getOpcode() == Opcodes.INVOKEINTERFACE;
        if (isOnObject && WAITS.contains(named)) {
            replace(call, "await", "Ljava/lang/Object;");
        } else if (owner == null || call.name.equals("<init>")) {
            return;
        } else if (isOnObject && owner.equals("java/lang/Class") && call.name.equals("getDeclaredFields")) {
            code.insert(call, hook("declared", "([Ljava/lang/reflect/Field;)[Ljava/lang/reflect/Field;"));
        } else if (isOnObject && owner.equals("java/lang/Class") && call.name.equals("getDeclaredMethods")) {
            code.insert(call, hook("declared", "([Ljava/lang/reflect/Method;)[Ljava/lang/reflect/Method;"));
        } else if (isOnObject && owner.equals("java/lang/Thread") && named.equals("isAlive()Z")) {
            code.insertBefore(call, new InsnNode(Opcodes.DUP));
            code.insert(call, hook("isAlive", "(Ljava/lang/Thread;Z)Z"));
        } else if (owner.equals("java/lang/Thread") && named.equals("isInterrupted()Z")) {
            code.insertBefore(call, new InsnNode(Opcodes.DUP));
            code.insert(call, hook("isInterrupted", "(Ljava/lang/Thread;Z)Z"));
        } else if (owner.equals("java/lang/Thread") && named.equals("interrupted()Z")) {
            code.insert(call, hook("interrupted", "(Z)Z"));
        } else if (isOnObject && owner.equals("java/lang/ThreadLocal")) {
            Kept kept = Kept.of(method, call, call.desc, true);
            code.insertBefore(call, listOf(kept.load(-1), hook("local", OF_ANY)));
        } else if (isUnseen(owner, call.name)) {
            pass(call, owner, call.name, line);
        } else if (isOnObject && Handles.isFollowed(owner, call.name) && call.owner.equals(owner)) {
            new HandleCalls(node, method, function).rewrite(call, owner, numberOf(owner, call.name, line), line);
        } else if (isOnObject && isOfField(owner) && !ASKING_HANDLES.contains(call.name)) {
            pass(call, owner, call.name, line);
            around(call, owner, line);
        } else if (isOnObject && owner.equals("java/lang/reflect/Method") && call.name.equals("invoke")) {
            Kept kept = Kept.of(method, call, call.desc, true);
            code.insertBefore(call, listOf(kept.load(-1), kept.load(0), kept.load(1), new LdcInsnNode(numberOf(owner, call.name, line))));
            code.insertBefore(call, hook("invokes", "(Ljava/lang/reflect/Method;" + OBJECT + "[" + OBJECT + "I)V"));
        } else if (isOnObject && owner.equals("java/lang/invoke/MethodHandles$Lookup") && FINDING.contains(call.name)) {
            Kept kept = Kept.of(method, call, call.desc, true);
            code.insertBefore(call, listOf(kept.load(0), new LdcInsnNode(numberOf(owner, call.name, line)), hook("finds", "(" + OBJECT + "I)V")));
        } else if (isOnObject && owner.equals("java/util/Iterator") && call.name.equals("next")) {
            Kept kept = Kept.of(method, call, call.desc, true);
            code.insert(call, listOf(kept.load(-1), entryHook("stepped", OF_ANY)));
        } else if (isOnObject && ATOMICS.contains(owner)) {
            rewriteAtomic(call, owner);
        } else if (isOnObject && ATOMIC_ARRAYS.contains(owner)) {
            rewriteAtomicArray(call);
        } else if (isOnObject && ADDERS.contains(owner)) {
            rewriteAdder(call);
        } else if (owner.equals(CONCURRENT + "locks/LockSupport") && call.name.equals("unpark")) {
            code.insertBefore(call, listOf(new InsnNode(Opcodes.DUP), hook("unparks", OF_ANY)));
        } else if (owner.equals(CONCURRENT + "locks/LockSupport") && call.name.startsWith("park")) {
            code.insert(call, hook("parked", "()V"));
        } else if (isOnObject && isConcurrent(owner)) {
            around(call, owner, line);
            String kind = LOCKS.contains(owner) ? LOCK : owner;
            if (REPLACED.getOrDefault(kind, Set.of()).contains(named)) {
                replace(call, call.name, "L" + kind + ";");
            } else if (owner.equals(STAMPED) && OF_STAMPS.contains(call.name)) {
                replace(call, call.name, "L" + STAMPED + ";");
                call.owner = STAMPS;
            }
        } else if (call.getOpcode() == Opcodes.INVOKESPECIAL && owner.startsWith(CONCURRENT)) {
            pass(call, owner, call.name, line);
        }
    }

    /** What touches a field of the program, or an element of an array, past its hooks. */
    private static boolean isOfField(String owner) {
        return owner.equals("java/lang/invoke/VarHandle") || owner.startsWith(CONCURRENT + "atomic/Atomic") && owner.endsWith("FieldUpdater");
    }

    private static boolean isConcurrent(String owner) {
        return owner.startsWith(CONCURRENT) && !HARMLESS.contains(owner) || MAYBE_CONCURRENT.contains(owner);
    }

    private static boolean isUnseen(String owner, String name) {
        String full = owner + "." + name;
        boolean isOfHandle = owner.equals("java/lang/reflect/Field") && OF_A_FIELD_HANDLE.stream().anyMatch(name::startsWith);
        return !isOfHandle && UNSEEN.stream().anyMatch(full::startsWith);
    }

    /** Whether a method of the JDK that is handed on by its name wants hooks. */
    boolean wantsHooks(Handle handle) {
        String owner = classes.ofTheJdk(loader, handle.getOwner());
        boolean isOfObject = handle.getTag() != Opcodes.H_INVOKESTATIC && handle.getTag() != Opcodes.H_NEWINVOKESPECIAL;
        if (isOfObject && WAITS.contains(handle.getName() + handle.getDesc())) {
            return true;
        }
        if (owner == null) {
            return isOfObject && handle.getOwner().equals("java/lang/Object");
        }
        if (owner.equals(CONCURRENT + "locks/LockSupport")) {
            return true;
        }
        boolean isConcurrent = owner.startsWith(CONCURRENT) && !HARMLESS.contains(owner) && !FOLLOWED_ANYWHERE.contains(owner);
        return isUnseen(owner, handle.getName())
                || isOfObject && (isConcurrent || MAYBE_CONCURRENT.contains(owner) || WholeCalls.isWhole(owner))
                || Arrays.stream(Type.getArgumentTypes(handle.getDesc())).anyMatch(type -> WholeCalls.isTouched(owner, handle.getName(), type.getDescriptor()));
    }

    /** A method of the JDK that is handed on by its name, and gets no method of its own that calls it. */
    void rewrite(InvokeDynamicInsnNode call, int line) {
        for (Object argument : call.bsmArgs) {
            if (argument instanceof Handle handle && handle.getTag() >= Opcodes.H_INVOKEVIRTUAL && wantsHooks(handle)) {
                pass(call, handle.getOwner(), handle.getName(), line);
            }
        }
    }

    /** Those whose own code has the hooks. */
    private static final Set<String> FOLLOWED_ANYWHERE =
            Set.of(
                    CONCURRENT + "CountDownLatch", CONCURRENT + "Semaphore", CONCURRENT + "FutureTask", CONCURRENT + "ThreadPoolExecutor",
                    CONCURRENT + "ScheduledThreadPoolExecutor");

    private int numberOf(String owner, String name, int line) {
        return Watched.callOf(owner.substring(owner.lastIndexOf('/') + 1).replace('$', '.') + "." + name, Watched.fileOf(node.name, node.sourceFile), line);
    }

    private void pass(AbstractInsnNode call, String owner, String name, int line) {
        code.insertBefore(call, new LdcInsnNode(numberOf(owner, name, line)));
        code.insertBefore(call, hook("passes", "(I)V"));
    }

    private void replace(MethodInsnNode call, String name, String taken) {
        call.setOpcode(Opcodes.INVOKESTATIC);
        call.owner = "example/hometturi/itctrace/Watched";
        call.name = name;
        call.desc = "(" + taken + call.desc.substring(1);
        call.itf = false;
    }

    private void around(MethodInsnNode call, String owner, int line) {
        int number = numberOf(owner, call.name, line);
        Kept kept = Kept.of(method, call, call.desc, true);
        code.insertBefore(call, listOf(kept.load(-1), new LdcInsnNode(number), hook("calling", "(" + OBJECT + "I)V")));
        wrapFunctions(call, kept);
        InsnList behind = listOf(kept.load(-1), new LdcInsnNode(number), hook("called", "(" + OBJECT + "I)V"));
        if (OF_ENTRIES.contains(owner)) {
            behind.insert(aroundEntry(call, kept, number));
        }
        if (Type.getReturnType(call.desc).getSort() == Type.OBJECT) {
            behind.add(listOf(new InsnNode(Opcodes.DUP), kept.load(-1), hook("part", "(" + OBJECT + OBJECT + ")V")));
        }
        code.insert(call, behind);
    }

    /** Puts hooks in front of a call of what may be a concurrent map, and gives those behind it. */
    private InsnList aroundEntry(MethodInsnNode call, Kept kept, int number) {
        Entries.Does does = Entries.Does.of(call.name);
        boolean hasKey = kept.count() > 0 && kept.descriptor(0).equals(OBJECT);
        int going = method.maxLocals++;
        code.insertBefore(call, listOf(kept.load(-1), does.isOfKey() && hasKey ? kept.load(0) : new InsnNode(Opcodes.ACONST_NULL)));
        code.insertBefore(call, listOf(new LdcInsnNode(does.ordinal()), new LdcInsnNode(number)));
        code.insertBefore(call, listOf(entryHook("calling", "(" + OBJECT + OBJECT + "II)" + OBJECT), new VarInsnNode(Opcodes.ASTORE, going)));
        boolean hasFunction = false;
        for (int place = 0; place < kept.count(); place++) {
            String descriptor = kept.descriptor(place);
            if (descriptor.endsWith("/Function;") || descriptor.endsWith("/BiFunction;")) {
                hasFunction = true;
                code.insertBefore(call, listOf(kept.load(place), new VarInsnNode(Opcodes.ALOAD, going)));
                code.insertBefore(call, listOf(entryHook("ordered", "(" + descriptor + OBJECT + ")" + descriptor), kept.store(place)));
            }
        }
        if (hasFunction) {
            kept.pushAgain(method, call);
        }
        String result = Type.getReturnType(call.desc).getDescriptor();
        String taken = result.startsWith("L") || result.startsWith("[") ? OBJECT : result.equals("Z") ? "Z" : "";
        InsnList behind = listOf(new VarInsnNode(Opcodes.ALOAD, going), entryHook("called", "(" + taken + OBJECT + ")V"));
        if (!taken.isEmpty()) {
            behind.insert(new InsnNode(Opcodes.DUP));
        }
        return behind;
    }

    private static MethodInsnNode entryHook(String name, String descriptor) {
        return new MethodInsnNode(Opcodes.INVOKESTATIC, "example/hometturi/itctrace/Entries", name, descriptor, false);
    }

    /** A function that the object calls comes after what others have done with the object. */
    private void wrapFunctions(MethodInsnNode call, Kept kept) {
        for (int place = 0; place < kept.count(); place++) {
            String descriptor = kept.descriptor(place);
            if (FUNCTIONS.contains(descriptor)) {
                code.insertBefore(
                        call,
                        listOf(
                                kept.load(place),
                                kept.load(-1),
                                hook(descriptor.endsWith("Operator;") ? "orderedSame" : "ordered", "(" + descriptor + OBJECT + ")" + descriptor),
                                kept.store(place)));
            }
        }
        if (Arrays.stream(Type.getArgumentTypes(call.desc)).anyMatch(type -> FUNCTIONS.contains(type.getDescriptor()))) {
            kept.pushAgain(method, call);
        }
    }

    private void rewriteAtomic(MethodInsnNode call, String owner) {
        if (ATOMIC_UNORDERED.contains(call.name)) {
            return;
        }
        boolean isFunction = ATOMIC_FUNCTIONS.contains(call.name) || !call.owner.equals(owner); // It may run code of the program.
        Kept kept = Kept.of(method, call, call.desc, true);
        code.insertBefore(call, listOf(kept.load(-1), hook(isFunction ? "orderAtomic" : "beginAtomic", OF_ANY)));
        if (isFunction) {
            wrapFunctions(call, kept);
        }
        InsnList behind = listOf(kept.load(-1));
        if (ATOMIC_TRIES.contains(call.name)) {
            behind.add(hook("endAtomicTry", "(Z" + OBJECT + ")Z"));
        } else {
            behind.add(hook(isFunction ? "orderAtomic" : endOf(call.name), OF_ANY));
        }
        code.insert(call, behind);
    }

    /** The same of an element. The index is in the first local. */
    private void rewriteAtomicArray(MethodInsnNode call) {
        boolean hasIndex = call.desc.startsWith("(I");
        if (ATOMIC_UNORDERED.contains(call.name) || !hasIndex && !call.name.equals("toString")) {
            return;
        }
        boolean isFunction = ATOMIC_FUNCTIONS.contains(call.name) || !hasIndex;
        Kept kept = Kept.of(method, call, call.desc, true);
        InsnList element = listOf(kept.load(-1), hasIndex ? kept.load(0) : new InsnNode(Opcodes.ICONST_M1));
        element.add(elementHook(isFunction ? "order" : "begin", "(" + OBJECT + "I)V"));
        code.insertBefore(call, element);
        InsnList behind = listOf(kept.load(-1), hasIndex ? kept.load(0) : new InsnNode(Opcodes.ICONST_M1));
        if (ATOMIC_TRIES.contains(call.name)) {
            behind.add(elementHook("endTry", "(Z" + OBJECT + "I)Z"));
        } else {
            String end = endOf(call.name).substring("endAtomic".length());
            behind.add(elementHook(isFunction ? "order" : "end" + end, "(" + OBJECT + "I)V"));
        }
        code.insert(call, behind);
    }

    private static MethodInsnNode elementHook(String name, String descriptor) {
        return new MethodInsnNode(Opcodes.INVOKESTATIC, "example/hometturi/itctrace/AtomicElements", name, descriptor, false);
    }

    /** Who sees a sum comes after those who have added to it. They do not come after one another. */
    private void rewriteAdder(MethodInsnNode call) {
        Kept kept = Kept.of(method, call, call.desc, true);
        boolean isBoth = ADDING_UP_AND_RESETTING.contains(call.name);
        if (ADDING.contains(call.name) || isBoth) {
            code.insertBefore(call, listOf(kept.load(-1), hook("gives", OF_ANY)));
        }
        if (!ADDING.contains(call.name)) {
            code.insert(call, listOf(kept.load(-1), hook("takes", OF_ANY)));
        }
    }

    private static String endOf(String name) {
        if (ATOMIC_READS.contains(name)) {
            return "endAtomicRead";
        }
        return ATOMIC_WRITES.contains(name) ? "endAtomicWrite" : "endAtomicChange";
    }
}
