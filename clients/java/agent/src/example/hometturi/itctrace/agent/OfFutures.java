package example.hometturi.itctrace.agent;

import static example.hometturi.itctrace.agent.Rewriter.hook;
import static example.hometturi.itctrace.agent.Rewriter.listOf;

import java.lang.instrument.ClassFileTransformer;
import java.security.ProtectionDomain;
import java.util.ArrayList;
import java.util.List;
import java.util.Map;
import java.util.Set;
import java.util.concurrent.CompletableFuture;
import java.util.concurrent.CountedCompleter;
import java.util.concurrent.ForkJoinPool;
import java.util.concurrent.ForkJoinTask;
import org.objectweb.asm.ClassReader;
import org.objectweb.asm.ClassWriter;
import org.objectweb.asm.Opcodes;
import org.objectweb.asm.Type;
import org.objectweb.asm.tree.AbstractInsnNode;
import org.objectweb.asm.tree.ClassNode;
import org.objectweb.asm.tree.FieldInsnNode;
import org.objectweb.asm.tree.InsnNode;
import org.objectweb.asm.tree.MethodInsnNode;
import org.objectweb.asm.tree.MethodNode;
import org.objectweb.asm.tree.VarInsnNode;

/**
 * Has futures and the tasks of fork-join pools tell of their orders, whoever calls them: where their state is written, and where it is
 * read.
 */
final class OfFutures implements ClassFileTransformer {
    static final List<Class<?>> CLASSES = new ArrayList<>();

    static {
        CLASSES.addAll(List.of(CompletableFuture.class, ForkJoinTask.class, CountedCompleter.class, ForkJoinPool.class));
        CLASSES.addAll(List.of(CompletableFuture.class.getDeclaredClasses()));
    }

    private static final String CONCURRENT = "java/util/concurrent/";
    private static final String OF_ANY = "(Ljava/lang/Object;)V";
    private static final String FUTURE = CONCURRENT + "CompletableFuture";
    private static final String TASK = CONCURRENT + "ForkJoinTask";

    /** The methods that give an order at their beginning, and the local that has what it is given by. */
    private static final Map<String, Map<String, Integer>> GIVING =
            Map.of(
                    FUTURE,
                    Map.of("internalComplete", 0, "completeNull", 0, "completeValue", 0, "completeThrowable", 0, "completeRelay", 0),
                    TASK,
                    Map.of("fork", 0, "setDone", 0, "trySetThrown", 0, "trySetCancelled", 0),
                    CONCURRENT + "ForkJoinPool",
                    Map.of("externalPush", 1, "externalSubmit", 1));

    /** The hooks behind a read of a field, by its class and name: they get the object and the value, and give the value. */
    private static final Map<String, String> READ =
            Map.of(
                    FUTURE + ".result", "seesResult(Ljava/lang/Object;Ljava/lang/Object;)Ljava/lang/Object;",
                    TASK + ".status", "seesStatus(Ljava/lang/Object;I)I",
                    CONCURRENT + "CountedCompleter.pending", "seesPending(Ljava/lang/Object;I)I");

    /** What goes from one stage to the next, and is none of them. */
    private static final Set<String> GOING_ON = Set.of("postFire", "postComplete", "cleanStack");

    private static final Set<String> INVOKING = Set.of("invoke", "invokeAll", "quietlyInvoke");
    private static final String POOL = CONCURRENT + "ForkJoinPool";
    private static final Set<String> ENDING =
            Set.of(
                    "awaitTermination(JLjava/util/concurrent/TimeUnit;)Z", "awaitQuiescence(JLjava/util/concurrent/TimeUnit;)Z",
                    "isTerminated()Z", "isQuiescent()Z");
    private static final String COMPLETION = FUTURE + "$UniCompletion";
    private static final String OF_A_STAGE = "(Ljava/lang/Object;I)V";

    private static final Set<String> WAITING = Set.of("awaitDone(Ljava/util/concurrent/ForkJoinPool;ZZZJ)I");

    @Override
    public byte[] transform(ClassLoader loader, String name, Class<?> before, ProtectionDomain domain, byte[] bytes) {
        if (before == null || !CLASSES.contains(before)) {
            return null;
        }
        try {
            return rewritten(name, bytes);
        } catch (RuntimeException failure) {
            Agent.unfollowed(name.replace('/', '.'), failure);
            return null;
        }
    }

    private static byte[] rewritten(String name, byte[] bytes) {
        ClassReader reader = new ClassReader(bytes);
        ClassNode node = new ClassNode();
        reader.accept(node, 0);
        Map<String, Integer> giving = GIVING.getOrDefault(name, Map.of());
        for (String due : giving.keySet()) {
            if (node.methods.stream().noneMatch(method -> method.name.equals(due))) {
                throw new IllegalStateException("it has no method " + due);
            }
        }
        for (MethodNode method : node.methods) {
            for (AbstractInsnNode one : method.instructions.toArray()) {
                if (one instanceof FieldInsnNode access && !GOING_ON.contains(method.name)) {
                    rewriteAccess(method, access);
                } else if (one.getOpcode() == Opcodes.IRETURN && WAITING.contains(method.name + method.desc)) {
                    method.instructions.insertBefore(
                            one, listOf(new VarInsnNode(Opcodes.ALOAD, 0), hook("waited", "(ILjava/lang/Object;)I")));
                }
            }
            Integer local = giving.get(method.name);
            if (local != null && (method.access & Opcodes.ACC_STATIC) == 0) {
                method.instructions.insert(listOf(new VarInsnNode(Opcodes.ALOAD, local), hook("gives", OF_ANY)));
            }
            if (name.equals(TASK)) {
                rewriteJob(method);
            }
            rewriteStage(name, method);
            if (name.equals(POOL) && ENDING.contains(method.name + method.desc)) {
                putBehindEnd(method);
            }
        }
        ClassWriter writer = new ClassWriter(reader, ClassWriter.COMPUTE_MAXS);
        node.accept(writer);
        return writer.toByteArray();
    }

    private static void rewriteAccess(MethodNode method, FieldInsnNode access) {
        String reading = READ.get(access.owner + "." + access.name);
        if (reading != null && access.getOpcode() == Opcodes.GETFIELD) {
            method.instructions.insertBefore(access, new InsnNode(Opcodes.DUP));
            int end = reading.indexOf('(');
            method.instructions.insert(access, hook(reading.substring(0, end), reading.substring(end)));
        } else if (access.getOpcode() == Opcodes.PUTFIELD && (access.owner + "." + access.name).equals(FUTURE + ".result")) {
            method.instructions.insertBefore(access, listOf(new InsnNode(Opcodes.DUP2), new InsnNode(Opcodes.POP), hook("gives", OF_ANY)));
        }
    }

    /** Who has seen that a pool is over comes after its jobs. */
    private static void putBehindEnd(MethodNode method) {
        for (AbstractInsnNode one : method.instructions.toArray()) {
            if (one.getOpcode() == Opcodes.IRETURN) {
                method.instructions.insertBefore(one, listOf(own(), hook("takesIf", "(ZLjava/lang/Object;)Z")));
            }
        }
    }

    private static MethodInsnNode jobHook(String name, String descriptor) {
        return new MethodInsnNode(Opcodes.INVOKESTATIC, "example/hometturi/itctrace/Jobs", name, descriptor, false);
    }

    private static VarInsnNode own() {
        return new VarInsnNode(Opcodes.ALOAD, 0);
    }

    /** A job is done by the thread that has it, or by one that waits for it. Then that one comes before it, and behind it. */
    private static void rewriteJob(MethodNode method) {
        boolean isDoing = method.name.equals("doExec");
        for (AbstractInsnNode one : method.instructions.toArray()) {
            if (isDoing && one.getOpcode() == Opcodes.IRETURN) {
                method.instructions.insertBefore(one, listOf(own(), jobHook("ends", OF_ANY)));
            } else if (INVOKING.contains(method.name) && one instanceof MethodInsnNode call && call.name.equals("doExec")) {
                int job = method.maxLocals++;
                method.instructions.insertBefore(
                        one, listOf(new InsnNode(Opcodes.DUP), new VarInsnNode(Opcodes.ASTORE, job), new InsnNode(Opcodes.DUP), hook("gives", OF_ANY)));
                method.instructions.insert(one, listOf(new VarInsnNode(Opcodes.ALOAD, job), hook("waited", "(ILjava/lang/Object;)I")));
            }
        }
        if (isDoing) {
            method.instructions.insert(listOf(own(), jobHook("begins", OF_ANY)));
        }
    }

    /** The function of a stage is called by the stage itself, or by a method of its future that gets it. */
    private static void rewriteStage(String name, MethodNode method) {
        boolean isFiring = method.name.equals("tryFire");
        int local = isFiring ? 0 : stageOf(name, method);
        for (AbstractInsnNode one : method.instructions.toArray()) {
            if (local >= 0 && one instanceof MethodInsnNode call && isFunction(call)) {
                AbstractInsnNode mode = isFiring ? new VarInsnNode(Opcodes.ILOAD, 1) : new InsnNode(Opcodes.ICONST_0);
                method.instructions.insertBefore(one, listOf(new VarInsnNode(Opcodes.ALOAD, local), mode, jobHook("stageBegins", OF_A_STAGE)));
            } else if (isFiring && (one.getOpcode() == Opcodes.ARETURN || one instanceof MethodInsnNode call && call.name.equals("postFire"))) {
                method.instructions.insertBefore(one, listOf(own(), jobHook("ends", OF_ANY)));
            }
        }
        if (isFiring && (method.access & Opcodes.ACC_ABSTRACT) == 0) {
            method.instructions.insert(listOf(own(), hook("takes", OF_ANY)));
        } else if (name.equals(COMPLETION) && method.name.equals("<init>")) {
            for (AbstractInsnNode one : method.instructions.toArray()) {
                if (one.getOpcode() == Opcodes.RETURN) {
                    method.instructions.insertBefore(one, listOf(own(), hook("gives", OF_ANY)));
                }
            }
        }
    }

    private static boolean isFunction(MethodInsnNode call) {
        return call.getOpcode() == Opcodes.INVOKEINTERFACE
                && (call.owner.startsWith("java/util/function/") || call.owner.equals("java/lang/Runnable"));
    }

    /** The local of the stage that a method of a future gets. Below zero if it gets none. */
    private static int stageOf(String name, MethodNode method) {
        int local = (method.access & Opcodes.ACC_STATIC) != 0 ? 0 : 1;
        for (Type given : Type.getArgumentTypes(method.desc)) {
            if (name.equals(FUTURE) && given.getDescriptor().matches("L" + FUTURE + "[$](Uni|Bi|Or)\\w+;")) {
                return local;
            }
            local += given.getSize();
        }
        return -1;
    }
}
