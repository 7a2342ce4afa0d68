package example.hometturi.itctrace.agent;

import java.lang.instrument.ClassFileTransformer;
import java.security.ProtectionDomain;
import java.util.ArrayList;
import java.util.List;
import java.util.Timer;
import java.util.concurrent.CountDownLatch;
import java.util.concurrent.FutureTask;
import java.util.concurrent.ScheduledThreadPoolExecutor;
import java.util.concurrent.Semaphore;
import java.util.concurrent.ThreadPoolExecutor;
import org.objectweb.asm.ClassReader;
import org.objectweb.asm.ClassWriter;
import org.objectweb.asm.Opcodes;
import org.objectweb.asm.tree.AbstractInsnNode;
import org.objectweb.asm.tree.ClassNode;
import org.objectweb.asm.tree.InsnList;
import org.objectweb.asm.tree.InsnNode;
import org.objectweb.asm.tree.MethodInsnNode;
import org.objectweb.asm.tree.MethodNode;
import org.objectweb.asm.tree.VarInsnNode;

/** Has the classes of the JDK that start threads, do jobs and let others wait tell of it, whoever calls them. */
final class OfTheJdk implements ClassFileTransformer {
    static final List<Class<?>> CLASSES =
            List.of(
                    Thread.class,
                    ThreadPoolExecutor.class,
                    ScheduledThreadPoolExecutor.class,
                    FutureTask.class,
                    CountDownLatch.class,
                    Semaphore.class,
                    Timer.class,
                    ProcessBuilder.class,
                    classNamed("java.util.TimerThread"));

    private static final String HOOKS = "example/hometturi/itctrace/Watched";
    private static final String OF_ANY = "(Ljava/lang/Object;)V";
    private static final String OF_A_THREAD = "(Ljava/lang/Thread;)V";

    private static Class<?> classNamed(String name) {
        try {
            return Class.forName(name);
        } catch (ClassNotFoundException missing) {
            return Timer.class;
        }
    }

    /** A method, and what stands in front of its first instruction, or of each return. */
    private record Put(String type, String method, boolean isAtEnd, int local, String hook, String descriptor) {
        boolean isFor(String name, MethodNode one) {
            return type.equals(name) && method.equals(one.name + one.desc);
        }
    }

    private static final List<Put> PUTS =
            List.of(
                    first("java/lang/Thread", "start()V", "threadStarts", OF_A_THREAD, 0),
                    first("java/lang/Thread", "exit()V", "threadEnds", OF_A_THREAD, 0),
                    last("java/lang/Thread", "join(J)V", "threadJoined", OF_A_THREAD),
                    first("java/lang/Thread", "interrupt()V", "interrupts", OF_A_THREAD, 0),
                    first(
                            "java/util/concurrent/ThreadPoolExecutor",
                            "execute(Ljava/lang/Runnable;)V",
                            "submitted",
                            "(Ljava/util/concurrent/ThreadPoolExecutor;Ljava/lang/Runnable;)V",
                            1),
                    last("java/util/concurrent/ThreadPoolExecutor", "awaitTermination(JLjava/util/concurrent/TimeUnit;)Z", "takesIf", null),
                    last("java/util/concurrent/ThreadPoolExecutor", "isTerminated()Z", "takesIf", null),
                    first(
                            "java/util/concurrent/ScheduledThreadPoolExecutor",
                            "delayedExecute(Ljava/util/concurrent/RunnableScheduledFuture;)V",
                            "submitted",
                            "(Ljava/util/concurrent/ThreadPoolExecutor;Ljava/lang/Runnable;)V",
                            1),
                    first(
                            "java/util/concurrent/ScheduledThreadPoolExecutor",
                            "reExecutePeriodic(Ljava/util/concurrent/RunnableScheduledFuture;)V",
                            "submitted",
                            "(Ljava/util/concurrent/ThreadPoolExecutor;Ljava/lang/Runnable;)V",
                            1),
                    first("java/util/concurrent/FutureTask", "set(Ljava/lang/Object;)V", "gives", OF_ANY, 0),
                    first("java/util/concurrent/FutureTask", "setException(Ljava/lang/Throwable;)V", "gives", OF_ANY, 0),
                    first("java/util/concurrent/FutureTask", "cancel(Z)Z", "gives", OF_ANY, 0),
                    first("java/util/concurrent/FutureTask", "report(I)Ljava/lang/Object;", "takes", OF_ANY, 0),
                    last("java/util/concurrent/FutureTask", "isDone()Z", "takesIf", null),
                    first("java/util/concurrent/CountDownLatch", "countDown()V", "gives", OF_ANY, 0),
                    last("java/util/concurrent/CountDownLatch", "await()V", "takes", OF_ANY),
                    last("java/util/concurrent/CountDownLatch", "await(JLjava/util/concurrent/TimeUnit;)Z", "takesIf", null),
                    last("java/util/concurrent/CountDownLatch", "getCount()J", "takesIfZero", null),
                    first("java/util/concurrent/Semaphore", "release()V", "gives", OF_ANY, 0),
                    first("java/util/concurrent/Semaphore", "release(I)V", "gives", OF_ANY, 0),
                    last("java/util/concurrent/Semaphore", "acquire()V", "takes", OF_ANY),
                    last("java/util/concurrent/Semaphore", "acquire(I)V", "takes", OF_ANY),
                    last("java/util/concurrent/Semaphore", "acquireUninterruptibly()V", "takes", OF_ANY),
                    last("java/util/concurrent/Semaphore", "acquireUninterruptibly(I)V", "takes", OF_ANY),
                    last("java/util/concurrent/Semaphore", "tryAcquire()Z", "takesIf", null),
                    last("java/util/concurrent/Semaphore", "tryAcquire(I)Z", "takesIf", null),
                    last("java/util/concurrent/Semaphore", "tryAcquire(JLjava/util/concurrent/TimeUnit;)Z", "takesIf", null),
                    last("java/util/concurrent/Semaphore", "tryAcquire(IJLjava/util/concurrent/TimeUnit;)Z", "takesIf", null),
                    first(
                            "java/lang/ProcessBuilder",
                            "start([Ljava/lang/ProcessBuilder$Redirect;)Ljava/lang/Process;",
                            "startsProcess",
                            "(Ljava/lang/ProcessBuilder;)V",
                            0),
                    first("java/util/Timer", "sched(Ljava/util/TimerTask;JJ)V", "gives", OF_ANY, 1));

    private static Put first(String type, String method, String hook, String descriptor, int local) {
        return new Put(type, method, false, local, hook, descriptor);
    }

    private static Put last(String type, String method, String hook, String descriptor) {
        return new Put(type, method, true, 0, hook, descriptor);
    }

    @Override
    public byte[] transform(ClassLoader loader, String name, Class<?> before, ProtectionDomain domain, byte[] bytes) {
        if (before == null || !CLASSES.contains(before)) {
            return null;
        }
        try {
            return rewritten(name, bytes);
        } catch (RuntimeException failure) {
            Agent.unfollowed(name.replace('/', '.'), failure);
            return null;
        }
    }

    private static byte[] rewritten(String name, byte[] bytes) {
        ClassReader reader = new ClassReader(bytes);
        ClassNode node = new ClassNode();
        reader.accept(node, 0);
        for (Put put : PUTS) {
            if (put.type.equals(name)) {
                MethodNode method =
                        node.methods.stream()
                                .filter(one -> put.isFor(name, one))
                                .findFirst()
                                .orElseThrow(() -> new IllegalStateException("it has no " + put.method));
                put(put, method);
            }
        }
        for (MethodNode method : node.methods) {
            if (method.name.equals("runWorker")) {
                putAroundJobs(method);
            } else if (name.equals("java/util/TimerThread") && method.name.equals("mainLoop")) {
                putBeforeTimerTasks(method);
            }
        }
        ClassWriter writer = new ClassWriter(reader, ClassWriter.COMPUTE_MAXS);
        node.accept(writer);
        return writer.toByteArray();
    }

    private static void put(Put put, MethodNode method) {
        if (!put.isAtEnd) {
            method.instructions.insert(callOf(put));
            return;
        }
        for (AbstractInsnNode one : method.instructions.toArray()) {
            int code = one.getOpcode();
            if (code >= Opcodes.IRETURN && code <= Opcodes.RETURN) {
                method.instructions.insertBefore(one, callOf(put));
            }
        }
    }

    private static InsnList callOf(Put put) {
        InsnList call = new InsnList();
        String descriptor = put.descriptor;
        if (descriptor == null) {
            descriptor = put.hook.equals("takesIf") ? "(ZLjava/lang/Object;)Z" : "(JLjava/lang/Object;)J";
        }
        call.add(new VarInsnNode(Opcodes.ALOAD, 0));
        if (put.local > 0 && descriptor.equals(OF_ANY)) {
            call.set(call.getFirst(), new VarInsnNode(Opcodes.ALOAD, put.local));
        } else if (put.local > 0) {
            call.add(new VarInsnNode(Opcodes.ALOAD, put.local));
        }
        call.add(new MethodInsnNode(Opcodes.INVOKESTATIC, HOOKS, put.hook, descriptor, false));
        return call;
    }

    /** A worker of an executor does jobs. It unlocks itself behind each of them. */
    private static void putAroundJobs(MethodNode method) {
        for (AbstractInsnNode one : method.instructions.toArray()) {
            if (one instanceof MethodInsnNode call && call.name.equals("run") && call.owner.equals("java/lang/Runnable")) {
                method.instructions.insertBefore(one, new InsnNode(Opcodes.DUP));
                method.instructions.insertBefore(
                        one, new MethodInsnNode(Opcodes.INVOKESTATIC, HOOKS, "jobBegins", "(Ljava/lang/Runnable;)V", false));
            } else if (one instanceof MethodInsnNode call && call.name.equals("unlock")) {
                method.instructions.insertBefore(one, new VarInsnNode(Opcodes.ALOAD, 0));
                method.instructions.insertBefore(one, new MethodInsnNode(Opcodes.INVOKESTATIC, HOOKS, "jobEnds", OF_ANY, false));
            }
        }
    }

    private static void putBeforeTimerTasks(MethodNode method) {
        for (AbstractInsnNode one : method.instructions.toArray()) {
            if (one instanceof MethodInsnNode call && call.name.equals("run") && call.owner.equals("java/util/TimerTask")) {
                method.instructions.insertBefore(one, new InsnNode(Opcodes.DUP));
                method.instructions.insertBefore(one, new MethodInsnNode(Opcodes.INVOKESTATIC, HOOKS, "takes", OF_ANY, false));
            }
        }
    }
}
