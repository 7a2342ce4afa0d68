package example.hometturi.itctrace.agent;

import static example.hometturi.itctrace.agent.Rewriter.listOf;

import example.hometturi.itctrace.Tests;
import java.lang.instrument.ClassFileTransformer;
import java.security.ProtectionDomain;
import org.objectweb.asm.ClassReader;
import org.objectweb.asm.ClassWriter;
import org.objectweb.asm.Opcodes;
import org.objectweb.asm.tree.AbstractInsnNode;
import org.objectweb.asm.tree.ClassNode;
import org.objectweb.asm.tree.FrameNode;
import org.objectweb.asm.tree.InsnList;
import org.objectweb.asm.tree.JumpInsnNode;
import org.objectweb.asm.tree.LabelNode;
import org.objectweb.asm.tree.MethodInsnNode;
import org.objectweb.asm.tree.MethodNode;
import org.objectweb.asm.tree.VarInsnNode;

/** Has the launcher of JUnit 5 tell where each test begins and ends, and take a race for a failure, whatever engine has it. */
final class OfTests implements ClassFileTransformer {
    private static final String ADAPTER = "org/junit/platform/launcher/core/ExecutionListenerAdapter";
    private static final String DESCRIPTOR = "org/junit/platform/engine/TestDescriptor";
    private static final String IDENTITY = "org/junit/platform/engine/UniqueId";
    private static final String RESULT = "org/junit/platform/engine/TestExecutionResult";
    private static final String HOOKS = "example/hometturi/itctrace/Tests";
    /** The variable behind those of the method. */
    private static final int RACE = 3;

    @Override
    public byte[] transform(ClassLoader loader, String name, Class<?> before, ProtectionDomain domain, byte[] bytes) {
        if (!ADAPTER.equals(name)) {
            return null;
        }
        try {
            byte[] rewritten = rewritten(bytes);
            Tests.begin();
            return rewritten;
        } catch (RuntimeException failure) {
            Agent.unwatched(name.replace('/', '.'), failure);
            return null;
        }
    }

    private static byte[] rewritten(byte[] bytes) {
        ClassReader reader = new ClassReader(bytes);
        ClassNode node = new ClassNode();
        reader.accept(node, 0);
        for (MethodNode method : node.methods) {
            if (method.name.equals("executionFinished")) {
                method.instructions.insert(ending());
            } else if (method.name.equals("executionStarted")) {
                for (AbstractInsnNode one : method.instructions.toArray()) {
                    if (one.getOpcode() == Opcodes.RETURN) {
                        method.instructions.insertBefore(one, call("begins", "V"));
                    }
                }
            }
        }
        ClassWriter writer = new ClassWriter(reader, ClassWriter.COMPUTE_MAXS);
        node.accept(writer);
        return writer.toByteArray();
    }

    /** Hands over whether it is a test and no group of tests, and its identity. */
    private static InsnList call(String hook, String given) {
        return listOf(
                new VarInsnNode(Opcodes.ALOAD, 1),
                new MethodInsnNode(Opcodes.INVOKEINTERFACE, DESCRIPTOR, "isTest", "()Z", true),
                new VarInsnNode(Opcodes.ALOAD, 1),
                new MethodInsnNode(Opcodes.INVOKEINTERFACE, DESCRIPTOR, "getUniqueId", "()L" + IDENTITY + ";", true),
                new MethodInsnNode(Opcodes.INVOKEVIRTUAL, IDENTITY, "toString", "()Ljava/lang/String;", false),
                new MethodInsnNode(Opcodes.INVOKESTATIC, HOOKS, hook, "(ZLjava/lang/String;)" + given, false));
    }

    /** The result is a failure if the test has met a race, and has thrown nothing itself. */
    private static InsnList ending() {
        LabelNode behind = new LabelNode();
        InsnList ending = call("ends", "Ljava/lang/Throwable;");
        ending.add(listOf(
                new VarInsnNode(Opcodes.ASTORE, RACE),
                new VarInsnNode(Opcodes.ALOAD, 2),
                new MethodInsnNode(Opcodes.INVOKEVIRTUAL, RESULT, "getThrowable", "()Ljava/util/Optional;", false),
                new VarInsnNode(Opcodes.ALOAD, RACE),
                new MethodInsnNode(Opcodes.INVOKESTATIC, HOOKS, "isFirst", "(Ljava/util/Optional;Ljava/lang/Throwable;)Z", false),
                new JumpInsnNode(Opcodes.IFEQ, behind),
                new VarInsnNode(Opcodes.ALOAD, RACE),
                new MethodInsnNode(Opcodes.INVOKESTATIC, RESULT, "failed", "(Ljava/lang/Throwable;)L" + RESULT + ";", false),
                new VarInsnNode(Opcodes.ASTORE, 2),
                behind,
                new FrameNode(Opcodes.F_SAME, 0, null, 0, null)));
        return ending;
    }
}
