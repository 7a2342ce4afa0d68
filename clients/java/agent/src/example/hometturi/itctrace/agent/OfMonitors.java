package example.hometturi.itctrace.agent;

import static example.hometturi.itctrace.agent.Rewriter.listOf;

import example.hometturi.itctrace.Watched;
import java.lang.instrument.ClassFileTransformer;
import java.security.ProtectionDomain;
import java.util.Set;
import org.objectweb.asm.ClassReader;
import org.objectweb.asm.ClassWriter;
import org.objectweb.asm.Opcodes;
import org.objectweb.asm.tree.AbstractInsnNode;
import org.objectweb.asm.tree.ClassNode;
import org.objectweb.asm.tree.FrameNode;
import org.objectweb.asm.tree.InsnList;
import org.objectweb.asm.tree.InsnNode;
import org.objectweb.asm.tree.LabelNode;
import org.objectweb.asm.tree.MethodInsnNode;
import org.objectweb.asm.tree.MethodNode;
import org.objectweb.asm.tree.TryCatchBlockNode;
import org.objectweb.asm.tree.VarInsnNode;

/** Has the classes of the JDK that guard themselves by a monitor tell of it, for objects that the program uses. */
final class OfMonitors implements ClassFileTransformer {
    private static final Set<String> CLASSES =
            Set.of("java/util/Vector", "java/util/Stack", "java/util/Hashtable", "java/lang/StringBuffer");
    private static final String SYNCHRONIZED = "java/util/Collections$Synchronized";
    private static final String THROWABLE = "java/lang/Throwable";

    static boolean isOfThese(String name) {
        int end = name.indexOf('$');
        return name.startsWith(SYNCHRONIZED) || CLASSES.contains(end < 0 ? name : name.substring(0, end));
    }

    @Override
    public byte[] transform(ClassLoader loader, String name, Class<?> before, ProtectionDomain domain, byte[] bytes) {
        if (loader != null || name == null || !isOfThese(name)) {
            return null;
        }
        try {
            return rewritten(bytes);
        } catch (RuntimeException failure) {
            String outer = name.startsWith(SYNCHRONIZED) ? "java/util/Collections" : name;
            Watched.unfollowed(outer.replace('/', '.'));
            return null;
        }
    }

    private static byte[] rewritten(byte[] bytes) {
        ClassReader reader = new ClassReader(bytes);
        ClassNode node = new ClassNode();
        reader.accept(node, 0);
        for (MethodNode method : node.methods) {
            for (AbstractInsnNode one : method.instructions.toArray()) {
                if (one.getOpcode() == Opcodes.MONITORENTER) {
                    method.instructions.insertBefore(one, new InsnNode(Opcodes.DUP));
                    method.instructions.insert(one, hook("enteredKnown"));
                } else if (one.getOpcode() == Opcodes.MONITOREXIT) {
                    method.instructions.insertBefore(one, listOf(new InsnNode(Opcodes.DUP), hook("exitingKnown")));
                }
            }
            int flags = Opcodes.ACC_SYNCHRONIZED | Opcodes.ACC_STATIC;
            if ((method.access & flags) == Opcodes.ACC_SYNCHRONIZED) {
                putAround(node.name, method);
            }
        }
        ClassWriter writer = new ClassWriter(reader, ClassWriter.COMPUTE_MAXS);
        node.accept(writer);
        return writer.toByteArray();
    }

    private static MethodInsnNode hook(String name) {
        return Rewriter.hook(name, "(Ljava/lang/Object;)V");
    }

    private static VarInsnNode own() {
        return new VarInsnNode(Opcodes.ALOAD, 0);
    }

    private static void putAround(String owner, MethodNode method) {
        InsnList code = method.instructions;
        for (AbstractInsnNode one : code.toArray()) {
            if (one.getOpcode() >= Opcodes.IRETURN && one.getOpcode() <= Opcodes.RETURN) {
                code.insertBefore(one, listOf(own(), hook("exitingKnown")));
            }
        }
        LabelNode begin = new LabelNode();
        LabelNode end = new LabelNode();
        code.insert(listOf(own(), hook("enteredKnown"), begin));
        code.add(end);
        code.add(new FrameNode(Opcodes.F_FULL, 1, new Object[] {owner}, 1, new Object[] {THROWABLE}));
        code.add(listOf(own(), hook("exitingKnown"), new InsnNode(Opcodes.ATHROW)));
        method.tryCatchBlocks.add(new TryCatchBlockNode(begin, end, end, null));
    }
}
