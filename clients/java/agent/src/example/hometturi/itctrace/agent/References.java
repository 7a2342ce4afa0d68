package example.hometturi.itctrace.agent;

import static example.hometturi.itctrace.agent.Rewriter.listOf;

import example.hometturi.itctrace.Watched;
import java.util.function.Consumer;
import org.objectweb.asm.Handle;
import org.objectweb.asm.Opcodes;
import org.objectweb.asm.Type;
import org.objectweb.asm.tree.ClassNode;
import org.objectweb.asm.tree.InsnNode;
import org.objectweb.asm.tree.InvokeDynamicInsnNode;
import org.objectweb.asm.tree.LabelNode;
import org.objectweb.asm.tree.LineNumberNode;
import org.objectweb.asm.tree.MethodInsnNode;
import org.objectweb.asm.tree.MethodNode;
import org.objectweb.asm.tree.TypeInsnNode;
import org.objectweb.asm.tree.VarInsnNode;

/** Gives a method of the JDK that is handed on by its name, as in {@code map::put}, a method of the program that calls it, with hooks. */
final class References {
    private static final String FACTORY = "java/lang/invoke/LambdaMetafactory";
    private static final int SERIALIZABLE = 1;
    private static final int FLAGS = 3;

    private final ClassNode node;
    private final MethodNode method;
    private final Calls calls;
    private final Consumer<MethodNode> rewriting;

    References(ClassNode node, MethodNode method, Calls calls, Consumer<MethodNode> rewriting) {
        this.node = node;
        this.method = method;
        this.calls = calls;
        this.rewriting = rewriting;
    }

    /** Whether the method has a method of its own from now on. */
    boolean rewrite(InvokeDynamicInsnNode call, int line) {
        boolean isOfFactory = call.bsm.getOwner().equals(FACTORY) && call.bsmArgs[1] instanceof Handle;
        if (!isOfFactory || isSerializable(call)) {
            return false;
        }
        Handle handle = (Handle) call.bsmArgs[1];
        int tag = handle.getTag();
        if (tag < Opcodes.H_INVOKEVIRTUAL || tag == Opcodes.H_INVOKESPECIAL || !calls.wantsHooks(handle)) {
            return false;
        }
        MethodNode made = methodOf(handle, call.desc, line);
        node.methods.add(made);
        call.bsmArgs[1] =
                new Handle(Opcodes.H_INVOKESTATIC, node.name, made.name, made.desc, (node.access & Opcodes.ACC_INTERFACE) != 0);
        rewriting.accept(made);
        return true;
    }

    private static boolean isSerializable(InvokeDynamicInsnNode call) {
        return call.bsm.getName().equals("altMetafactory") && ((Integer) call.bsmArgs[FLAGS] & SERIALIZABLE) != 0;
    }

    private MethodNode methodOf(Handle handle, String captured, int line) {
        boolean isMaking = handle.getTag() == Opcodes.H_NEWINVOKESPECIAL;
        Type owner = Type.getObjectType(handle.getOwner());
        Type result = isMaking ? owner : Type.getReturnType(handle.getDesc());
        Type[] given = givenTo(handle, captured);
        int access = Opcodes.ACC_PRIVATE | Opcodes.ACC_STATIC | Opcodes.ACC_SYNTHETIC;
        String name = "lambda$" + method.name.replaceAll("[<>]", "") + Watched.OWN_METHOD + node.methods.size();
        MethodNode made = new MethodNode(access, name, Type.getMethodDescriptor(result, given), null, null);
        LabelNode begin = new LabelNode();
        made.instructions.add(listOf(begin, new LineNumberNode(line, begin)));
        if (isMaking) {
            made.instructions.add(listOf(new TypeInsnNode(Opcodes.NEW, handle.getOwner()), new InsnNode(Opcodes.DUP)));
        }
        int local = 0;
        for (Type one : given) {
            made.instructions.add(new VarInsnNode(one.getOpcode(Opcodes.ILOAD), local));
            local += one.getSize();
        }
        made.instructions.add(new MethodInsnNode(opcodeOf(handle), handle.getOwner(), handle.getName(), handle.getDesc(), handle.isInterface()));
        made.instructions.add(new InsnNode(result.getOpcode(Opcodes.IRETURN)));
        made.maxLocals = local;
        return made;
    }

    /** What the method gets: the object first, if it is one of an object. */
    private static Type[] givenTo(Handle handle, String captured) {
        Type[] given = Type.getArgumentTypes(handle.getDesc());
        if (handle.getTag() == Opcodes.H_INVOKESTATIC || handle.getTag() == Opcodes.H_NEWINVOKESPECIAL) {
            return given;
        }
        Type[] bound = Type.getArgumentTypes(captured);
        Type[] all = new Type[given.length + 1];
        all[0] = bound.length > 0 ? bound[0] : Type.getObjectType(handle.getOwner());
        System.arraycopy(given, 0, all, 1, given.length);
        return all;
    }

    private static int opcodeOf(Handle handle) {
        return switch (handle.getTag()) {
            case Opcodes.H_INVOKESTATIC -> Opcodes.INVOKESTATIC;
            case Opcodes.H_INVOKEINTERFACE -> Opcodes.INVOKEINTERFACE;
            case Opcodes.H_NEWINVOKESPECIAL -> Opcodes.INVOKESPECIAL;
            default -> Opcodes.INVOKEVIRTUAL;
        };
    }
}
