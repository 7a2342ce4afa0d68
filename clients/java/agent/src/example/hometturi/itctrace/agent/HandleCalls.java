package example.hometturi.itctrace.agent;

import static example.hometturi.itctrace.agent.Rewriter.listOf;

import example.hometturi.itctrace.Handles;
import example.hometturi.itctrace.Watched;
import java.util.ArrayList;
import java.util.List;
import org.objectweb.asm.Opcodes;
import org.objectweb.asm.Type;
import org.objectweb.asm.tree.AbstractInsnNode;
import org.objectweb.asm.tree.ClassNode;
import org.objectweb.asm.tree.FrameNode;
import org.objectweb.asm.tree.InsnList;
import org.objectweb.asm.tree.InsnNode;
import org.objectweb.asm.tree.LabelNode;
import org.objectweb.asm.tree.LdcInsnNode;
import org.objectweb.asm.tree.LineNumberNode;
import org.objectweb.asm.tree.MethodInsnNode;
import org.objectweb.asm.tree.MethodNode;
import org.objectweb.asm.tree.TryCatchBlockNode;
import org.objectweb.asm.tree.VarInsnNode;

/** Has a call of a VarHandle or of an updater made by a method of its own, which tells where it begins and how it ends. */
final class HandleCalls {
    private static final String OBJECT = "Ljava/lang/Object;";
    private static final String THROWABLE = "java/lang/Throwable";

    private final ClassNode node;
    private final MethodNode method;
    private final String function;

    HandleCalls(ClassNode node, MethodNode method, String function) {
        this.node = node;
        this.method = method;
        this.function = function;
    }

    /** By this number the call is told if its handle is not followed. */
    void rewrite(MethodInsnNode call, String owner, int unfollowed, int line) {
        int number = Handles.callOf(owner, call.name, unfollowed, Watched.fileOf(node.name, node.sourceFile), line, function);
        MethodNode made = methodOf(call, number, line);
        node.methods.add(made);
        call.setOpcode(Opcodes.INVOKESTATIC);
        call.owner = node.name;
        call.name = made.name;
        call.desc = made.desc;
        call.itf = (node.access & Opcodes.ACC_INTERFACE) != 0;
    }

    private MethodNode methodOf(MethodInsnNode call, int number, int line) {
        List<Type> given = new ArrayList<>(List.of(Type.getObjectType(call.owner)));
        given.addAll(List.of(Type.getArgumentTypes(call.desc)));
        Type result = Type.getReturnType(call.desc);
        String name = "lambda$" + method.name.replaceAll("[<>]", "") + Watched.OWN_METHOD + node.methods.size();
        int access = Opcodes.ACC_PRIVATE | Opcodes.ACC_STATIC | Opcodes.ACC_SYNTHETIC;
        MethodNode made = new MethodNode(access, name, Type.getMethodDescriptor(result, given.toArray(new Type[0])), null, null);
        int[] locals = localsOf(given);
        int begun = locals[given.size()];
        made.maxLocals = begun + 1;
        LabelNode first = new LabelNode();
        LabelNode begin = new LabelNode();
        LabelNode end = new LabelNode();
        LabelNode handler = new LabelNode();
        made.tryCatchBlocks.add(new TryCatchBlockNode(begin, end, handler, THROWABLE));
        InsnList code = made.instructions;
        code.add(listOf(first, new LineNumberNode(line, first), load(given, locals, 0), object(given, locals), index(given, locals)));
        code.add(listOf(new LdcInsnNode(number), hook("begin", "(" + OBJECT + OBJECT + "II)" + OBJECT), new VarInsnNode(Opcodes.ASTORE, begun), begin));
        for (int place = 0; place < given.size(); place++) {
            code.add(load(given, locals, place));
        }
        code.add(listOf(new MethodInsnNode(Opcodes.INVOKEVIRTUAL, call.owner, call.name, call.desc, false), end));
        code.add(behind(call, begun));
        code.add(listOf(new InsnNode(result.getOpcode(Opcodes.IRETURN)), handler, frame(given), new VarInsnNode(Opcodes.ALOAD, begun)));
        code.add(listOf(hook("failed", "(L" + THROWABLE + ";" + OBJECT + ")L" + THROWABLE + ";"), new InsnNode(Opcodes.ATHROW)));
        return made;
    }

    /** The local of each argument, and the first one behind them. */
    private static int[] localsOf(List<Type> given) {
        int[] locals = new int[given.size() + 1];
        for (int place = 0; place < given.size(); place++) {
            locals[place + 1] = locals[place] + given.get(place).getSize();
        }
        return locals;
    }

    private static VarInsnNode load(List<Type> given, int[] locals, int place) {
        return new VarInsnNode(given.get(place).getOpcode(Opcodes.ILOAD), locals[place]);
    }

    /** The object or the array that has the variable. */
    private static AbstractInsnNode object(List<Type> given, int[] locals) {
        boolean isObject = given.size() > 1 && given.get(1).getSort() >= Type.ARRAY;
        return isObject ? load(given, locals, 1) : new InsnNode(Opcodes.ACONST_NULL);
    }

    /** The number that an element has. */
    private static AbstractInsnNode index(List<Type> given, int[] locals) {
        boolean isNumber = given.size() > 2 && List.of(Type.INT_TYPE, Type.SHORT_TYPE, Type.BYTE_TYPE, Type.CHAR_TYPE).contains(given.get(2));
        return isNumber ? load(given, locals, 2) : new InsnNode(Opcodes.ICONST_M1);
    }

    private static InsnList behind(MethodInsnNode call, int begun) {
        boolean mayFail = call.desc.endsWith(")Z") && Handles.mayFail(call.owner, call.name);
        InsnList behind = listOf(new VarInsnNode(Opcodes.ALOAD, begun), hook(mayFail ? "endTry" : "end", mayFail ? "(Z" + OBJECT + ")V" : "(" + OBJECT + ")V"));
        if (mayFail) {
            behind.insert(new InsnNode(Opcodes.DUP));
        }
        return behind;
    }

    /** What stands in the locals where the call has thrown. */
    private static FrameNode frame(List<Type> given) {
        List<Object> locals = new ArrayList<>();
        for (Type one : given) {
            locals.add(
                    switch (one.getSort()) {
                        case Type.LONG -> Opcodes.LONG;
                        case Type.DOUBLE -> Opcodes.DOUBLE;
                        case Type.FLOAT -> Opcodes.FLOAT;
                        case Type.ARRAY, Type.OBJECT -> one.getInternalName();
                        default -> Opcodes.INTEGER;
                    });
        }
        locals.add("java/lang/Object");
        return new FrameNode(Opcodes.F_FULL, locals.size(), locals.toArray(), 1, new Object[] {THROWABLE});
    }

    private static MethodInsnNode hook(String name, String descriptor) {
        return new MethodInsnNode(Opcodes.INVOKESTATIC, "example/hometturi/itctrace/Handles", name, descriptor, false);
    }
}
