package example.hometturi.itctrace.agent;

import static example.hometturi.itctrace.agent.Rewriter.hook;
import static example.hometturi.itctrace.agent.Rewriter.listOf;

import example.hometturi.itctrace.Watched;
import java.util.Set;
import org.objectweb.asm.Opcodes;
import org.objectweb.asm.Type;
import org.objectweb.asm.tree.AbstractInsnNode;
import org.objectweb.asm.tree.InsnList;
import org.objectweb.asm.tree.InsnNode;
import org.objectweb.asm.tree.LdcInsnNode;
import org.objectweb.asm.tree.MethodInsnNode;
import org.objectweb.asm.tree.MethodNode;
import org.objectweb.asm.tree.VarInsnNode;

/** Puts hooks where a method touches elements of an array, by an instruction or by a call that says which. */
final class ArrayCalls {
    private static final String OBJECT = "Ljava/lang/Object;";
    private static final String OF_ALL = "(" + OBJECT + "I)V";
    private static final String OF_ELEMENT = "(" + OBJECT + "II)V";
    private static final String OF_RANGE = "(" + OBJECT + "III)V";
    private static final String OF_COPY = "(" + OBJECT + "I" + OBJECT + "IIII)V";
    private static final String ARRAYS = "java/util/Arrays";
    private static final String GIVEN = "GIVEN";
    private static final Set<String> WRITING = Set.of("fill", "sort", "parallelSort", "setAll", "parallelSetAll");
    private static final Set<String> READING = Set.of("toString", "hashCode", "deepToString", "deepHashCode");
    /** What gives something that shows the array, and looks at no element by itself. */
    private static final Set<String> SHOWING = Set.of("asList", "stream", "spliterator");

    private final MethodNode method;
    private final InsnList code;
    private final String file;
    private final String function;

    ArrayCalls(MethodNode method, String file, String function) {
        this.method = method;
        code = method.instructions;
        this.file = file;
        this.function = function;
    }

    private LdcInsnNode number(String owner, String named, boolean writes, int line) {
        return new LdcInsnNode(Watched.useOf(owner, named, GIVEN, writes, file, line, function));
    }

    private LdcInsnNode element(boolean writes, int line) {
        return number("", "element()", writes, line);
    }

    /** An array or a collection is made, and stands on the stack. */
    void rewriteMaking(AbstractInsnNode making, int line) {
        code.insert(making, listOf(new InsnNode(Opcodes.DUP), number("", "made()", false, line), hook("made", OF_ALL)));
    }

    /** The copy of an array reads all of it. */
    void rewriteClone(MethodInsnNode call, int line) {
        code.insertBefore(call, listOf(new InsnNode(Opcodes.DUP), element(false, line), hook("all", OF_ALL)));
    }

    /** A read or a write of an element. */
    void rewriteElement(AbstractInsnNode access, int line) {
        int opcode = access.getOpcode();
        if (opcode < Opcodes.IASTORE) {
            code.insertBefore(access, listOf(new InsnNode(Opcodes.DUP2), element(false, line), hook("element", OF_ELEMENT)));
        } else if (opcode == Opcodes.LASTORE || opcode == Opcodes.DASTORE) {
            // array, index, value: the value goes below the others, and comes back behind them.
            code.insertBefore(access, listOf(new InsnNode(Opcodes.DUP2_X2), new InsnNode(Opcodes.POP2), new InsnNode(Opcodes.DUP2_X2)));
            code.insertBefore(access, listOf(element(true, line), hook("element", OF_ELEMENT)));
        } else {
            rewriteByLocal(access, opcode == Opcodes.AASTORE, opcode == Opcodes.FASTORE, line);
        }
    }

    private void rewriteByLocal(AbstractInsnNode access, boolean isReference, boolean isFloat, int line) {
        int value = method.maxLocals++;
        Type type = isReference ? Type.getObjectType("java/lang/Object") : isFloat ? Type.FLOAT_TYPE : Type.INT_TYPE;
        code.insertBefore(access, listOf(new VarInsnNode(type.getOpcode(Opcodes.ISTORE), value), new InsnNode(Opcodes.DUP2)));
        if (isReference) {
            code.insertBefore(access, new VarInsnNode(Opcodes.ALOAD, value));
            code.insertBefore(access, listOf(element(true, line), hook("store", "([" + OBJECT + "I" + OBJECT + "I)V")));
        } else {
            code.insertBefore(access, listOf(element(true, line), hook("element", OF_ELEMENT)));
        }
        code.insertBefore(access, new VarInsnNode(type.getOpcode(Opcodes.ILOAD), value));
    }

    /** Whether it is known which elements the call touches of the array that it gets first. */
    static boolean isKnown(String owner, String name) {
        boolean isOfArrays = owner.equals(ARRAYS) && (WRITING.contains(name) || READING.contains(name) || SHOWING.contains(name) || isCopying(name));
        return isOfArrays || isCopy(owner, name);
    }

    private static boolean isCopying(String name) {
        return name.equals("copyOf") || name.equals("copyOfRange");
    }

    private static boolean isCopy(String owner, String name) {
        return owner.equals("java/lang/System") && name.equals("arraycopy");
    }

    /** Touches what such a call does, once for all that it gets. */
    InsnList touch(Kept kept, MethodInsnNode call, String owner, int line) {
        String named = call.name + call.desc;
        if (isCopy(owner, call.name)) {
            return listOf(
                    kept.load(0), kept.load(1), kept.load(2), kept.load(3), kept.load(4), number(owner, named, false, line), number(owner, named, true, line),
                    hook("copies", OF_COPY));
        }
        if (SHOWING.contains(call.name)) {
            return new InsnList();
        }
        LdcInsnNode number = number(owner, named, WRITING.contains(call.name), line);
        if (call.name.equals("copyOf")) {
            return listOf(kept.load(0), new InsnNode(Opcodes.ICONST_0), kept.load(1), number, hook("rangeUpTo", OF_RANGE));
        }
        boolean isPart = Type.getArgumentTypes(call.desc).length > 2 && kept.descriptor(1).equals("I") && kept.descriptor(2).equals("I");
        if (isPart) {
            return listOf(kept.load(0), kept.load(1), kept.load(2), number, hook(isCopying(call.name) ? "rangeUpTo" : "range", OF_RANGE));
        }
        return listOf(kept.load(0), number, hook("all", OF_ALL));
    }
}
