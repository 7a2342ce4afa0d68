package example.hometturi.itctrace.agent;

import example.hometturi.itctrace.Field;
import example.hometturi.itctrace.Handles;
import example.hometturi.itctrace.Type;
import example.hometturi.itctrace.Watched;
import example.hometturi.itctrace.agent.Classes.Described;
import java.util.ArrayDeque;
import java.util.Deque;
import java.util.HashSet;
import java.util.List;
import java.util.Set;
import org.objectweb.asm.ClassReader;
import org.objectweb.asm.ClassWriter;
import org.objectweb.asm.Opcodes;
import org.objectweb.asm.tree.AbstractInsnNode;
import org.objectweb.asm.tree.ClassNode;
import org.objectweb.asm.tree.FieldInsnNode;
import org.objectweb.asm.tree.FieldNode;
import org.objectweb.asm.tree.FrameNode;
import org.objectweb.asm.tree.InsnList;
import org.objectweb.asm.tree.InsnNode;
import org.objectweb.asm.tree.InvokeDynamicInsnNode;
import org.objectweb.asm.tree.LabelNode;
import org.objectweb.asm.tree.LdcInsnNode;
import org.objectweb.asm.tree.LineNumberNode;
import org.objectweb.asm.tree.MethodInsnNode;
import org.objectweb.asm.tree.MethodNode;
import org.objectweb.asm.tree.TryCatchBlockNode;
import org.objectweb.asm.tree.VarInsnNode;

/** Puts hooks into a class of the program: where it touches a field, and where it gives or takes an order. */
final class Rewriter {
    private static final String OF_ANY = "(Ljava/lang/Object;)V";
    private static final String OF_A_PLACE = "(Ljava/lang/Object;I)V";
    private static final String OF_A_NUMBER = "(I)V";
    private static final String CLONE = "clone()Ljava/lang/Object;";
    private static final String THROWABLE = "java/lang/Throwable";
    /** The types of handlers that catch an interruption. */
    private static final Set<String> MAY_INTERRUPT =
            Set.of("null", THROWABLE, "java/lang/Exception", "java/lang/InterruptedException");

    private final Classes classes;
    private final ClassLoader loader;
    private final ClassNode node;
    private final Described described;
    private final int type;
    private final String file;

    private Rewriter(Classes classes, ClassLoader loader, ClassNode node, Described described) {
        this.classes = classes;
        this.loader = loader;
        this.node = node;
        this.described = described;
        type = described.isInitialized ? described.number() : 0;
        file = Watched.fileOf(node.name, node.sourceFile);
    }

    /** The class with hooks. */
    static byte[] rewritten(Classes classes, ClassLoader loader, String name, byte[] bytes) {
        ClassReader reader = new ClassReader(bytes);
        ClassNode node = new ClassNode();
        reader.accept(node, 0);
        new Rewriter(classes, loader, node, classes.describe(loader, name, reader)).rewrite();
        ClassWriter writer = new ClassWriter(reader, ClassWriter.COMPUTE_MAXS);
        node.accept(writer);
        return writer.toByteArray();
    }

    private void rewrite() {
        for (MethodNode method : List.copyOf(node.methods)) {
            if (method.instructions.size() > 0) {
                new OfMethod(method).rewrite();
            } else if ((method.access & Opcodes.ACC_NATIVE) != 0) {
                Watched.passOver("native " + described.simpleName + "." + method.name, file, 0);
            }
        }
        if (described.hasVariables() && !isInterface() && (node.access & Opcodes.ACC_RECORD) == 0) {
            int access = Opcodes.ACC_PRIVATE | Opcodes.ACC_TRANSIENT | Opcodes.ACC_SYNTHETIC;
            node.fields.add(new FieldNode(access, Type.CELLS, "Ljava/lang/Object;", null, null));
        }
    }

    private boolean isInterface() {
        return (node.access & Opcodes.ACC_INTERFACE) != 0;
    }

    /** A call of the agent's. */
    static MethodInsnNode hook(String name, String descriptor) {
        return new MethodInsnNode(Opcodes.INVOKESTATIC, "example/hometturi/itctrace/Watched", name, descriptor, false);
    }

    static InsnList listOf(AbstractInsnNode... all) {
        InsnList list = new InsnList();
        for (AbstractInsnNode one : all) {
            list.add(one);
        }
        return list;
    }

    private static InsnNode plain(int code) {
        return new InsnNode(code);
    }

    private static LdcInsnNode number(int value) {
        return new LdcInsnNode(value);
    }

    /** Puts hooks into one method. */
    private final class OfMethod {
        private final MethodNode method;
        private final InsnList code;
        private final Calls calls;
        private final WholeCalls wholes;
        private final ArrayCalls arrays;
        private final References references;
        private int line;

        OfMethod(MethodNode method) {
            this.method = method;
            code = method.instructions;
            String function = described.simpleName + "." + method.name;
            calls = new Calls(classes, loader, node, method, function);
            wholes = new WholeCalls(method, file, function);
            arrays = new ArrayCalls(method, file, function);
            references = new References(node, method, calls, made -> new OfMethod(made).rewrite());
        }

        private boolean has(int flag) {
            return (method.access & flag) != 0;
        }

        void rewrite() {
            boolean isConstructed = !method.name.equals("<init>");
            Deque<AbstractInsnNode> open = new ArrayDeque<>();
            for (AbstractInsnNode one : code.toArray()) {
                if (one instanceof LineNumberNode number) {
                    line = number.line;
                } else if (one instanceof FieldInsnNode access) {
                    rewriteAccess(access, isConstructed);
                } else if (one instanceof MethodInsnNode call) {
                    String owner = classes.ofTheJdk(loader, call.owner);
                    if (call.name.equals("<init>")) {
                        isConstructed |= open.isEmpty();
                        rewriteMaking(call, owner, open.poll());
                    }
                    if (owner == null && call.getOpcode() == Opcodes.INVOKEINTERFACE) {
                        owner = classes.interfaceOfTheJdk(loader, call.owner);
                    }
                    if (owner != null && !Handles.isFollowed(owner, call.name)) {
                        wholes.rewrite(call, owner, classes.declares(loader, call.owner, call.name + call.desc), line);
                    } else if (call.owner.startsWith("[")) {
                        arrays.rewriteClone(call, line);
                    } else if (call.owner.equals("java/lang/Object")) {
                        wholes.rewriteOfAny(call, line);
                    }
                    if (call.getOpcode() == Opcodes.INVOKESPECIAL && (call.name + call.desc).equals(CLONE) && Watching.isOfJdk(call.owner)) {
                        wholes.rewriteCopy(call, line);
                    }
                    calls.rewrite(call, owner, line);
                } else if (one instanceof InvokeDynamicInsnNode call) {
                    if (!references.rewrite(call, line)) {
                        calls.rewrite(call, line);
                    }
                    wholes.rewrite(call, line);
                } else if (isElement(one.getOpcode())) {
                    arrays.rewriteElement(one, line);
                } else if (one.getOpcode() == Opcodes.NEW) {
                    open.push(one);
                } else if (isMakingArray(one.getOpcode())) {
                    arrays.rewriteMaking(one, line);
                } else if (one.getOpcode() == Opcodes.MONITORENTER) {
                    code.insertBefore(one, plain(Opcodes.DUP));
                    code.insert(one, hook("entered", OF_ANY));
                } else if (one.getOpcode() == Opcodes.MONITOREXIT) {
                    code.insertBefore(one, listOf(plain(Opcodes.DUP), hook("exiting", OF_ANY)));
                }
            }
            rewriteInitialization();
            if (has(Opcodes.ACC_SYNCHRONIZED)) {
                rewriteSynchronized();
            }
            rewriteHandlers();
            code.insert(numbered());
        }

        /** A collection is made, and stands on the stack if it was put there twice. */
        private void rewriteMaking(MethodInsnNode call, String owner, AbstractInsnNode beginning) {
            boolean isTwice = beginning != null && beginning.getNext() != null && beginning.getNext().getOpcode() == Opcodes.DUP;
            if (isTwice && owner != null && CollectionTypes.has(owner)) {
                arrays.rewriteMaking(call, line);
            }
        }

        private static boolean isMakingArray(int opcode) {
            return opcode == Opcodes.NEWARRAY || opcode == Opcodes.ANEWARRAY || opcode == Opcodes.MULTIANEWARRAY;
        }

        private static boolean isElement(int opcode) {
            return opcode >= Opcodes.IALOAD && opcode <= Opcodes.SALOAD || opcode >= Opcodes.IASTORE && opcode <= Opcodes.SASTORE;
        }

        /** What is caught may tell that the thread was interrupted. */
        private void rewriteHandlers() {
            Set<LabelNode> seen = new HashSet<>();
            for (TryCatchBlockNode one : method.tryCatchBlocks) {
                if (MAY_INTERRUPT.contains(String.valueOf(one.type)) && seen.add(one.handler)) {
                    AbstractInsnNode first = one.handler;
                    while (first.getOpcode() < 0) {
                        first = first.getNext();
                    }
                    code.insertBefore(first, listOf(plain(Opcodes.DUP), hook("caught", OF_ANY)));
                }
            }
        }

        // Fields

        private void rewriteAccess(FieldInsnNode access, boolean isConstructed) {
            boolean writes = access.getOpcode() == Opcodes.PUTFIELD || access.getOpcode() == Opcodes.PUTSTATIC;
            Field field = classes.field(loader, access.owner, access.name);
            boolean isEarly = writes && !isConstructed && access.getOpcode() == Opcodes.PUTFIELD && access.owner.equals(node.name);
            if (field == null && !isStatic(access) && classes.isOfJdk(loader, access.owner, access.name)) {
                wholes.rewriteField(access, line);
            }
            if (field == null || isEarly) {
                return;
            }
            InsnList behind = new InsnList();
            String declaring = field.type().internalName();
            if (field.isStatic() && !declaring.equals(node.name)) {
                classes.numberOf(loader, declaring).ifPresent(number -> behind.add(listOf(number(number), hook("sees", OF_A_NUMBER))));
            }
            if (!field.isFinal()) {
                rewriteAccess(access, field, writes, behind);
            }
            code.insert(access, behind);
        }

        private static boolean isStatic(FieldInsnNode access) {
            return access.getOpcode() == Opcodes.GETSTATIC || access.getOpcode() == Opcodes.PUTSTATIC;
        }

        private void rewriteAccess(FieldInsnNode access, Field field, boolean writes, InsnList behind) {
            int place = Watched.placeOf(field, writes, file, line, described.simpleName + "." + method.name);
            boolean isWide = access.desc.equals("J") || access.desc.equals("D");
            if (field.isStatic() && field.isVolatile()) {
                initializeBefore(access, isWide);
                code.insertBefore(access, listOf(number(place), hook("begin", OF_A_NUMBER)));
                behind.insert(listOf(number(place), hook("end", OF_A_NUMBER)));
            } else if (field.isStatic()) {
                initializeBefore(access, isWide);
                code.insertBefore(access, behind); // The class is seen before the touch.
                code.insertBefore(access, listOf(number(place), hook("touch", OF_A_NUMBER)));
            } else if (field.isVolatile()) {
                rewriteVolatile(access, place, writes, isWide, behind);
            } else if (!writes) {
                code.insertBefore(access, listOf(plain(Opcodes.DUP), number(place), hook("touch", OF_A_PLACE)));
            } else if (isWide) {
                code.insertBefore(access, listOf(plain(Opcodes.DUP2_X1), plain(Opcodes.POP2), plain(Opcodes.DUP_X2)));
                code.insertBefore(access, listOf(number(place), hook("touch", OF_A_PLACE)));
            } else {
                code.insertBefore(access, listOf(plain(Opcodes.DUP2), plain(Opcodes.POP), number(place), hook("touch", OF_A_PLACE)));
            }
        }

        /** The class of a static field is initialized, or that fails, before the access is told. */
        private void initializeBefore(FieldInsnNode access, boolean isWide) {
            if (!access.owner.equals(node.name)) {
                code.insertBefore(access, new FieldInsnNode(Opcodes.GETSTATIC, access.owner, access.name, access.desc));
                code.insertBefore(access, plain(isWide ? Opcodes.POP2 : Opcodes.POP));
            }
        }

        private void rewriteVolatile(FieldInsnNode access, int place, boolean writes, boolean isWide, InsnList behind) {
            InsnList begin = listOf(plain(Opcodes.DUP), number(place), hook("begin", OF_A_PLACE), plain(Opcodes.DUP));
            InsnList end = listOf(number(place), hook("end", OF_A_PLACE));
            if (writes) {
                org.objectweb.asm.Type value = org.objectweb.asm.Type.getType(access.desc);
                int local = method.maxLocals;
                method.maxLocals += value.getSize();
                code.insertBefore(access, new VarInsnNode(value.getOpcode(Opcodes.ISTORE), local));
                code.insertBefore(access, begin);
                code.insertBefore(access, new VarInsnNode(value.getOpcode(Opcodes.ILOAD), local));
            } else {
                code.insertBefore(access, begin);
                end.insert(isWide ? listOf(plain(Opcodes.DUP2_X1), plain(Opcodes.POP2)) : listOf(plain(Opcodes.SWAP)));
            }
            behind.insert(end);
        }

        // Classes

        private void rewriteInitialization() {
            if (!described.isInitialized) {
                return;
            }
            if (method.name.equals("<clinit>")) {
                for (AbstractInsnNode one : code.toArray()) {
                    if (one.getOpcode() == Opcodes.RETURN) {
                        code.insertBefore(one, listOf(number(type), hook("initialized", OF_A_NUMBER)));
                    }
                }
            } else if ((has(Opcodes.ACC_STATIC) || method.name.equals("<init>")) && !has(Opcodes.ACC_PRIVATE)) {
                code.insert(listOf(number(type), hook("sees", OF_A_NUMBER)));
            }
        }

        // Methods that are synchronized

        private void rewriteSynchronized() {
            if (has(Opcodes.ACC_STATIC) && (node.version & 0xffff) < Opcodes.V1_5) {
                Watched.passOver("synchronized " + described.simpleName + "." + method.name, file, 1);
                return;
            }
            for (AbstractInsnNode one : code.toArray()) {
                if (one.getOpcode() >= Opcodes.IRETURN && one.getOpcode() <= Opcodes.RETURN) {
                    code.insertBefore(one, listOf(monitor(), hook("exiting", OF_ANY)));
                }
            }
            LabelNode begin = new LabelNode();
            LabelNode end = new LabelNode();
            code.insert(listOf(monitor(), hook("entered", OF_ANY), begin));
            Object[] locals = has(Opcodes.ACC_STATIC) ? new Object[0] : new Object[] {node.name};
            code.add(end);
            code.add(new FrameNode(Opcodes.F_FULL, locals.length, locals, 1, new Object[] {THROWABLE}));
            code.add(numbered());
            code.add(listOf(monitor(), hook("exiting", OF_ANY), plain(Opcodes.ATHROW)));
            method.tryCatchBlocks.add(new TryCatchBlockNode(begin, end, end, null));
        }

        /** What follows is of the first line of the method. */
        private InsnList numbered() {
            InsnList list = new InsnList();
            for (AbstractInsnNode one : code) {
                if (one instanceof LineNumberNode first) {
                    LabelNode here = new LabelNode();
                    list.add(here);
                    list.add(new LineNumberNode(first.line, here));
                    return list;
                }
            }
            return list;
        }

        private AbstractInsnNode monitor() {
            boolean isStatic = has(Opcodes.ACC_STATIC);
            return isStatic ? new LdcInsnNode(org.objectweb.asm.Type.getObjectType(node.name)) : new VarInsnNode(Opcodes.ALOAD, 0);
        }
    }
}
