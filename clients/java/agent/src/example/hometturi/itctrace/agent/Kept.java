package example.hometturi.itctrace.agent;

import org.objectweb.asm.Opcodes;
import org.objectweb.asm.Type;
import org.objectweb.asm.tree.AbstractInsnNode;
import org.objectweb.asm.tree.InsnNode;
import org.objectweb.asm.tree.MethodNode;
import org.objectweb.asm.tree.VarInsnNode;

/** What a call is given, in locals of their own, so that hooks in front of it and behind it can have it. */
final class Kept {
    /** The local of the object whose method is called. -1 if there is none. */
    final int object;
    private final Type[] given;
    private final int[] locals;

    private Kept(int object, Type[] given, int[] locals) {
        this.object = object;
        this.given = given;
        this.locals = locals;
    }

    /** Keeps what stands on the stack in front of the call, which finds it there as before. */
    static Kept of(MethodNode method, AbstractInsnNode call, String descriptor, boolean hasObject) {
        Type[] given = Type.getArgumentTypes(descriptor);
        int[] locals = new int[given.length];
        for (int place = given.length - 1; place >= 0; place--) {
            locals[place] = method.maxLocals;
            method.maxLocals += given[place].getSize();
            method.instructions.insertBefore(call, new VarInsnNode(given[place].getOpcode(Opcodes.ISTORE), locals[place]));
        }
        int object = hasObject ? method.maxLocals++ : -1;
        if (hasObject) {
            method.instructions.insertBefore(call, new InsnNode(Opcodes.DUP));
            method.instructions.insertBefore(call, new VarInsnNode(Opcodes.ASTORE, object));
        }
        Kept kept = new Kept(object, given, locals);
        for (int place = 0; place < given.length; place++) {
            method.instructions.insertBefore(call, kept.load(place));
        }
        return kept;
    }

    /** What brings the argument of this number back, or the object if that is -1. */
    VarInsnNode load(int place) {
        return place < 0 ? new VarInsnNode(Opcodes.ALOAD, object) : new VarInsnNode(given[place].getOpcode(Opcodes.ILOAD), locals[place]);
    }

    /** The call finds what the locals have now. */
    void pushAgain(MethodNode method, AbstractInsnNode call) {
        for (int place = given.length - 1; place >= 0; place--) {
            method.instructions.insertBefore(call, new InsnNode(given[place].getSize() == 2 ? Opcodes.POP2 : Opcodes.POP));
        }
        for (int place = 0; place < given.length; place++) {
            method.instructions.insertBefore(call, load(place));
        }
    }

    int count() {
        return given.length;
    }

    String descriptor(int place) {
        return given[place].getDescriptor();
    }

    /** What stores the argument anew. */
    VarInsnNode store(int place) {
        return new VarInsnNode(given[place].getOpcode(Opcodes.ISTORE), locals[place]);
    }
}
