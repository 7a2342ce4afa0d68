package example.hometturi.itctrace.agent;

import static example.hometturi.itctrace.agent.Rewriter.hook;
import static example.hometturi.itctrace.agent.Rewriter.listOf;

import example.hometturi.itctrace.Kinds;
import example.hometturi.itctrace.Watched;
import java.util.ArrayList;
import java.util.List;
import java.util.Set;
import org.objectweb.asm.Handle;
import org.objectweb.asm.Opcodes;
import org.objectweb.asm.Type;
import org.objectweb.asm.tree.FieldInsnNode;
import org.objectweb.asm.tree.InsnList;
import org.objectweb.asm.tree.InsnNode;
import org.objectweb.asm.tree.InvokeDynamicInsnNode;
import org.objectweb.asm.tree.LdcInsnNode;
import org.objectweb.asm.tree.MethodInsnNode;
import org.objectweb.asm.tree.MethodNode;
import org.objectweb.asm.tree.VarInsnNode;

/** Puts hooks where a method calls the JDK with what is watched by its methods or as a whole: arrays, collections and their like. */
final class WholeCalls {
    private static final String OBJECT = "Ljava/lang/Object;";
    private static final String LOOKED_INTO = "LOOKED_INTO";
    private static final List<String> CHANGING =
            List.of(
                    "add", "put", "remove", "set", "clear", "push", "pop", "poll", "offer", "sort", "replace", "merge", "compute", "retain",
                    "insert", "append", "delete", "reverse", "ensureCapacity", "trim", "fill", "swap", "shuffle", "rotate", "flip", "copy",
                    "parallelSort", "parallelSetAll", "parallelPrefix", "read", "nextBytes", "getChars", "getBytes", "and", "or", "xor");
    /** What begins like those, and changes nothing. */
    private static final Set<String> NOT_CHANGING = Set.of("copyOf", "copyOfRange", "order");
    /** Those whose methods look into any object that they are given. */
    private static final Set<String> LOOKING =
            Set.of("java/lang/String", "java/lang/StringBuilder", "java/util/Objects", "java/io/PrintStream", "java/io/PrintWriter");
    /** What looks whether there is an object, and not into it. */
    private static final Set<String> NOT_LOOKING =
            Set.of("requireNonNull", "requireNonNullElse", "requireNonNullElseGet", "isNull", "nonNull", "identityHashCode");
    /** Those that look into each of an array of objects. */
    private static final Set<String> LOOKING_INTO_EACH =
            Set.of("java/lang/String", "java/util/Objects", "java/io/PrintStream", "java/io/PrintWriter", "java/util/Formatter", "java/text/MessageFormat");
    /** The methods of any object that the JDK has for those that it makes. */
    private static final Set<String> OF_ANY_OBJECT = Set.of("toString", "hashCode", "equals");
    /** What fills an array that it is given. */
    private static final List<String> FILLING =
            List.of("read", "getChars", "getBytes", "nextBytes", "toArray", "inflate", "deflate", "digest", "doFinal", "fill", "receive");

    /** What gives a view of a collection or an array. */
    private static final Set<String> SHOWING =
            Set.of(
                    "subList", "keySet", "values", "entrySet", "navigableKeySet", "descendingKeySet", "descendingMap", "descendingSet", "subMap",
                    "headMap", "tailMap", "subSet", "headSet", "tailSet", "asList", "asLifoQueue", "newSetFromMap", "enumeration", "next", "previous");
    private static final List<String> SHOWING_BEGINNINGS = List.of("unmodifiable", "checked");
    /** What such a view is. */
    private static final List<String> SHOWN = List.of("Iterator;", "Spliterator;", "Stream;", "Enumeration;", "OfInt;", "OfLong;", "OfDouble;");
    /** Of these not each element of what is shown comes out. */
    private static final Set<String> CUTTING =
            Set.of("limit", "skip", "takeWhile", "dropWhile", "flatMap", "subMap", "headMap", "tailMap", "subSet", "headSet", "tailSet");

    private final MethodNode method;
    private final InsnList code;
    private final ArrayCalls arrays;
    private final String file;
    private final String function;

    WholeCalls(MethodNode method, String file, String function) {
        this.method = method;
        code = method.instructions;
        this.file = file;
        this.function = function;
        arrays = new ArrayCalls(method, file, function);
    }

    /** Whether the objects of this class of the JDK may be watched as a whole. */
    static boolean isWhole(String owner) {
        return !Kinds.isSurelySafe(owner);
    }

    /** A method that any object has. */
    void rewriteOfAny(MethodInsnNode call, int line) {
        if (call.getOpcode() == Opcodes.INVOKEVIRTUAL && OF_ANY_OBJECT.contains(call.name)) {
            rewrite(call, "java/lang/Object", false, line);
        }
    }

    /** The method is one of this class of the JDK, or of one below it. What one of the program does with what it gets is seen there. */
    void rewrite(MethodInsnNode call, String owner, boolean isOfProgram, int line) {
        boolean isMaking = call.name.equals("<init>");
        boolean isStatic = call.getOpcode() == Opcodes.INVOKESTATIC;
        boolean isOnWhole = !isMaking && !isStatic && isWhole(owner);
        Type[] given = Type.getArgumentTypes(call.desc);
        List<Integer> touched = new ArrayList<>(isOnWhole ? List.of(-1) : List.of());
        for (int place = 0; place < given.length && !isOfProgram; place++) {
            if (isTouched(owner, call.name, given[place].getDescriptor())) {
                touched.add(place);
            }
        }
        if (touched.isEmpty()) {
            return;
        }
        Kept kept = Kept.of(method, call, call.desc, isOnWhole);
        InsnList before = new InsnList();
        InsnList behind = new InsnList();
        boolean isDoneTwice = mayDoMore(call) || owner.startsWith("java/util/stream/");
        for (int place : touched) {
            if (place < 0 && CollectionTypes.has(owner) && Watched.hasEnd(call.name)) {
                rewriteEnding(kept, call, owner, line, before, behind);
            } else {
                before.add(touch(kept, call, owner, place, line));
                if (isDoneTwice) {
                    behind.add(touch(kept, call, owner, place, line));
                }
            }
        }
        if (!isMaking && mayShow(owner, call)) {
            behind.add(derive(kept, call, touched.get(0)));
        }
        code.insertBefore(call, before);
        code.insert(call, behind);
    }

    /** Whether a call does something with an object after the program has done something in it. */
    private static boolean mayDoMore(MethodInsnNode call) {
        boolean isOfObjects = call.owner.equals("java/util/Arrays") && call.name.endsWith("ort") && call.desc.startsWith("([L");
        return isOfObjects || call.desc.contains("Ljava/util/function/") || call.desc.contains("Ljava/util/Comparator;");
    }

    /** A call of a collection that says at its end what it has done. */
    private void rewriteEnding(Kept kept, MethodInsnNode call, String owner, int line, InsnList before, InsnList behind) {
        Type[] given = Type.getArgumentTypes(call.desc);
        boolean isByNumber = given.length > 0 && given[0].getSort() == Type.INT;
        LdcInsnNode number = number(owner, call.name + call.desc, roleOf(call), changes(owner, call.name), line);
        if (isByNumber && (call.name.equals("get") || call.name.equals("set"))) {
            before.add(listOf(kept.load(-1), number, hook("whole", "(" + OBJECT + "I)V")));
            behind.add(listOf(kept.load(-1), kept.load(0), new LdcInsnNode(number.cst), hook("endsAt", "(" + OBJECT + "II)V")));
            return;
        }
        int changes = method.maxLocals++;
        before.add(listOf(kept.load(-1), number, hook("begins", "(" + OBJECT + "I)I"), new VarInsnNode(Opcodes.ISTORE, changes)));
        boolean hasKey = given.length > 0 && given[0].getSort() == Type.OBJECT;
        Type result = Type.getReturnType(call.desc);
        boolean isObject = result.getSort() == Type.OBJECT;
        boolean isNumber = result.getSort() == Type.INT || result.getSort() == Type.BOOLEAN;
        behind.add(
                listOf(
                        new InsnNode(isObject || isNumber ? Opcodes.DUP : Opcodes.ICONST_1),
                        kept.load(-1),
                        hasKey ? kept.load(0) : new InsnNode(Opcodes.ACONST_NULL),
                        new VarInsnNode(Opcodes.ILOAD, changes),
                        new LdcInsnNode(number.cst),
                        hook("ends", "(" + (isObject ? OBJECT : "I") + OBJECT + OBJECT + "II)V")));
    }

    private static String roleOf(MethodInsnNode call) {
        return call.getOpcode() == Opcodes.INVOKESPECIAL ? "SUPER" : "OWNER";
    }

    /** What the call has given shows this one of what it was given. */
    private static InsnList derive(Kept kept, MethodInsnNode call, int shown) {
        InsnList list = listOf(new InsnNode(Opcodes.DUP), kept.load(shown));
        if (call.name.equals("subList") && call.desc.startsWith("(II)")) {
            list.add(listOf(kept.load(0), hook("deriveFrom", "(" + OBJECT + OBJECT + "I)V")));
        } else {
            boolean isStep = call.name.equals("next") || call.name.equals("previous");
            String name = isStep ? "deriveEntry" : CUTTING.contains(call.name) ? "deriveSome" : "derive";
            list.add(hook(name, "(" + OBJECT + OBJECT + ")V"));
        }
        return list;
    }

    /** Whether what a call gives may show what it was given, or a part of it. */
    private static boolean mayShow(String owner, MethodInsnNode call) {
        String result = Type.getReturnType(call.desc).getDescriptor();
        boolean isOfCollections = CollectionTypes.has(owner) || owner.equals("java/util/Collections") || owner.equals("java/util/Arrays");
        if (isOfCollections || owner.startsWith("java/util/stream/")) {
            boolean isNamed = SHOWING.contains(call.name) || SHOWING_BEGINNINGS.stream().anyMatch(call.name::startsWith);
            return isNamed || SHOWN.stream().anyMatch(result::endsWith);
        }
        return result.startsWith("L") && (result.equals(OBJECT) || isWhole(nameOf(result))) || result.startsWith("[") && result.length() == 2;
    }

    private static String nameOf(String descriptor) {
        return descriptor.substring(1, descriptor.length() - 1);
    }

    /** A text that is made of objects looks into them. So does a record, by the methods that it has without a word in its source. */
    void rewrite(InvokeDynamicInsnNode call, int line) {
        if (call.bsm.getOwner().equals("java/lang/runtime/ObjectMethods")) {
            lookIntoRecord(call, line);
        }
        if (!call.bsm.getOwner().equals("java/lang/invoke/StringConcatFactory")) {
            return;
        }
        Type[] given = Type.getArgumentTypes(call.desc);
        List<Integer> touched = new ArrayList<>();
        for (int place = 0; place < given.length; place++) {
            String descriptor = given[place].getDescriptor();
            if (descriptor.startsWith("L") && isWhole(nameOf(descriptor))) {
                touched.add(place);
            }
        }
        if (!touched.isEmpty()) {
            Kept kept = Kept.of(method, call, call.desc, false);
            touched.forEach(place -> code.insertBefore(call, touch(kept, place, "", "toString()", LOOKED_INTO, false, line)));
        }
    }

    private void lookIntoRecord(InvokeDynamicInsnNode call, int line) {
        for (Object one : call.bsmArgs) {
            if (one instanceof Handle handle && handle.getTag() == Opcodes.H_GETFIELD && handle.getDesc().startsWith("L")) {
                code.insertBefore(
                        call,
                        listOf(
                                new VarInsnNode(Opcodes.ALOAD, 0),
                                new FieldInsnNode(Opcodes.GETFIELD, handle.getOwner(), handle.getName(), handle.getDesc()),
                                number("", "toString()", LOOKED_INTO, false, line),
                                hook("whole", "(" + OBJECT + "I)V")));
            }
        }
    }

    /** Whether a method touches what it is given by this descriptor. */
    static boolean isTouched(String owner, String name, String descriptor) {
        if (descriptor.startsWith("[")) {
            return true;
        }
        if (NOT_LOOKING.contains(name)) {
            return false;
        }
        if (descriptor.equals(OBJECT)) {
            boolean isOfElements = owner.equals("java/lang/reflect/Array") && !name.equals("newInstance");
            return LOOKING.contains(owner) || name.equals("equals") || owner.equals("java/lang/System") || isOfElements;
        }
        return descriptor.startsWith("L") && isWhole(nameOf(descriptor));
    }

    /** Whether a method with this name changes a collection. */
    private static boolean changes(String owner, String name) {
        boolean isOfStream = owner.startsWith("java/util/stream/");
        return !isOfStream && !NOT_CHANGING.contains(name) && CHANGING.stream().anyMatch(name::startsWith);
    }

    /** Of what is given a method that changes an object changes the first alone. Of an array it may change each. */
    private static boolean changesGiven(String owner, String name, int place, Type given) {
        if (owner.equals("java/lang/System")) {
            return place == 2;
        }
        boolean isArray = given.getDescriptor().startsWith("[");
        if (owner.equals("java/util/Collections") || owner.equals("java/util/Arrays")) {
            return changes(owner, name) && (place == 0 || isArray && owner.equals("java/util/Arrays"));
        }
        if (owner.equals("java/lang/reflect/Array")) {
            return name.startsWith("set");
        }
        if (!isArray) {
            return name.equals("drainTo");
        }
        boolean isOfBuffer = owner.startsWith("java/nio/") && name.startsWith("get");
        boolean isOfCoder = owner.startsWith("java/util/Base64") && place == 1;
        return isOfBuffer || isOfCoder || FILLING.stream().anyMatch(name::startsWith) && !owner.equals("java/util/Arrays");
    }

    /** Touches the object if the place is -1, else what is given. */
    private InsnList touch(Kept kept, MethodInsnNode call, String owner, int place, int line) {
        String named = call.name + call.desc;
        if (place < 0) {
            return touch(kept, place, owner, named, roleOf(call), changes(owner, call.name), line);
        }
        Type given = Type.getArgumentTypes(call.desc)[place];
        String descriptor = given.getDescriptor();
        boolean looksInto = LOOKING.contains(owner) || descriptor.equals(OBJECT) || descriptor.equals("Ljava/lang/CharSequence;") || descriptor.equals("L" + owner + ";");
        boolean isArray = descriptor.startsWith("[");
        String role = looksInto && !isArray ? LOOKED_INTO : "GIVEN";
        InsnList list = new InsnList();
        if (!ArrayCalls.isKnown(owner, call.name)) {
            list.add(touch(kept, place, owner, named, role, changesGiven(owner, call.name, place, given), line));
        } else if (place == 0) {
            list.add(arrays.touch(kept, call, owner, line));
        }
        if (looksIntoEach(owner, call.name, descriptor)) {
            list.add(listOf(kept.load(place), number(owner, named, LOOKED_INTO, false, line), hook("elements", "([" + OBJECT + "I)V")));
        }
        return list;
    }

    private static boolean looksIntoEach(String owner, String name, String descriptor) {
        boolean isOfArrays = owner.equals("java/util/Arrays") && (OF_ANY_OBJECT.contains(name) || name.startsWith("deep"));
        boolean isOfObjects = descriptor.equals("[" + OBJECT) || descriptor.equals("[Ljava/lang/CharSequence;");
        return isOfObjects && (isOfArrays || LOOKING_INTO_EACH.contains(owner));
    }

    private InsnList touch(Kept kept, int place, String owner, String named, String role, boolean changes, int line) {
        return listOf(kept.load(place), number(owner, named, role, changes, line), hook("whole", "(" + OBJECT + "I)V"));
    }

    private LdcInsnNode number(String owner, String named, String role, boolean changes, int line) {
        return new LdcInsnNode(Watched.useOf(owner, named, role, changes, file, line, function));
    }

    /** The copy of an object reads all of its fields. */
    void rewriteCopy(MethodInsnNode call, int line) {
        code.insertBefore(call, new InsnNode(Opcodes.DUP));
        int place = Watched.placeOf(null, false, file, line, function);
        code.insert(call, listOf(new InsnNode(Opcodes.SWAP), new LdcInsnNode(place), hook("cloned", "(" + OBJECT + OBJECT + "I)" + OBJECT)));
    }

    /** A read or a write of a field that the JDK has declared. */
    void rewriteField(FieldInsnNode access, int line) {
        boolean writes = access.getOpcode() == Opcodes.PUTFIELD;
        boolean isWide = access.desc.equals("J") || access.desc.equals("D");
        if (!writes) {
            code.insertBefore(access, new InsnNode(Opcodes.DUP));
        } else if (isWide) {
            code.insertBefore(access, listOf(new InsnNode(Opcodes.DUP2_X1), new InsnNode(Opcodes.POP2), new InsnNode(Opcodes.DUP_X2)));
        } else {
            code.insertBefore(access, listOf(new InsnNode(Opcodes.DUP2), new InsnNode(Opcodes.POP)));
        }
        code.insertBefore(access, listOf(number(access.owner, access.name + "()", writes ? "GIVEN" : LOOKED_INTO, writes, line), hook("whole", "(" + OBJECT + "I)V")));
    }
}
