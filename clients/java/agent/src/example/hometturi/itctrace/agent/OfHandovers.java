package example.hometturi.itctrace.agent;

import static example.hometturi.itctrace.agent.Rewriter.listOf;

import example.hometturi.itctrace.Watched;
import java.lang.instrument.ClassFileTransformer;
import java.security.ProtectionDomain;
import java.util.Arrays;
import java.util.HashMap;
import java.util.List;
import java.util.Map;
import java.util.Set;
import java.util.function.BiConsumer;
import org.objectweb.asm.ClassReader;
import org.objectweb.asm.ClassWriter;
import org.objectweb.asm.Opcodes;
import org.objectweb.asm.Type;
import org.objectweb.asm.tree.AbstractInsnNode;
import org.objectweb.asm.tree.ClassNode;
import org.objectweb.asm.tree.FieldInsnNode;
import org.objectweb.asm.tree.InsnList;
import org.objectweb.asm.tree.InsnNode;
import org.objectweb.asm.tree.MethodInsnNode;
import org.objectweb.asm.tree.MethodNode;
import org.objectweb.asm.tree.TypeInsnNode;
import org.objectweb.asm.tree.VarInsnNode;

/** Has queues, exchangers, barriers and phasers of the JDK tell of their orders, whoever calls them. */
final class OfHandovers implements ClassFileTransformer {
    private static final String CONCURRENT = "java/util/concurrent/";
    private static final String HOOKS = "example/hometturi/itctrace/Handovers";
    private static final String OBJECT = "Ljava/lang/Object;";
    private static final String OF_ANY = "(" + OBJECT + ")V";
    private static final String OF_TWO = "(" + OBJECT + OBJECT + ")V";
    private static final String OF_ITEM = "(" + OBJECT + OBJECT + ")" + OBJECT;
    private static final String OF_A_PHASER = "(Ljava/util/concurrent/Phaser;)V";
    private static final String ARRAY_QUEUE = CONCURRENT + "ArrayBlockingQueue";
    private static final String NODE_QUEUE = CONCURRENT + "LinkedBlockingQueue";
    private static final String NODE_DEQUE = CONCURRENT + "LinkedBlockingDeque";
    private static final String PRIORITY_QUEUE = CONCURRENT + "PriorityBlockingQueue";
    private static final String DELAY_QUEUE = CONCURRENT + "DelayQueue";
    private static final String SYNCHRONOUS_QUEUE = CONCURRENT + "SynchronousQueue";
    private static final String TRANSFER_QUEUE = CONCURRENT + "LinkedTransferQueue";
    private static final String LINKED_DEQUE = CONCURRENT + "ConcurrentLinkedDeque";
    private static final String EXCHANGER = CONCURRENT + "Exchanger";
    private static final String BARRIER = CONCURRENT + "CyclicBarrier";
    private static final String PHASER = CONCURRENT + "Phaser";
    private static final String OF_AN_ANSWER = "(Z" + OBJECT + ")V";
    private static final String OF_A_PHASE = "(ILjava/util/concurrent/Phaser;)V";
    private static final String TIMED = "(JLjava/util/concurrent/TimeUnit;)";
    private static final String STACK_NODE = SYNCHRONOUS_QUEUE + "$TransferStack$SNode";
    private static final String QUEUE_NODE = SYNCHRONOUS_QUEUE + "$TransferQueue$QNode";
    private static final String TRANSFER_NODE = TRANSFER_QUEUE + "$Node";
    private static final String PUBLISHER = CONCURRENT + "SubmissionPublisher";
    private static final String SUBSCRIPTION = PUBLISHER + "$BufferedSubscription";
    private static final String SUBSCRIBER = CONCURRENT + "Flow$Subscriber;";
    private static final String COPIED_LIST = CONCURRENT + "CopyOnWriteArrayList";

    /** Those whose elements each have a node, and whether an element leaves its node while the queue is locked. */
    private static final Map<String, Boolean> OF_NODES =
            Map.of(
                    NODE_QUEUE, true,
                    NODE_DEQUE, true,
                    CONCURRENT + "ConcurrentLinkedQueue", false,
                    LINKED_DEQUE, false);

    /**
     * A method, and the hook in front of its first instruction, or of each return. It gets the locals of these numbers,
     * behind what is returned if it takes one more.
     */
    private record Put(String type, String method, boolean isAtEnd, String hook, String descriptor, int... locals) {
        boolean isFor(MethodNode one) {
            return method.equals(one.name + one.desc);
        }

        MethodInsnNode call() {
            return new MethodInsnNode(Opcodes.INVOKESTATIC, HOOKS, hook, descriptor, false);
        }
    }

    private static Put first(String type, String method, String hook, String descriptor, int... locals) {
        return new Put(type, method, false, hook, descriptor, locals);
    }

    private static Put last(String type, String method, String hook, String descriptor, int... locals) {
        return new Put(type, method, true, hook, descriptor, locals);
    }

    private static final List<Put> PUTS =
            List.of(
                    first(ARRAY_QUEUE, "enqueue(" + OBJECT + ")V", "puts", OF_TWO, 0, 1),
                    first(ARRAY_QUEUE, "enqueue(" + OBJECT + ")V", "usesRoom", OF_ANY, 0),
                    first(NODE_QUEUE, "enqueue(L" + NODE_QUEUE + "$Node;)V", "usesRoom", OF_ANY, 0),
                    last(NODE_DEQUE, "linkFirst(L" + NODE_DEQUE + "$Node;)Z", "usesRoomIf", OF_AN_ANSWER, 0),
                    last(NODE_DEQUE, "linkLast(L" + NODE_DEQUE + "$Node;)Z", "usesRoomIf", OF_AN_ANSWER, 0),
                    last(ARRAY_QUEUE, "dequeue()" + OBJECT, "took", OF_TWO, 0),
                    last(ARRAY_QUEUE, "itemAt(I)" + OBJECT, "saw", OF_TWO, 0),
                    first(ARRAY_QUEUE, "clear()V", "clears", OF_ANY, 0),
                    first(ARRAY_QUEUE, "bulkRemove(Ljava/util/function/Predicate;)Z", "muddles", OF_ANY, 0),
                    first(ARRAY_QUEUE, "forEach(Ljava/util/function/Consumer;)V", "sawAll", OF_ANY, 0),
                    last(ARRAY_QUEUE, "toArray()[" + OBJECT, "sawAll", OF_ANY, 0),
                    last(ARRAY_QUEUE, "toArray([" + OBJECT + ")[" + OBJECT, "sawAll", OF_ANY, 0),
                    first(ARRAY_QUEUE, "contains(" + OBJECT + ")Z", "sawAll", OF_ANY, 0),
                    first(PRIORITY_QUEUE, "offer(" + OBJECT + ")Z", "putsCompared", OF_TWO, 0, 1),
                    last(PRIORITY_QUEUE, "dequeue()" + OBJECT, "took", OF_TWO, 0),
                    last(PRIORITY_QUEUE, "peek()" + OBJECT, "saw", OF_TWO, 0),
                    first(PRIORITY_QUEUE, "clear()V", "clears", OF_ANY, 0),
                    first(PRIORITY_QUEUE, "bulkRemove(Ljava/util/function/Predicate;)Z", "muddles", OF_ANY, 0),
                    first(PRIORITY_QUEUE, "forEach(Ljava/util/function/Consumer;)V", "sawAll", OF_ANY, 0),
                    last(PRIORITY_QUEUE, "toArray()[" + OBJECT, "sawAll", OF_ANY, 0),
                    last(PRIORITY_QUEUE, "toArray([" + OBJECT + ")[" + OBJECT, "sawAll", OF_ANY, 0),
                    first(PRIORITY_QUEUE, "contains(" + OBJECT + ")Z", "sawAll", OF_ANY, 0),
                    first(DELAY_QUEUE, "offer(Ljava/util/concurrent/Delayed;)Z", "putsCompared", OF_TWO, 0, 1),
                    last(DELAY_QUEUE, "poll()Ljava/util/concurrent/Delayed;", "took", OF_TWO, 0),
                    last(DELAY_QUEUE, "take()Ljava/util/concurrent/Delayed;", "took", OF_TWO, 0),
                    last(DELAY_QUEUE, "poll" + TIMED + "Ljava/util/concurrent/Delayed;", "took", OF_TWO, 0),
                    last(DELAY_QUEUE, "peek()Ljava/util/concurrent/Delayed;", "saw", OF_TWO, 0),
                    first(DELAY_QUEUE, "clear()V", "clears", OF_ANY, 0),
                    first(DELAY_QUEUE, "remove(" + OBJECT + ")Z", "muddles", OF_ANY, 0),
                    first(DELAY_QUEUE, "removeEQ(" + OBJECT + ")V", "muddles", OF_ANY, 0),
                    last(DELAY_QUEUE, "toArray()[" + OBJECT, "sawAll", OF_ANY, 0),
                    last(DELAY_QUEUE, "toArray([" + OBJECT + ")[" + OBJECT, "sawAll", OF_ANY, 0),
                    last(STACK_NODE, "<init>(" + OBJECT + ")V", "meets", OF_ANY, 0),
                    last(STACK_NODE, "tryMatch(L" + STACK_NODE + ";)Z", "metIf", OF_AN_ANSWER, 0),
                    last(QUEUE_NODE, "<init>(" + OBJECT + "Z)V", "meets", OF_ANY, 0),
                    first(QUEUE_NODE, "casItem(" + OBJECT + OBJECT + ")Z", "meets", OF_ANY, 0),
                    last(QUEUE_NODE, "casItem(" + OBJECT + OBJECT + ")Z", "metIf", OF_AN_ANSWER, 0),
                    last(TRANSFER_NODE, "<init>(" + OBJECT + ")V", "meets", OF_ANY, 0),
                    first(TRANSFER_NODE, "tryMatch(" + OBJECT + OBJECT + ")Z", "meets", OF_ANY, 0),
                    last(TRANSFER_NODE, "tryMatch(" + OBJECT + OBJECT + ")Z", "metIf", OF_AN_ANSWER, 0),
                    last(
                            TRANSFER_QUEUE,
                            "awaitMatch(L" + TRANSFER_NODE + ";L" + TRANSFER_NODE + ";" + OBJECT + "ZJ)" + OBJECT,
                            "met",
                            OF_ANY,
                            1),
                    first(SUBSCRIPTION, "offer(" + OBJECT + "Z)I", "meets", OF_ANY, 0),
                    first(SUBSCRIPTION, "startOnSignal(I)V", "meets", OF_ANY, 0),
                    first(SUBSCRIPTION, "consumeNext(L" + SUBSCRIBER + OBJECT + ")Z", "met", OF_ANY, 0),
                    last(SUBSCRIPTION, "consumeNext(L" + SUBSCRIBER + OBJECT + ")Z", "meets", OF_ANY, 0),
                    first(SUBSCRIPTION, "consumeSubscribe(L" + SUBSCRIBER + ")V", "met", OF_ANY, 0),
                    last(SUBSCRIPTION, "consumeSubscribe(L" + SUBSCRIBER + ")V", "meets", OF_ANY, 0),
                    first(SUBSCRIPTION, "consumeComplete(L" + SUBSCRIBER + ")V", "met", OF_ANY, 0),
                    first(SUBSCRIPTION, "consumeError(L" + SUBSCRIBER + "Ljava/lang/Throwable;)V", "met", OF_ANY, 0),
                    first(COPIED_LIST, "setArray([" + OBJECT + ")V", "meets", OF_ANY, 1),
                    last(COPIED_LIST, "getArray()[" + OBJECT, "met", OF_ANY),
                    first(PHASER, "doArrive(I)I", "arrives", OF_A_PHASER, 0),
                    first(PHASER, "arriveAndAwaitAdvance()I", "arrives", OF_A_PHASER, 0),
                    first(PHASER, "forceTermination()V", "arrives", OF_A_PHASER, 0),
                    last(PHASER, "arriveAndAwaitAdvance()I", "sawPhase", OF_A_PHASE, 0),
                    last(PHASER, "awaitAdvance(I)I", "sawPhase", OF_A_PHASE, 0),
                    last(PHASER, "awaitAdvanceInterruptibly(I)I", "sawPhase", OF_A_PHASE, 0),
                    last(PHASER, "awaitAdvanceInterruptibly(I" + TIMED.substring(1) + "I", "sawPhase", OF_A_PHASE, 0),
                    last(PHASER, "isTerminated()Z", "sawEnd", "(ZLjava/util/concurrent/Phaser;)V", 0));

    /** What else is put into a class, by its name. */
    private static final Map<String, BiConsumer<ClassNode, MethodNode>> EDITS = new HashMap<>();

    static {
        EDITS.put(ARRAY_QUEUE, OfHandovers::editArrayQueue);
        EDITS.put(PRIORITY_QUEUE, OfHandovers::editPriorityQueue);
        EDITS.put(DELAY_QUEUE, OfHandovers::editDelayQueue);
        EDITS.put(SYNCHRONOUS_QUEUE, OfHandovers::editSynchronousQueue);
        EDITS.put(TRANSFER_QUEUE, OfHandovers::editTransferQueue);
        EDITS.put(EXCHANGER, OfHandovers::editExchanger);
        EDITS.put(BARRIER, OfHandovers::editBarrier);
        EDITS.put(PHASER, OfHandovers::editPhaser);
        EDITS.put(PUBLISHER, (node, method) -> {});
        EDITS.put(COPIED_LIST, (node, method) -> {});
        OF_NODES.forEach(
                (name, isLocked) -> EDITS.put(name, (node, method) -> editQueueOfNodes(name, isLocked, node, method)));
    }

    /** Whether the class is one of those. */
    static boolean isOfThese(String name) {
        return EDITS.containsKey(outer(name));
    }

    private static String outer(String name) {
        int end = name.indexOf('$');
        return end < 0 ? name : name.substring(0, end);
    }

    @Override
    public byte[] transform(ClassLoader loader, String name, Class<?> before, ProtectionDomain domain, byte[] bytes) {
        if (loader != null || name == null || !isOfThese(name)) {
            return null;
        }
        try {
            return rewritten(name, bytes);
        } catch (RuntimeException failure) {
            Watched.unfollowed(outer(name).replace('/', '.'));
            return null;
        }
    }

    private static byte[] rewritten(String name, byte[] bytes) {
        ClassReader reader = new ClassReader(bytes);
        ClassNode node = new ClassNode();
        reader.accept(node, 0);
        List<Put> puts = PUTS.stream().filter(put -> put.type.equals(name)).toList();
        for (Put put : puts) {
            if (node.methods.stream().noneMatch(put::isFor)) {
                throw new IllegalStateException("it has no " + put.method);
            }
        }
        BiConsumer<ClassNode, MethodNode> edit = EDITS.get(outer(name));
        for (MethodNode method : node.methods) {
            edit.accept(node, method);
            puts.stream().filter(put -> put.isFor(method)).forEach(put -> put(put, method));
        }
        ClassWriter writer = new ClassWriter(reader, ClassWriter.COMPUTE_MAXS);
        node.accept(writer);
        return writer.toByteArray();
    }

    private static void put(Put put, MethodNode method) {
        Type[] given = Type.getArgumentTypes(put.descriptor);
        boolean takesResult = given.length > put.locals.length;
        if (!put.isAtEnd) {
            method.instructions.insert(callOf(put, given, false));
            return;
        }
        for (AbstractInsnNode one : method.instructions.toArray()) {
            if (one.getOpcode() >= Opcodes.IRETURN && one.getOpcode() <= Opcodes.RETURN) {
                method.instructions.insertBefore(one, callOf(put, given, takesResult));
            }
        }
    }

    private static InsnList callOf(Put put, Type[] given, boolean takesResult) {
        InsnList call = new InsnList();
        if (takesResult) {
            call.add(new InsnNode(Opcodes.DUP));
        }
        for (int place = 0; place < put.locals.length; place++) {
            call.add(new VarInsnNode(given[place + (takesResult ? 1 : 0)].getOpcode(Opcodes.ILOAD), put.locals[place]));
        }
        call.add(put.call());
        return call;
    }

    private static MethodInsnNode hook(String name, String descriptor) {
        return new MethodInsnNode(Opcodes.INVOKESTATIC, HOOKS, name, descriptor, false);
    }

    private static VarInsnNode load(int local) {
        return new VarInsnNode(Opcodes.ALOAD, local);
    }

    private static InsnNode plain(int code) {
        return new InsnNode(code);
    }

    /** The reads and the writes of a field in a method. */
    private static List<FieldInsnNode> accesses(MethodNode method, int opcode, String owner, String name) {
        return Arrays.stream(method.instructions.toArray())
                .filter(one -> one.getOpcode() == opcode)
                .map(one -> (FieldInsnNode) one)
                .filter(access -> access.owner.equals(owner) && access.name.equals(name))
                .toList();
    }

    /** A hook gets the object and what its field has, and gives that. */
    private static void seeField(MethodNode method, String owner, String name, String hook) {
        for (FieldInsnNode access : accesses(method, Opcodes.GETFIELD, owner, name)) {
            method.instructions.insertBefore(access, plain(Opcodes.DUP));
            method.instructions.insert(access, hook(hook, OF_ITEM));
        }
    }

    /** A hook gets the object before its field is written. */
    private static void putBeforeWrites(MethodNode method, String owner, String name, String hook) {
        for (FieldInsnNode access : accesses(method, Opcodes.PUTFIELD, owner, name)) {
            method.instructions.insertBefore(access, listOf(plain(Opcodes.DUP2), plain(Opcodes.POP), hook(hook, OF_ANY)));
        }
    }

    private static void editQueueOfNodes(String name, boolean isLocked, ClassNode node, MethodNode method) {
        String type = name + "$Node";
        if (node.name.equals(type)) {
            if (method.name.equals("<init>") && method.desc.equals(OF_ANY)) {
                put(last(type, OF_ANY, "putsNode", OF_TWO, 0, 1), method);
            } else if (method.name.equals("casItem")) {
                put(last(type, "", "leavesIf", OF_AN_ANSWER, 0), method);
            }
            return;
        }
        if (method.name.equals("newNode")) {
            put(last(type, "", "putsNode", OF_TWO, 0), method);
        }
        boolean onlyTidies = List.of("unlink", "update", "skip").stream().anyMatch(method.name::startsWith);
        if (isLocked || !onlyTidies) {
            seeField(method, type, "item", "seesItem");
        }
        if (isLocked) {
            putBeforeWrites(method, type, "item", "losesItem");
            for (FieldInsnNode access : accesses(method, Opcodes.PUTFIELD, type, "item")) {
                method.instructions.insertBefore(access, listOf(load(0), hook("makesRoom", OF_ANY)));
            }
        } else {
            putBehindRemoval(type, method);
        }
    }

    /** An element leaves its node by a handle, which gets the node, the element, and null. */
    private static void putBehindRemoval(String type, MethodNode method) {
        for (AbstractInsnNode one : method.instructions.toArray()) {
            boolean isByHandle = one instanceof MethodInsnNode call && call.owner.equals("java/lang/invoke/VarHandle");
            if (isByHandle && ((MethodInsnNode) one).desc.equals("(L" + type + ";" + OBJECT + "Ljava/lang/Void;)Z")) {
                int node = method.maxLocals;
                method.maxLocals += 2;
                method.instructions.insertBefore(one, listOf(plain(Opcodes.POP), new VarInsnNode(Opcodes.ASTORE, node + 1)));
                method.instructions.insertBefore(one, listOf(plain(Opcodes.DUP), new VarInsnNode(Opcodes.ASTORE, node)));
                method.instructions.insertBefore(one, listOf(load(node + 1), plain(Opcodes.ACONST_NULL)));
                method.instructions.insert(one, listOf(plain(Opcodes.DUP), load(node), hook("leavesIf", OF_AN_ANSWER)));
            }
        }
    }

    private static void editArrayQueue(ClassNode node, MethodNode method) {
        if (!node.name.equals(ARRAY_QUEUE)) {
            return;
        }
        if (method.name.equals("removeAt")) {
            putBeforeRemoval(method, ARRAY_QUEUE, "items");
        }
        for (FieldInsnNode access : accesses(method, Opcodes.PUTFIELD, ARRAY_QUEUE, "count")) {
            method.instructions.insertBefore(access, listOf(plain(Opcodes.DUP2), hook("keeps", "(" + OBJECT + "I)V")));
        }
        putIntoDrain(method);
    }

    private static void editPriorityQueue(ClassNode node, MethodNode method) {
        if (node.name.equals(PRIORITY_QUEUE) && method.name.equals("removeAt")) {
            putBeforeRemoval(method, PRIORITY_QUEUE, "queue");
        }
        if ((method.access & Opcodes.ACC_STATIC) == 0) {
            putBeforeComparing(method, PRIORITY_QUEUE, List.of("siftUp", "siftDown"));
        }
    }

    private static void editDelayQueue(ClassNode node, MethodNode method) {
        putIntoDrain(method);
        putBeforeComparing(method, "java/util/PriorityQueue", List.of("offer", "poll", "remove"));
        putBeforeComparing(method, CONCURRENT + "Delayed", List.of("getDelay"));
    }

    /** The queue is locked, and may call code of the program that looks into its elements. */
    private static void putBeforeComparing(MethodNode method, String owner, List<String> names) {
        for (AbstractInsnNode one : method.instructions.toArray()) {
            if (one instanceof MethodInsnNode call && call.owner.equals(owner) && names.stream().anyMatch(call.name::startsWith)) {
                method.instructions.insertBefore(one, listOf(load(0), hook("compares", OF_ANY)));
            }
        }
    }

    private static void putBeforeRemoval(MethodNode method, String owner, String field) {
        method.instructions.insert(
                listOf(
                        load(0),
                        new FieldInsnNode(Opcodes.GETFIELD, owner, field, "[" + OBJECT),
                        new VarInsnNode(Opcodes.ILOAD, 1),
                        plain(Opcodes.AALOAD),
                        load(0),
                        hook("took", OF_TWO)));
    }

    /** What is drained is seen before somebody else has it. It stays in the queue if that one throws. */
    private static void putIntoDrain(MethodNode method) {
        for (AbstractInsnNode one : method.instructions.toArray()) {
            boolean isAdding = one instanceof MethodInsnNode call && call.name.equals("add");
            if (method.name.equals("drainTo") && isAdding) {
                int element = method.maxLocals++;
                method.instructions.insertBefore(one, listOf(plain(Opcodes.DUP), new VarInsnNode(Opcodes.ASTORE, element)));
                method.instructions.insertBefore(one, listOf(load(element), load(0), hook("saw", OF_TWO)));
                method.instructions.insert(one, listOf(load(element), load(0), hook("took", OF_TWO)));
            }
        }
    }

    private static void editSynchronousQueue(ClassNode node, MethodNode method) {
        if (!method.name.equals("transfer")) {
            return;
        }
        for (FieldInsnNode access : accesses(method, Opcodes.GETFIELD, STACK_NODE, "match")) {
            method.instructions.insertBefore(access, plain(Opcodes.DUP));
            TypeInsnNode cast = new TypeInsnNode(Opcodes.CHECKCAST, STACK_NODE);
            method.instructions.insert(access, listOf(hook("meetsNode", OF_ITEM), cast));
        }
        for (FieldInsnNode access : accesses(method, Opcodes.GETFIELD, QUEUE_NODE, "item")) {
            method.instructions.insertBefore(access, plain(Opcodes.DUP));
            String descriptor = "(" + OBJECT + OBJECT + OBJECT + ")" + OBJECT;
            method.instructions.insert(access, listOf(load(1), hook("meetsItem", descriptor)));
        }
    }

    private static void editTransferQueue(ClassNode node, MethodNode method) {
        if (!node.name.equals(TRANSFER_NODE) && !Set.of("xfer", "awaitMatch").contains(method.name)) {
            seeField(method, TRANSFER_NODE, "item", "seesOffer");
        }
    }

    private static void editExchanger(ClassNode node, MethodNode method) {
        String type = EXCHANGER + "$Node";
        for (String field : List.of("item", "match")) {
            seeField(method, type, field, "seesOffer");
            putBeforeWrites(method, type, field, "meets");
        }
    }

    /**
     * All who meet at a barrier in one generation come after one another. Its action comes after those who arrive, too.
     */
    private static void editBarrier(ClassNode node, MethodNode method) {
        InsnList code = method.instructions;
        String generation = "L" + BARRIER + "$Generation;";
        if (method.name.equals("nextGeneration")) {
            FieldInsnNode current = new FieldInsnNode(Opcodes.GETFIELD, BARRIER, "generation", generation);
            code.insert(listOf(load(0), current, hook("meets", OF_ANY)));
        }
        if (!method.name.equals("dowait")) {
            return;
        }
        VarInsnNode kept = (VarInsnNode) accesses(method, Opcodes.GETFIELD, BARRIER, "generation").get(0).getNext();
        if (kept.getOpcode() != Opcodes.ASTORE) {
            throw new IllegalStateException("it does not keep its generation");
        }
        code.insert(kept, listOf(load(kept.var), hook("meets", OF_ANY)));
        for (FieldInsnNode action : accesses(method, Opcodes.GETFIELD, BARRIER, "barrierCommand")) {
            code.insertBefore(action, listOf(load(kept.var), hook("met", OF_ANY)));
        }
        put(last(BARRIER, "", "met", OF_ANY, kept.var), method);
    }

    private static void editPhaser(ClassNode node, MethodNode method) {
        for (AbstractInsnNode one : method.instructions.toArray()) {
            if (one instanceof MethodInsnNode call && call.name.equals("onAdvance") && call.owner.equals(PHASER)) {
                method.instructions.insertBefore(one, listOf(load(0), hook("advances", OF_A_PHASER)));
                method.instructions.insert(one, listOf(load(0), hook("arrives", OF_A_PHASER)));
            }
        }
    }
}
