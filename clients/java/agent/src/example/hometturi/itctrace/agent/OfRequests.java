package example.hometturi.itctrace.agent;

import static example.hometturi.itctrace.agent.Rewriter.listOf;

import java.lang.instrument.ClassFileTransformer;
import java.security.ProtectionDomain;
import java.util.Arrays;
import java.util.List;
import java.util.Map;
import java.util.stream.Stream;
import org.objectweb.asm.ClassReader;
import org.objectweb.asm.ClassWriter;
import org.objectweb.asm.Opcodes;
import org.objectweb.asm.tree.AbstractInsnNode;
import org.objectweb.asm.tree.ClassNode;
import org.objectweb.asm.tree.FieldInsnNode;
import org.objectweb.asm.tree.InsnList;
import org.objectweb.asm.tree.LdcInsnNode;
import org.objectweb.asm.tree.MethodInsnNode;
import org.objectweb.asm.tree.MethodNode;
import org.objectweb.asm.tree.VarInsnNode;

/** Has the clients and the server of HTTP that the JDK has carry messages, whoever calls them. */
final class OfRequests implements ClassFileTransformer {
    private static final String HOOKS = "example/hometturi/itctrace/Requests";
    private static final String WATCHED = "example/hometturi/itctrace/Watched";
    private static final String HEADER = "Itc-Trace";
    private static final String OBJECT = "Ljava/lang/Object;";
    private static final String MAP = "Ljava/util/Map;";
    private static final String CONNECTION = "sun/net/www/protocol/http/HttpURLConnection";
    private static final String CONNECTION_STREAM = CONNECTION + "$HttpInputStream";
    private static final String SOCKET_CLIENT = "sun/net/www/http/HttpClient";
    private static final String HEADERS = "Lsun/net/www/MessageHeader;";
    private static final String CLIENT = "jdk/internal/net/http/";
    private static final String REQUEST = CLIENT + "HttpRequestImpl";
    private static final String RESPONSE = CLIENT + "Response";
    private static final String COMPLETED = CLIENT + "HttpResponseImpl";
    private static final String BODY_STREAM = CLIENT + "ResponseSubscribers$HttpResponseInputStream";
    private static final String BUILDER = CLIENT + "common/HttpHeadersBuilder";
    private static final String OF_CLIENT = "java/net/http/HttpHeaders";
    private static final String SERVER = "sun/net/httpserver/";
    private static final String EXCHANGE = SERVER + "ExchangeImpl";
    private static final String CONTEXT = SERVER + "HttpContextImpl";
    private static final String OF_SERVER = "Lcom/sun/net/httpserver/Headers;";

    /** Where something is put into a method. */
    private enum Where {
        FIRST,
        BEFORE_RETURNS,
        BEFORE_CALLS,
        BEHIND_CALLS,
        BEFORE_WRITES
    }

    /**
     * The method, by its name and maybe its descriptor, and what is put there. A call or a written field has the name
     * in full.
     */
    private record Put(String type, String method, Where where, String place, InsnList code) {
        boolean isFor(MethodNode one) {
            return method.equals(one.name) || method.equals(one.name + one.desc);
        }

        boolean isAt(AbstractInsnNode one) {
            return switch (where) {
                case FIRST -> false;
                case BEFORE_RETURNS -> one.getOpcode() >= Opcodes.IRETURN && one.getOpcode() <= Opcodes.RETURN;
                case BEFORE_CALLS, BEHIND_CALLS -> one instanceof MethodInsnNode call && isNamed(call.owner, call.name);
                case BEFORE_WRITES -> one.getOpcode() == Opcodes.PUTFIELD && isWritten((FieldInsnNode) one);
            };
        }

        private boolean isWritten(FieldInsnNode access) {
            return isNamed(access.owner, access.name);
        }

        private boolean isNamed(String owner, String name) {
            return place.equals(owner + "." + name);
        }
    }

    private static VarInsnNode load(int local) {
        return new VarInsnNode(Opcodes.ALOAD, local);
    }

    private static FieldInsnNode field(String owner, String name, String descriptor) {
        return new FieldInsnNode(Opcodes.GETFIELD, owner, name, descriptor);
    }

    private static MethodInsnNode hook(String name, String descriptor) {
        return new MethodInsnNode(Opcodes.INVOKESTATIC, HOOKS, name, descriptor, false);
    }

    private static MethodInsnNode call(String owner, String name, String descriptor) {
        return new MethodInsnNode(Opcodes.INVOKEVIRTUAL, owner, name, descriptor, false);
    }

    private static MethodInsnNode gives() {
        return new MethodInsnNode(Opcodes.INVOKESTATIC, WATCHED, "gives", "(" + OBJECT + ")V", false);
    }

    private static final String ADDRESS = "Ljava/net/URI;";
    private static final String TEXT = "Ljava/lang/String;";

    /** What a request of a client is about to send besides the headers of the program. */
    private static InsnList asking(String hook, InsnList earlier, String descriptor) {
        InsnList code = listOf(load(0));
        code.add(earlier);
        code.add(listOf(load(0), field(REQUEST, "uri", ADDRESS)));
        code.add(listOf(load(0), field(REQUEST, "systemHeadersBuilder", "L" + BUILDER + ";")));
        code.add(listOf(call(BUILDER, "map", "()" + MAP), hook(hook, descriptor)));
        return code;
    }

    private static Put first(String type, String method, InsnList code) {
        return new Put(type, method, Where.FIRST, "", code);
    }

    private static Put last(String type, String method, InsnList code) {
        return new Put(type, method, Where.BEFORE_RETURNS, "", code);
    }

    private static List<Put> puts() {
        return Stream.of(ofConnections(), ofClients(), ofServers()).flatMap(List::stream).toList();
    }

    private static List<Put> ofConnections() {
        InsnList asking = listOf(load(0), load(0), field(CONNECTION, "url", "Ljava/net/URL;"));
        asking.add(call("java/net/URL", "getHost", "()" + TEXT));
        asking.add(listOf(load(0), field(CONNECTION, "requests", HEADERS)));
        asking.add(hook("asks", "(" + OBJECT + TEXT + HEADERS + ")V"));
        InsnList answered = listOf(load(0), load(0), field(CONNECTION, "responses", HEADERS));
        answered.add(hook("answered", "(" + OBJECT + HEADERS + ")V"));
        InsnList read = listOf(load(0), field(CONNECTION_STREAM, "this$0", "L" + CONNECTION + ";"));
        read.add(hook("readOf", "(I" + OBJECT + ")I"));
        return List.of(
                new Put(CONNECTION, "writeRequests", Where.BEFORE_CALLS, SOCKET_CLIENT + ".writeRequests", asking),
                new Put(CONNECTION, "getInputStream0", Where.BEHIND_CALLS, SOCKET_CLIENT + ".parseHTTP", answered),
                last(CONNECTION_STREAM, "read", read));
    }

    private static List<Put> ofClients() {
        String byRequest = "<init>(Ljava/net/http/HttpRequest;Ljava/net/ProxySelector;)V";
        String byResponse = "<init>(" + ADDRESS + TEXT + "L" + REQUEST + ";Z)V";
        String ofResponse = "<init>(L" + REQUEST + ";L" + CLIENT + "Exchange;L" + OF_CLIENT + ";L" + CLIENT;
        String again = "(" + OBJECT + OBJECT + ADDRESS + MAP + ")V";
        String all = "(" + MAP + "Ljava/util/function/BiPredicate;)L" + OF_CLIENT + ";";
        InsnList ofProgram = listOf(call(OF_CLIENT, "map", "()" + MAP), hook("ofProgram", "(" + MAP + ")" + MAP));
        ofProgram.add(hook("all", "()Ljava/util/function/BiPredicate;"));
        ofProgram.add(new MethodInsnNode(Opcodes.INVOKESTATIC, OF_CLIENT, "of", all, false));
        InsnList answered = listOf(load(1), load(3), new LdcInsnNode(HEADER));
        answered.add(call(OF_CLIENT, "firstValue", "(" + TEXT + ")Ljava/util/Optional;"));
        answered.add(hook("answered", "(" + OBJECT + "Ljava/util/Optional;)V"));
        InsnList completed = listOf(load(2), call(RESPONSE, "request", "()L" + REQUEST + ";"), load(4));
        completed.add(hook("completed", "(" + OBJECT + OBJECT + ")V"));
        return List.of(
                new Put(REQUEST, byRequest, Where.BEFORE_WRITES, REQUEST + ".userHeaders", ofProgram),
                last(REQUEST, byRequest, asking("asks", listOf(), "(" + OBJECT + ADDRESS + MAP + ")V")),
                last(REQUEST, byResponse, asking("asksAgain", listOf(load(3)), again)),
                last(RESPONSE, ofResponse + "HttpConnection;ILjava/net/http/HttpClient$Version;Z)V", answered),
                last(COMPLETED, "<init>", completed),
                last(BODY_STREAM, "read", listOf(load(0), hook("read", "(I" + OBJECT + ")I"))));
    }

    private static List<Put> ofServers() {
        String server = SERVER + "ServerImpl";
        String run = server + "$Exchange";
        InsnList arriving = listOf(load(0), field(run, "tx", "L" + EXCHANGE + ";"));
        arriving.add(listOf(load(0), field(run, "ctx", "L" + CONTEXT + ";")));
        arriving.add(listOf(load(0), field(run, "tx", "L" + EXCHANGE + ";"), field(EXCHANGE, "reqHdrs", OF_SERVER)));
        arriving.add(hook("arrives", "(" + OBJECT + OBJECT + MAP + ")V"));
        InsnList answering = listOf(load(0), load(0), field(EXCHANGE, "rspHdrs", OF_SERVER));
        answering.add(hook("answers", "(" + OBJECT + MAP + ")V"));
        InsnList stopped = listOf(load(0), load(0), field(server, "exchangeCount", "I"));
        stopped.add(hook("stopped", "(" + OBJECT + "I)V"));
        return List.of(
                new Put(run, "run", Where.BEFORE_CALLS, "com/sun/net/httpserver/Filter$Chain.doFilter", arriving),
                first(EXCHANGE, "sendResponseHeaders", answering),
                first(SERVER + "FixedLengthOutputStream", "write", sending("FixedLengthOutputStream")),
                first(SERVER + "ChunkedOutputStream", "close", sending("ChunkedOutputStream")),
                first(SERVER + "UndefLengthOutputStream", "close", sending("UndefLengthOutputStream")),
                last(CONTEXT, "<init>", listOf(load(0), gives())),
                first(CONTEXT, "setHandler", listOf(load(0), gives())),
                first(server, "addEvent", listOf(load(0), gives())),
                last(server, "stop", stopped));
    }

    private static InsnList sending(String stream) {
        return listOf(load(0), field(SERVER + stream, "t", "L" + EXCHANGE + ";"), hook("sends", "(" + OBJECT + ")V"));
    }

    private static final List<String> CLASSES = puts().stream().map(Put::type).distinct().toList();

    static boolean isOfThese(String name) {
        return CLASSES.contains(name);
    }

    @Override
    public byte[] transform(ClassLoader loader, String name, Class<?> before, ProtectionDomain domain, byte[] bytes) {
        if (name == null || !isOfThese(name) || !Watching.isOfJdk(loader)) {
            return null;
        }
        try {
            return rewritten(name, bytes);
        } catch (RuntimeException failure) {
            Agent.unwatched(name.replace('/', '.'), failure);
            return null;
        }
    }

    private static byte[] rewritten(String name, byte[] bytes) {
        ClassReader reader = new ClassReader(bytes);
        ClassNode node = new ClassNode();
        reader.accept(node, 0);
        for (Put put : puts()) {
            boolean isDue = put.type.equals(name);
            if (isDue && node.methods.stream().filter(put::isFor).mapToInt(method -> put(put, method)).sum() == 0) {
                throw new IllegalStateException("it has no " + put.method + " with " + put.where + " " + put.place);
            }
        }
        ClassWriter writer = new ClassWriter(reader, ClassWriter.COMPUTE_MAXS);
        node.accept(writer);
        return writer.toByteArray();
    }

    /** Puts the code there, and gives at how many places. */
    private static int put(Put put, MethodNode method) {
        if (put.where == Where.FIRST) {
            method.instructions.insert(copyOf(put.code));
            return 1;
        }
        List<AbstractInsnNode> places = Arrays.stream(method.instructions.toArray()).filter(put::isAt).toList();
        for (AbstractInsnNode one : places) {
            if (put.where == Where.BEHIND_CALLS) {
                method.instructions.insert(one, copyOf(put.code));
            } else {
                method.instructions.insertBefore(one, copyOf(put.code));
            }
        }
        return places.size();
    }

    private static InsnList copyOf(InsnList code) {
        InsnList copy = new InsnList();
        for (AbstractInsnNode one : code.toArray()) {
            copy.add(one.clone(Map.of()));
        }
        return copy;
    }
}
