package example.hometturi.itctrace.agent;

import example.hometturi.itctrace.Field;
import example.hometturi.itctrace.Kinds;
import example.hometturi.itctrace.Type;
import example.hometturi.itctrace.Watched;
import java.io.IOException;
import java.io.InputStream;
import java.net.URL;
import java.util.ArrayList;
import java.util.HashSet;
import java.util.List;
import java.util.Map;
import java.util.Optional;
import java.util.OptionalInt;
import java.util.Set;
import java.util.WeakHashMap;
import java.util.concurrent.ConcurrentHashMap;
import java.util.stream.Collectors;
import org.objectweb.asm.ClassReader;
import org.objectweb.asm.ClassVisitor;
import org.objectweb.asm.FieldVisitor;
import org.objectweb.asm.MethodVisitor;
import org.objectweb.asm.Opcodes;

/** What the class files of the program say, before their classes are there. */
final class Classes {
    /** It is looked at with its monitor held. What the JDK has for that is followed by the agent itself. */
    private final Map<ClassLoader, Map<String, Optional<Described>>> known = new WeakHashMap<>();

    /** What the file of a class says of its fields and its kin. */
    static final class Described extends ClassVisitor {
        final Type type;
        final boolean isWatched;
        private final List<Field> fields = new ArrayList<>();
        private final Set<String> methods = new HashSet<>();
        private int size;
        private int number = -1;
        String above;
        String[] interfaces;
        boolean isInitialized;

        Described(String name, boolean isWatched) {
            super(Opcodes.ASM9);
            type = new Type(name);
            this.isWatched = isWatched;
            simpleName = name.substring(name.lastIndexOf('/') + 1).replace('$', '.');
        }

        final String simpleName;

        @Override
        public void visit(int version, int access, String name, String signature, String superName, String[] implemented) {
            above = superName;
            interfaces = implemented;
        }

        @Override
        public FieldVisitor visitField(int access, String name, String descriptor, String signature, Object value) {
            boolean isStatic = (access & Opcodes.ACC_STATIC) != 0;
            boolean isVolatile = (access & Opcodes.ACC_VOLATILE) != 0;
            boolean isFinal = (access & Opcodes.ACC_FINAL) != 0;
            int index = isStatic || isFinal ? 0 : size++;
            fields.add(new Field(type, simpleName + "." + name, isStatic, isVolatile, isFinal, index));
            return null;
        }

        @Override
        public MethodVisitor visitMethod(int access, String name, String descriptor, String signature, String[] exceptions) {
            isInitialized |= name.equals("<clinit>");
            if ((access & Opcodes.ACC_ABSTRACT) == 0) {
                methods.add(name + descriptor);
            }
            return null;
        }

        @Override
        public void visitEnd() {
            if (isWatched) {
                type.setFields(fields.stream().collect(Collectors.toMap(field -> field.name().substring(simpleName.length() + 1), field -> field)));
            }
            type.setVariables(fields.stream().filter(field -> !field.isStatic() && !field.isFinal()).toList());
        }

        /** By which the hooks name the class. */
        synchronized int number() {
            number = number < 0 ? Watched.numberOf(type) : number;
            return number;
        }

        boolean hasVariables() {
            return size > 0;
        }

        Field field(String name) {
            String full = simpleName + "." + name;
            return fields.stream().filter(field -> field.name().equals(full)).findFirst().orElse(null);
        }
    }

    private final Watching watching;

    Classes(Watching watching) {
        this.watching = watching;
    }

    /** What a class that is being loaded says. */
    Described describe(ClassLoader loader, String name, ClassReader reader) {
        return of(loader, name).orElseGet(
                () -> {
                    Described described = read(name, reader);
                    Optional<Described> before = of(loader).put(name, Optional.of(described));
                    return before != null && before.isPresent() ? before.get() : described;
                });
    }

    private Described read(String name, ClassReader reader) {
        Described described = new Described(name, watching.hasName(name));
        reader.accept(described, ClassReader.SKIP_CODE | ClassReader.SKIP_DEBUG | ClassReader.SKIP_FRAMES);
        return described;
    }

    private Map<String, Optional<Described>> of(ClassLoader loader) {
        synchronized (known) {
            return known.computeIfAbsent(loader, fresh -> new ConcurrentHashMap<>());
        }
    }

    /** What a class says, as this loader finds it. Empty for one of the JDK, and for one whose file cannot be read. */
    Optional<Described> of(ClassLoader loader, String name) {
        if (loader == null || Watching.isOfJdk(name)) {
            return Optional.empty();
        }
        Optional<Described> found = of(loader).get(name);
        if (found == null) {
            found = find(loader, name);
            Optional<Described> before = of(loader).putIfAbsent(name, found);
            found = before == null ? found : before;
        }
        return found;
    }

    private Optional<Described> find(ClassLoader loader, String name) {
        String file = name + ".class";
        URL place = loader.getResource(file);
        ClassLoader parent = loader.getParent();
        if (place == null) {
            return Optional.empty();
        }
        if (parent != null && place.equals(parent.getResource(file))) {
            return of(parent, name);
        }
        try (InputStream bytes = place.openStream()) {
            return Optional.of(read(name, new ClassReader(bytes)));
        } catch (IOException | RuntimeException unreadable) {
            return Optional.empty();
        }
    }

    /** The field that code of this loader means. Null if it is of the JDK, or unknown. */
    Field field(ClassLoader loader, String owner, String name) {
        Optional<Described> described = of(loader, owner);
        while (described.isPresent()) {
            Field field = described.get().field(name);
            if (field != null) {
                return described.get().isWatched ? field : null;
            }
            for (String one : described.get().interfaces) {
                Field constant = field(loader, one, name);
                if (constant != null) {
                    return constant;
                }
            }
            described = of(loader, described.get().above);
        }
        return null;
    }

    /** Whether the field that code of this loader means is one of the JDK. */
    boolean isOfJdk(ClassLoader loader, String owner, String name) {
        String one = owner;
        for (Optional<Described> described = of(loader, one); described.isPresent(); described = of(loader, one)) {
            if (described.get().field(name) != null) {
                return false;
            }
            one = described.get().above;
        }
        return Watching.isOfJdk(one);
    }

    /** Whether the method that code of this loader calls is one of a class that is watched. */
    boolean declares(ClassLoader loader, String owner, String method) {
        for (Optional<Described> one = of(loader, owner); one.isPresent(); one = of(loader, one.get().above)) {
            if (one.get().methods.contains(method)) {
                return one.get().isWatched;
            }
        }
        return false;
    }

    /** The class of the JDK that this one is, or has above. Null if that is Object, or unknown. */
    String ofTheJdk(ClassLoader loader, String name) {
        String one = name;
        while (one != null && !Watching.isOfJdk(one)) {
            one = one.startsWith("[") ? null : of(loader, one).map(described -> described.above).orElse(null);
        }
        return one == null || one.equals("java/lang/Object") ? null : one;
    }

    /** An interface of the JDK that this one of the program extends, of which an object may be looked at. Null if there is none. */
    String interfaceOfTheJdk(ClassLoader loader, String name) {
        for (String one : of(loader, name).map(described -> described.interfaces).orElse(new String[0])) {
            String found = !Watching.isOfJdk(one) ? interfaceOfTheJdk(loader, one) : mayMatter(one) ? one : null;
            if (found != null) {
                return found;
            }
        }
        return null;
    }

    private static boolean mayMatter(String name) {
        return !Kinds.isSurelySafe(name) || name.startsWith("java/util/concurrent/");
    }

    /** The number of a class that has something to initialize. */
    OptionalInt numberOf(ClassLoader loader, String name) {
        return of(loader, name).filter(one -> one.isInitialized && one.isWatched).map(one -> OptionalInt.of(one.number())).orElse(OptionalInt.empty());
    }
}
