package example.hometturi.itctrace;

import java.lang.reflect.Modifier;
import java.util.Enumeration;
import java.util.HashSet;
import java.util.Iterator;
import java.util.List;
import java.util.Map;
import java.util.Set;
import java.util.Spliterator;
import java.util.stream.BaseStream;
import java.util.stream.Stream;

/**
 * What is known of the classes of the JDK: whose objects threads may share as they are, whose calls are known to change the object or
 * only to read it, and of which nothing is known.
 */
public final class Kinds {
    /** How the objects of a class are looked at. */
    enum How {
        /** They do not change, or guard themselves, or their orders are followed elsewhere. */
        NONE,
        /** As a whole, which stands for itself. */
        OWN,
        /** As a whole. It shows what another one has, as an iterator does. */
        VIEW,
        /** Each call is known to read the object or to change it. */
        FOLLOWED,
        /** A buffer, whose position is its own, and whose content others may have, too. */
        BUFFER,
        /** Nobody knows whether a call changes the object. */
        UNKNOWN
    }

    /**
     * Of a followed class, which methods change an object, or which ones do not, by how they begin. Those that are unsure read it, and
     * may change it, as they work out what was not asked for before. Of some classes no method of another object changes what it gets.
     */
    private record Methods(boolean areChanging, List<String> beginnings, List<String> unsure, boolean isReadWhereGiven) {
        Methods(boolean areChanging, List<String> beginnings) {
            this(areChanging, beginnings, List.of(), false);
        }

        boolean change(String method) {
            return areChanging == beginnings.stream().anyMatch(method::startsWith);
        }

        boolean mayChange(String method) {
            return unsure.stream().anyMatch(method::startsWith);
        }
    }

    /** What is known of one class. What goes on as it is used has a position, which has the name of what it does. */
    record Kind(How how, Methods methods, String name, String positionName) {
        private static final Set<String> LOOKING_ON =
                Set.of(
                        "hasNext", "hasMoreElements", "hasPrevious", "nextIndex", "previousIndex", "estimateSize", "characteristics", "isParallel",
                        "toString", "hashCode", "equals");

        boolean isStepping() {
            return positionName != null;
        }

        boolean isLookedAt() {
            return how != How.NONE || isStepping();
        }

        boolean changes(String method) {
            return methods.change(method);
        }

        boolean mayChange(String method) {
            return methods.mayChange(method);
        }

        /** Whether a method of another object that gets the object only reads it. */
        boolean isReadWhereGiven() {
            return methods.isReadWhereGiven;
        }

        static boolean steps(String method) {
            return !LOOKING_ON.contains(method);
        }
    }

    private static final List<Map.Entry<Class<?>, String>> STEPPING =
            List.of(
                    Map.entry(Iterator.class, "Iterator"),
                    Map.entry(Enumeration.class, "Enumeration"),
                    Map.entry(Spliterator.class, "Spliterator"),
                    Map.entry(BaseStream.class, "Stream"));

    private static final List<String> OF_ANY = List.of("toString", "hashCode", "equals");
    private static final Methods BY_SETTERS = changing("set");
    private static final Methods OF_A_VALUE = new Methods(true, List.of("set"), List.of(), true);
    private static final Methods OF_A_SUM = changing("accept", "combine", "update", "reset");
    private static final Methods OF_AN_ALGORITHM = reading("get", "clone");
    private static final Methods OF_A_CODER =
            reading("charset", "maxBytesPer", "averageBytesPer", "maxCharsPer", "averageCharsPer", "malformedInput", "unmappable", "replacement");
    private static final Methods OF_A_CALENDAR =
            new Methods(
                    true, List.of("set", "add", "roll", "clear", "complete", "compute"), List.of("get", "before", "after", "compareTo", "toInstant"), false);

    /** By the names of classes, which hold for those below them, too. */
    private static final Map<String, Methods> FOLLOWED =
            Map.ofEntries(
                    Map.entry("java.lang.StringBuilder", changing("append", "insert", "delete", "replace", "reverse", "set", "ensure", "trim")),
                    Map.entry("java.util.BitSet", changing("set", "clear", "flip", "and", "or", "xor")),
                    Map.entry("java.util.Date", OF_A_VALUE),
                    Map.entry("java.util.TimeZone", OF_A_VALUE),
                    Map.entry("java.util.zip.ZipEntry", BY_SETTERS),
                    Map.entry("java.util.logging.LogRecord", BY_SETTERS),
                    Map.entry("java.text.ParsePosition", BY_SETTERS),
                    Map.entry("java.text.FieldPosition", BY_SETTERS),
                    Map.entry("java.text.DecimalFormatSymbols", OF_A_VALUE),
                    Map.entry("java.text.DateFormatSymbols", OF_A_VALUE),
                    Map.entry("java.text.ChoiceFormat", changing("set", "apply")),
                    Map.entry("java.util.StringJoiner", changing("add", "set", "merge")),
                    Map.entry("java.util.zip.CRC32", OF_A_SUM),
                    Map.entry("java.util.zip.CRC32C", OF_A_SUM),
                    Map.entry("java.util.zip.Adler32", OF_A_SUM),
                    Map.entry("java.util.IntSummaryStatistics", OF_A_SUM),
                    Map.entry("java.util.LongSummaryStatistics", OF_A_SUM),
                    Map.entry("java.util.DoubleSummaryStatistics", OF_A_SUM),
                    Map.entry("java.util.SplittableRandom", reading("isDeprecated")),
                    Map.entry("java.util.StringTokenizer", reading("countTokens")),
                    Map.entry("java.util.Scanner", reading("delimiter", "locale", "radix", "ioException", "match")),
                    Map.entry("java.util.Formatter", reading("locale", "ioException", "out")),
                    Map.entry("java.util.Calendar", OF_A_CALENDAR),
                    Map.entry("java.text.Format", reading("clone", "toPattern", "toLocalized", "get", "is")),
                    Map.entry(
                            "java.util.regex.Matcher",
                            reading("group", "start", "end", "hitEnd", "requireEnd", "pattern", "toMatchResult", "regionStart", "regionEnd", "has")),
                    Map.entry("java.security.MessageDigest", OF_AN_ALGORITHM),
                    Map.entry("java.security.Signature", OF_AN_ALGORITHM),
                    Map.entry("javax.crypto.Mac", OF_AN_ALGORITHM),
                    Map.entry("javax.crypto.Cipher", OF_AN_ALGORITHM),
                    Map.entry("javax.crypto.KeyAgreement", OF_AN_ALGORITHM),
                    Map.entry("java.nio.charset.CharsetEncoder", OF_A_CODER),
                    Map.entry("java.nio.charset.CharsetDecoder", OF_A_CODER));

    /** Those, with the classes below them, that are of a package below, or of a class above, and are not as that. */
    private static final Set<String> OTHERWISE =
            Set.of(
                    "java.util.WeakHashMap", "java.util.ServiceLoader", "java.lang.ProcessBuilder", "java.lang.invoke.MutableCallSite",
                    "java.text.MessageFormat", "java.time.format.DateTimeFormatterBuilder", "java.net.URLConnection", "java.net.HttpCookie",
                    "jdk.internal.net.http.HttpRequestBuilderImpl", "jdk.internal.net.http.HttpClientBuilderImpl");
    /** Those, with the classes below them, that do not change, or that guard themselves. */
    private static final Set<String> SAFE =
            Set.of(
                    "java.io.Reader", "java.io.Writer", "java.io.PrintStream", "java.io.BufferedInputStream", "java.io.BufferedOutputStream",
                    "java.io.ByteArrayInputStream", "java.io.ByteArrayOutputStream", "java.io.FileInputStream", "java.io.FileOutputStream",
                    "java.io.PipedInputStream", "java.io.PipedOutputStream", "java.io.Console", "java.io.File", "java.io.FileDescriptor",
                    "java.io.ObjectStreamClass", "java.io.ObjectStreamField", "java.util.Currency", "java.util.Locale", "java.util.Objects",
                    "java.util.Optional", "java.util.OptionalDouble", "java.util.OptionalInt", "java.util.OptionalLong", "java.util.Random",
                    "java.util.Timer", "java.util.TimerTask", "java.util.UUID", "java.util.Vector", "java.util.Hashtable",
                    "java.util.ResourceBundle", "java.util.EventObject", "java.util.Base64", "java.util.HexFormat", "java.util.Observable",
                    "java.util.regex.Pattern", "java.util.zip.ZipFile", "java.util.zip.Inflater", "java.util.zip.Deflater", "java.util.Arrays",
                    "java.util.Collections", "java.util.Comparator", "java.util.EventListener", "java.util.stream.Collectors",
                    "java.util.stream.Collector", "java.util.stream.StreamSupport", "java.text.Collator", "java.text.CollationKey",
                    "java.text.Normalizer", "java.security.KeyPair", "java.security.CodeSource", "java.security.ProtectionDomain",
                    "java.security.Permission", "java.security.cert.Certificate", "java.security.cert.CRL", "java.sql.DriverManager",
                    "java.awt.Color", "java.awt.Font", "java.beans.PropertyChangeSupport", "javax.management.ObjectName",
                    "javax.xml.namespace.QName", "com.sun.net.httpserver.HttpServer");
    /** Of these packages all classes are so but those above. */
    private static final List<String> SAFE_PACKAGES =
            List.of(
                    "java.lang.", "java.time.", "java.math.", "java.util.concurrent.", "java.util.function.", "java.util.logging.",
                    "java.util.prefs.", "java.nio.file.", "java.nio.channels.", "java.nio.charset.", "java.net.",
                    "java.security.spec.", "javax.crypto.spec.", "javax.net.", "sun.nio.", "sun.util.", "jdk.internal.net.http.", "jdk.internal.reflect.",
                    "jdk.internal.loader.", "java.util.Base64$", "java.util.Comparators$", "java.util.Collections$Reverse",
                    "java.util.ImmutableCollections", "java.util.Collections$Empty", "java.util.Collections$Singleton",
                    "java.util.Collections$Synchronized", "java.util.stream.Collectors$", "java.util.Hashtable$", "java.util.Vector$",
                    "java.util.regex.Pattern$", "java.util.KeyValueHolder");
    /** What has these is so, whatever class of the JDK it is. */
    private static final Set<String> SAFE_INTERFACES =
            Set.of(
                    "java.nio.file.Path", "java.nio.file.FileSystem", "java.nio.channels.Channel", "java.security.Key", "java.security.Principal",
                    "java.lang.reflect.AnnotatedElement", "java.lang.reflect.Type", "java.lang.annotation.Annotation",
                    "java.lang.management.PlatformManagedObject", "java.lang.ProcessHandle", "java.lang.System$Logger");
    /** Of the JDK's these have nothing of their own, so that what a program makes below them is watched by its fields. */
    private static final Set<String> BASES =
            Set.of(
                    "java.io.InputStream", "java.io.OutputStream", "java.io.FilterInputStream", "java.io.FilterOutputStream",
                    "java.util.AbstractCollection", "java.util.AbstractQueue", "java.util.AbstractSet", "java.text.Format");
    /** Kinds of a package that seems safe, of which some object may not be. */
    private static final Set<String> MAYBE =
            Set.of(
                    "java.lang.Iterable", "java.lang.CharSequence", "java.lang.Appendable", "java.lang.AutoCloseable", "java.lang.Readable",
                    "java.lang.Comparable", "java.lang.Cloneable", "java.lang.Object");

    private static final ClassValue<Kind> KINDS =
            new ClassValue<>() {
                @Override
                protected Kind computeValue(Class<?> type) {
                    return kindOf(type);
                }
            };

    private Kinds() {}

    private static Methods changing(String... beginnings) {
        return new Methods(true, List.of(beginnings));
    }

    private static Methods reading(String... beginnings) {
        return new Methods(false, Stream.concat(OF_ANY.stream(), Stream.of(beginnings)).toList());
    }

    static Kind of(Object object) {
        return KINDS.get(object.getClass());
    }

    /** Whether no object that code knows by this class, which is named as in a class file, is ever looked at. */
    public static boolean isSurelySafe(String owner) {
        String name = owner.replace('/', '.');
        if (MAYBE.contains(name) || OTHERWISE.contains(name) || FOLLOWED.containsKey(name)) {
            return false;
        }
        boolean isThrown = name.endsWith("Exception") || name.endsWith("Error");
        return isThrown || SAFE.contains(name) || isOfSafePackage(name);
    }

    private static boolean isOfSafePackage(String name) {
        return SAFE_PACKAGES.stream().anyMatch(name::startsWith);
    }

    private static Kind kindOf(Class<?> type) {
        if (type.isArray()) {
            return new Kind(How.OWN, null, shortName(type), null);
        }
        Class<?> above = type;
        while (!isOfJdk(above)) {
            above = above.getSuperclass(); // Object is of the JDK.
        }
        if (above == Object.class || above.isHidden() || above != type && BASES.contains(above.getName())) {
            return new Kind(How.NONE, null, "", null);
        }
        for (Class<?> one = above; one != Object.class; one = one.getSuperclass()) {
            String name = one.getName();
            if (OTHERWISE.contains(name)) {
                return new Kind(How.UNKNOWN, null, fullName(type), stepping(above));
            }
            if (FOLLOWED.containsKey(name)) {
                return new Kind(How.FOLLOWED, FOLLOWED.get(name), shortName(type), null);
            }
            if (SAFE.contains(name)) {
                return new Kind(How.NONE, null, "", stepping(above));
            }
        }
        How how = howByPackage(above);
        return new Kind(how, null, how == How.UNKNOWN ? fullName(type) : shortName(type), stepping(above));
    }

    private static How howByPackage(Class<?> type) {
        String name = type.getName();
        if (java.nio.Buffer.class.isAssignableFrom(type)) {
            return How.BUFFER;
        }
        if (isOfSafePackage(name) || isSafeByInterfaces(type)) {
            return How.NONE;
        }
        if (name.startsWith("java.util.") && !name.startsWith("java.util.zip.") && !name.startsWith("java.util.jar.")) {
            return Modifier.isPublic(type.getModifiers()) ? How.OWN : How.VIEW;
        }
        return How.UNKNOWN;
    }

    static boolean isOfJdk(Class<?> type) {
        return type.getClassLoader() == null || type.getClassLoader() == ClassLoader.getPlatformClassLoader();
    }

    /** What an object of the class does that goes on as it is used. Null if it does no such thing. */
    private static String stepping(Class<?> type) {
        boolean isEmpty = type.getName().startsWith("java.util.Collections$Empty") || type.getName().contains("Spliterators$Empty");
        for (Map.Entry<Class<?>, String> one : STEPPING) {
            if (!isEmpty && one.getKey().isAssignableFrom(type)) {
                return one.getValue();
            }
        }
        return null;
    }

    private static boolean isSafeByInterfaces(Class<?> type) {
        Set<String> names = new HashSet<>();
        for (Class<?> one = type; one != null; one = one.getSuperclass()) {
            gather(one, names);
        }
        return names.stream().anyMatch(SAFE_INTERFACES::contains);
    }

    private static void gather(Class<?> type, Set<String> names) {
        for (Class<?> one : type.getInterfaces()) {
            if (names.add(one.getName())) {
                gather(one, names);
            }
        }
    }

    /** Whether nobody but the JDK can name the class. */
    static boolean isInternal(Class<?> type) {
        return !Modifier.isPublic(type.getModifiers()) || !type.getModule().isExported(type.getPackageName());
    }

    /** The name of the class, or of the first one above that others can name, if there is one but Object. */
    private static String fullName(Class<?> type) {
        Class<?> one = type;
        while (one != Object.class && isOfJdk(one) && isInternal(one)) {
            one = one.getSuperclass();
        }
        return one == Object.class ? type.getName() : one.getName();
    }

    private static String shortName(Class<?> type) {
        Class<?> one = type;
        while (java.nio.Buffer.class.isAssignableFrom(one) && !Modifier.isPublic(one.getModifiers())) {
            one = one.getSuperclass();
        }
        String name = one.getTypeName();
        return name.substring(name.lastIndexOf('.') + 1).replace('$', '.');
    }
}
