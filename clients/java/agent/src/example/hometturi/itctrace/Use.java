package example.hometturi.itctrace;

import example.hometturi.itctrace.Cell.Place;
import example.hometturi.itctrace.Row.Called;
import example.hometturi.itctrace.Row.Site;

/** A call of the JDK in the program, and one of the objects that it is done with: what it is called for, and what is known of it. */
final class Use {
    /** What the object is to the call. */
    enum Role {
        /** It is a method of the object. */
        OWNER,
        /** The same, and surely that of the JDK. */
        SUPER,
        /** The method gets the object, and may do anything with it. */
        GIVEN,
        /** The method gets the object, and looks into it. */
        LOOKED_INTO
    }

    final String owner;
    final String method;
    final String descriptor;
    final Role role;
    /** Whether a collection or an array is changed by it. */
    final boolean changes;

    /** What the call does to a followed object. */
    record Effect(Kinds.Kind kind, boolean changes, boolean mayChange) {}

    /** What it does with a collection. */
    record On(Class<?> type, Deed deed, boolean isOverridden, Collected collected) {}

    private static final String VOWELS = "AEIOUaeiou";

    private final Site site;
    /** What the last object is called that was made here. They are mostly of one class. */
    private volatile Called called;
    /** Those of the last one, as the objects of one call are mostly of one class. */
    private volatile Effect effect;

    private volatile On on;

    /** The last object of the call, and what is known of it. */
    Wholes.Recent recent;

    private final Place read;
    private final Place write;

    Use(String owner, String method, String descriptor, Role role, boolean changes, Site site) {
        this.owner = owner;
        this.method = method;
        this.descriptor = descriptor;
        this.role = role;
        this.changes = changes;
        this.site = site;
        read = new Place(false, site);
        write = new Place(true, site);
    }

    /** What an object of this class is called that is made here. */
    Called called(String name) {
        Called known = called;
        if (known == null || !known.name().equals(name)) {
            String article = VOWELS.indexOf(name.charAt(0)) < 0 ? "a " : "an ";
            known = new Called(name, name, article + name + " made at " + site);
            called = known;
        }
        return known;
    }

    Effect on(Kinds.Kind kind) {
        Effect known = effect;
        if (known == null || known.kind != kind) {
            known = new Effect(kind, kind.changes(method), kind.mayChange(method));
            effect = known;
        }
        return known;
    }

    /** What it does with a collection whose method it is, or that it gets. */
    On on(Object object) {
        On known = on;
        Class<?> type = object.getClass();
        if (known == null || known.type != type) {
            Collected collected = Collected.of(object);
            boolean isOverridden = role == Role.OWNER && collected.overrides(method, descriptor);
            known = new On(type, deedOn(object, collected), isOverridden, collected);
            on = known;
        }
        return known;
    }

    private Deed deedOn(Object object, Collected collected) {
        if (object.getClass().isArray()) {
            return Deed.ofArray(this);
        }
        if (isOfObject()) {
            return collected.isSure(method, descriptor) ? Deed.of(object, method, descriptor) : Deed.UNKNOWN;
        }
        if (collected.mayCallOwn()) {
            return changes ? Deed.UNKNOWN : Deed.SOME;
        }
        boolean isCompared = method.equals("equals"); // It may differ at its first element.
        Deed given = role == Role.LOOKED_INTO && !isCompared ? Deed.WHOLE : Deed.ofGiven(owner, method);
        return given == Deed.SOME && changes ? Deed.UNKNOWN : given;
    }

    Site site() {
        return site;
    }

    /** The process ends while the call goes on. Nobody knows what it has changed. */
    void nameUnfinished() {
        Traced.tracer().passOver(owner.substring(owner.lastIndexOf('/') + 1) + "." + method + ", which was not over", site);
    }

    boolean isOfObject() {
        return role == Role.OWNER || role == Role.SUPER;
    }

    Place whole(boolean writes) {
        return writes ? write : read;
    }

    Place inner(boolean writes) {
        return whole(writes).inner();
    }

    /** What a method of a buffer does with what belongs to the buffer alone. Null if that is nothing. */
    Place ofPosition() {
        if (!isOfObject()) {
            return whole(role == Role.GIVEN);
        }
        if (isAt()) {
            return read;
        }
        boolean isAsking = descriptor.startsWith("()") && (method.equals("position") || method.equals("limit"));
        return switch (method) {
            case "capacity", "isDirect", "isReadOnly", "hasArray", "array", "arrayOffset", "force", "load", "isLoaded" -> null;
            case "remaining", "hasRemaining", "equals", "compareTo", "hashCode", "toString", "mismatch", "length", "charAt", "subSequence",
                    "chars", "isEmpty", "slice", "duplicate" ->
                    read;
            case "order" -> whole(!descriptor.startsWith("()"));
            default -> whole(!isAsking && !method.startsWith("as"));
        };
    }

    /** What a method of a buffer does with its content. Null if that is nothing. */
    Place ofContent() {
        if (!isOfObject()) {
            return inner(role == Role.GIVEN);
        }
        if (method.startsWith("put") || method.equals("compact")) {
            return inner(true);
        }
        return switch (method) {
            case "position", "limit", "capacity", "isDirect", "isReadOnly", "hasArray", "array", "arrayOffset", "remaining", "hasRemaining",
                    "mark", "reset", "clear", "flip", "rewind", "order", "slice", "duplicate", "length", "isEmpty" ->
                    null;
            default -> method.startsWith("as") ? null : inner(false);
        };
    }

    /** Whether a method of a buffer says by an index where it reads or writes. */
    private boolean isAt() {
        boolean isGet = method.startsWith("get") && descriptor.startsWith("(I");
        return isGet || method.startsWith("put") && descriptor.startsWith("(I") && !descriptor.startsWith("(I)");
    }
}
