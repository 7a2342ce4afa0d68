package example.hometturi.itctrace;

/** A field of a class that is watched. The name is that of its class and its own, as a person reads it. */
public final class Field {
    private final Type type;
    private final String name;
    private final boolean isStatic;
    private final boolean isVolatile;
    private final boolean isFinal;
    final Row.Called called;
    /** The place of its variable among those of an object. */
    final int index;

    /** What is known of a static one. */
    final Object cell;

    public Field(Type type, String name, boolean isStatic, boolean isVolatile, boolean isFinal, int index) {
        this.type = type;
        this.name = name;
        called = new Row.Called(name, name, null);
        this.isStatic = isStatic;
        this.isVolatile = isVolatile;
        this.isFinal = isFinal;
        this.index = index;
        cell = isStatic ? newCell() : null;
    }

    Object newCell() {
        return isVolatile ? new VolatileCell() : new Cell(this);
    }

    public String name() {
        return name;
    }

    public boolean isStatic() {
        return isStatic;
    }

    public boolean isVolatile() {
        return isVolatile;
    }

    public boolean isFinal() {
        return isFinal;
    }

    public Type type() {
        return type;
    }
}
