package example.hometturi.itctrace;

/** A flag that is volatile, used as an {@code AtomicBoolean}. Whoever reads it comes after all who have written it before. */
public final class TracedBoolean {
    private final AtomicOrder order = new AtomicOrder();
    private volatile boolean value;

    /** A flag that is false. */
    public TracedBoolean() {}

    /** A flag of this value. */
    public TracedBoolean(boolean value) {
        this.value = value;
    }

    /** The value. */
    public boolean get() {
        return order.read(() -> value);
    }

    /** Writes. */
    public void set(boolean next) {
        order.write(() -> value = next);
    }

    /** Writes, and gives what was there. */
    public boolean getAndSet(boolean next) {
        return order.change(
                () -> {
                    boolean before = value;
                    value = next;
                    return before;
                });
    }

    /** Writes if this is there. */
    public boolean compareAndSet(boolean expected, boolean next) {
        return order.tryChange(
                () -> {
                    if (value != expected) {
                        return false;
                    }
                    value = next;
                    return true;
                });
    }

    @Override
    public String toString() {
        return String.valueOf(get());
    }
}
