package example.hometturi.itctrace;

import java.util.function.BinaryOperator;
import java.util.function.UnaryOperator;

/** A variable that is volatile, used as an {@code AtomicReference}. Whoever reads it comes after all who have written it before. */
public final class TracedReference<V> {
    private final AtomicOrder order = new AtomicOrder();
    private volatile V value;

    /** A variable that is null. */
    public TracedReference() {}

    /** A variable with this value. */
    public TracedReference(V value) {
        this.value = value;
    }

    /** The value. */
    public V get() {
        return order.read(() -> value);
    }

    /** Writes. */
    public void set(V next) {
        order.write(() -> value = next);
    }

    /** Writes, and gives what was there. */
    public V getAndSet(V next) {
        return getAndUpdate(before -> next);
    }

    /** Writes if this very object is there. */
    public boolean compareAndSet(V expected, V next) {
        return order.tryChange(
                () -> {
                    if (value != expected) {
                        return false;
                    }
                    value = next;
                    return true;
                });
    }

    /** Writes what this makes of the value, and gives what was there. */
    public V getAndUpdate(UnaryOperator<V> change) {
        return order.change(
                () -> {
                    V before = value;
                    value = change.apply(before);
                    return before;
                });
    }

    /** Writes what this makes of the value, and gives that. */
    public V updateAndGet(UnaryOperator<V> change) {
        return order.change(() -> value = change.apply(value));
    }

    /** Writes what this makes of the value and another one, and gives that. */
    public V accumulateAndGet(V other, BinaryOperator<V> change) {
        return updateAndGet(before -> change.apply(before, other));
    }

    /** Writes what this makes of the value and another one, and gives what was there. */
    public V getAndAccumulate(V other, BinaryOperator<V> change) {
        return getAndUpdate(before -> change.apply(before, other));
    }

    @Override
    public String toString() {
        return String.valueOf(get());
    }
}
