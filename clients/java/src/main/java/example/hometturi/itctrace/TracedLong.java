package example.hometturi.itctrace;

import java.util.function.LongBinaryOperator;
import java.util.function.LongUnaryOperator;

/** A number that is volatile, used as an {@code AtomicLong}. Whoever reads it comes after all who have written it before. */
public final class TracedLong extends Number {
    private static final long serialVersionUID = 1;

    private final transient AtomicOrder order = new AtomicOrder();
    private volatile long value;

    /** The number 0. */
    public TracedLong() {}

    /** This number. */
    public TracedLong(long value) {
        this.value = value;
    }

    /** The number. */
    public long get() {
        return order.read(() -> value);
    }

    /** Writes. */
    public void set(long next) {
        order.write(() -> value = next);
    }

    /** Writes, and gives what was there. */
    public long getAndSet(long next) {
        return getAndUpdate(before -> next);
    }

    /** Writes if this is there. */
    public boolean compareAndSet(long expected, long next) {
        return order.tryChange(
                () -> {
                    if (value != expected) {
                        return false;
                    }
                    value = next;
                    return true;
                });
    }

    /** Adds, and gives the sum. */
    public long addAndGet(long more) {
        return updateAndGet(before -> before + more);
    }

    /** Adds, and gives what was there. */
    public long getAndAdd(long more) {
        return getAndUpdate(before -> before + more);
    }

    /** Adds 1, and gives the sum. */
    public long incrementAndGet() {
        return addAndGet(1);
    }

    /** Takes 1 away, and gives what is left. */
    public long decrementAndGet() {
        return addAndGet(-1);
    }

    /** Adds 1, and gives what was there. */
    public long getAndIncrement() {
        return getAndAdd(1);
    }

    /** Takes 1 away, and gives what was there. */
    public long getAndDecrement() {
        return getAndAdd(-1);
    }

    /** Writes what this makes of the number, and gives what was there. */
    public long getAndUpdate(LongUnaryOperator change) {
        return order.change(
                () -> {
                    long before = value;
                    value = change.applyAsLong(before);
                    return before;
                });
    }

    /** Writes what this makes of the number, and gives that. */
    public long updateAndGet(LongUnaryOperator change) {
        return order.change(() -> value = change.applyAsLong(value));
    }

    /** Writes what this makes of the number and another one, and gives that. */
    public long accumulateAndGet(long other, LongBinaryOperator change) {
        return updateAndGet(before -> change.applyAsLong(before, other));
    }

    /** Writes what this makes of the number and another one, and gives what was there. */
    public long getAndAccumulate(long other, LongBinaryOperator change) {
        return getAndUpdate(before -> change.applyAsLong(before, other));
    }

    @Override
    public int intValue() {
        return (int) get();
    }

    @Override
    public long longValue() {
        return get();
    }

    @Override
    public float floatValue() {
        return get();
    }

    @Override
    public double doubleValue() {
        return get();
    }

    @Override
    public String toString() {
        return String.valueOf(get());
    }
}
