package example.hometturi.itctrace;

import java.util.function.IntBinaryOperator;
import java.util.function.IntUnaryOperator;

/** A number that is volatile, used as an {@code AtomicInteger}. Whoever reads it comes after all who have written it before. */
public final class TracedInteger extends Number {
    private static final long serialVersionUID = 1;

    private final transient AtomicOrder order = new AtomicOrder();
    private volatile int value;

    /** The number 0. */
    public TracedInteger() {}

    /** This number. */
    public TracedInteger(int value) {
        this.value = value;
    }

    /** The number. */
    public int get() {
        return order.read(() -> value);
    }

    /** Writes. */
    public void set(int next) {
        order.write(() -> value = next);
    }

    /** Writes, and gives what was there. */
    public int getAndSet(int next) {
        return getAndUpdate(before -> next);
    }

    /** Writes if this is there. */
    public boolean compareAndSet(int expected, int next) {
        return order.tryChange(
                () -> {
                    if (value != expected) {
                        return false;
                    }
                    value = next;
                    return true;
                });
    }

    /** Adds, and gives the sum. */
    public int addAndGet(int more) {
        return updateAndGet(before -> before + more);
    }

    /** Adds, and gives what was there. */
    public int getAndAdd(int more) {
        return getAndUpdate(before -> before + more);
    }

    /** Adds 1, and gives the sum. */
    public int incrementAndGet() {
        return addAndGet(1);
    }

    /** Takes 1 away, and gives what is left. */
    public int decrementAndGet() {
        return addAndGet(-1);
    }

    /** Adds 1, and gives what was there. */
    public int getAndIncrement() {
        return getAndAdd(1);
    }

    /** Takes 1 away, and gives what was there. */
    public int getAndDecrement() {
        return getAndAdd(-1);
    }

    /** Writes what this makes of the number, and gives what was there. */
    public int getAndUpdate(IntUnaryOperator change) {
        return order.change(
                () -> {
                    int before = value;
                    value = change.applyAsInt(before);
                    return before;
                });
    }

    /** Writes what this makes of the number, and gives that. */
    public int updateAndGet(IntUnaryOperator change) {
        return order.change(() -> value = change.applyAsInt(value));
    }

    /** Writes what this makes of the number and another one, and gives that. */
    public int accumulateAndGet(int other, IntBinaryOperator change) {
        return updateAndGet(before -> change.applyAsInt(before, other));
    }

    /** Writes what this makes of the number and another one, and gives what was there. */
    public int getAndAccumulate(int other, IntBinaryOperator change) {
        return getAndUpdate(before -> change.applyAsInt(before, other));
    }

    @Override
    public int intValue() {
        return get();
    }

    @Override
    public long longValue() {
        return get();
    }

    @Override
    public float floatValue() {
        return get();
    }

    @Override
    public double doubleValue() {
        return get();
    }

    @Override
    public String toString() {
        return String.valueOf(get());
    }
}
