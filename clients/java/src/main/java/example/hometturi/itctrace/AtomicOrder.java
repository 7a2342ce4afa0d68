package example.hometturi.itctrace;

import example.hometturi.itctrace.Place.Gives;
import java.util.function.BooleanSupplier;
import java.util.function.Supplier;

/**
 * The order of one variable that is volatile. Whoever reads it comes after all who have written it before. An access and its report are
 * one, so that nobody comes after a value that it has not read.
 */
final class AtomicOrder {
    private static final Gives WRITE = Gives.order("atomic", "write atomic", "read atomic");

    private final Givers givers = new Givers();

    <T> T read(Supplier<T> access) {
        if (!Traced.isOn()) {
            return access.get();
        }
        return givers.with(
                () -> {
                    givers.take(Traced.site());
                    return access.get();
                });
    }

    void write(Runnable access) {
        if (!Traced.isOn()) {
            access.run();
            return;
        }
        givers.with(
                () -> {
                    givers.give(WRITE, Traced.site());
                    access.run();
                    return null;
                });
    }

    /** Reads and writes in one. This place stands for all before. */
    <T> T change(Supplier<T> access) {
        if (!Traced.isOn()) {
            return access.get();
        }
        return givers.with(
                () -> {
                    givers.take(Traced.site());
                    givers.replace(WRITE, Traced.site());
                    return access.get();
                });
    }

    /** Reads, and writes if the access says so. */
    boolean tryChange(BooleanSupplier access) {
        if (!Traced.isOn()) {
            return access.getAsBoolean();
        }
        return givers.with(
                () -> {
                    boolean isChanged = access.getAsBoolean();
                    givers.take(Traced.site());
                    if (isChanged) {
                        givers.replace(WRITE, Traced.site());
                    }
                    return isChanged;
                });
    }
}
