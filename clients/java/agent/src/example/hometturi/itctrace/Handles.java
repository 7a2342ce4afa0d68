package example.hometturi.itctrace;

import example.hometturi.itctrace.Cell.Place;
import example.hometturi.itctrace.Place.Gives;
import example.hometturi.itctrace.Row.Site;
import java.util.Arrays;

/**
 * What stands around a call of a VarHandle, or of an updater of a field: it touches the variable, and gives and takes orders by its mode. An
 * atomic access does not race with another one, but with a plain one that is in no order with it.
 */
public final class Handles {
    private static final Gives ATOMIC = Gives.order("handle", "write by handle", "read by handle");

    private static volatile Call[] calls = new Call[0];

    /** A call in the program: what it does, and what it is called if it is not followed. */
    private static final class Call {
        final Mode mode;
        final Site site;
        final Place read;
        final Place write;
        final int unfollowed;

        Call(Mode mode, int unfollowed, Site site) {
            this.mode = mode;
            this.site = site;
            this.unfollowed = unfollowed;
            read = mode.isPlain() ? new Place(false, site) : Place.atomic(false, site);
            write = mode.isPlain() ? new Place(true, site) : Place.atomic(true, site);
        }
    }

    private Handles() {}

    /** Whether a call of this name by this class of the JDK is followed. */
    public static boolean isFollowed(String owner, String name) {
        return Mode.of(owner, name) != null;
    }

    /** Whether a call of this name says by a boolean whether it has changed the variable. */
    public static boolean mayFail(String owner, String name) {
        return Mode.of(owner, name).mayFail();
    }

    /** The number of a call. The other number is that by which it is told if its handle is not followed. */
    public static synchronized int callOf(String owner, String name, int unfollowed, String file, int line, String function) {
        Call[] longer = Arrays.copyOf(calls, calls.length + 1);
        longer[calls.length] = new Call(Mode.of(owner, name), unfollowed, new Site(file, line, function));
        calls = longer;
        return calls.length - 1;
    }

    /** A call begins, with its first arguments. Gives what its end has to know. Null if there is nothing. */
    public static Object begin(Object handle, Object first, int index, int number) {
        if (handle == null || !Traced.isOn()) {
            return null;
        }
        Call call = calls[number];
        Variable variable = Variable.of(handle);
        Access access = variable == null ? null : access(variable, first, index, call);
        if (access == null) {
            Watched.passes(call.unfollowed);
            Watched.calling(handle, call.unfollowed);
            return handle;
        }
        access.begin();
        return access;
    }

    /** Null if nobody can tell what the call does with the variable. */
    private static Access access(Variable variable, Object first, int index, Call call) {
        boolean isOrdered = call.mode.takes() || call.mode.gives();
        if (variable.isElement()) {
            boolean isOne = first != null && first.getClass().isArray() && index >= 0 && index < Wholes.lengthOf(first);
            VolatileCell order = isOne && isOrdered ? AtomicElements.of(first, index) : null;
            return new Access(call, order, isOne ? place -> Wholes.touchElement(first, index, place) : place -> {});
        }
        boolean isOne = variable.isOf(first);
        if (isOne && variable.isVolatile() && call.mode.isPlain()) {
            return null;
        }
        VolatileCell order = isOne && isOrdered ? variable.order(first) : null;
        return new Access(call, order, isOne ? place -> variable.touch(first, place) : place -> {});
    }

    /** What touches a variable. */
    private interface Touch {
        void by(Place place);
    }

    /** A call that goes on. Its order is locked meanwhile, so that nobody comes after a value that it has not read. */
    private record Access(Call call, VolatileCell order, Touch touch) {
        void begin() {
            if (order != null) {
                order.begin();
            }
            if (call.mode.writes() && !call.mode.reads()) {
                touch.by(call.write);
                give();
            } else if (call.mode.isPlain()) {
                touch.by(call.read);
            }
        }

        void end(boolean isChanged) {
            try {
                if (order != null && call.mode.takes()) {
                    order.take(call.site);
                }
                if (call.mode.reads() && !call.mode.isPlain()) {
                    touch.by(isChanged && call.mode.writes() ? call.write : call.read);
                }
                if (isChanged && call.mode.reads() && call.mode.writes()) {
                    give();
                }
            } finally {
                close();
            }
        }

        private void give() {
            if (order != null && call.mode.gives()) {
                order.give(ATOMIC, call.site, call.mode.takes());
            }
        }

        void close() {
            if (order != null) {
                order.end();
            }
        }
    }

    /** The call is over. */
    public static void end(Object begun) {
        if (begun instanceof Access access) {
            access.end(true);
        } else if (begun != null) {
            Watched.called(begun, 0);
        }
    }

    /** The same of one that may have changed nothing. */
    public static void endTry(boolean isChanged, Object begun) {
        if (begun instanceof Access access) {
            access.end(isChanged);
        } else {
            end(begun);
        }
    }

    /** The call has thrown. It gives that, as if the program had called by itself. */
    public static Throwable failed(Throwable thrown, Object begun) {
        if (begun instanceof Access access) {
            access.close();
        } else {
            end(begun);
        }
        StackTraceElement[] frames = thrown.getStackTrace();
        thrown.setStackTrace(Arrays.stream(frames).filter(frame -> !frame.getMethodName().contains(Watched.OWN_METHOD)).toArray(StackTraceElement[]::new));
        return thrown;
    }
}
