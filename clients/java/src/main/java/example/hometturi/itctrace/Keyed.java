package example.hometturi.itctrace;

import java.lang.ref.Reference;
import java.lang.ref.ReferenceQueue;
import java.lang.ref.WeakReference;
import java.util.Collection;
import java.util.Map;
import java.util.concurrent.ConcurrentHashMap;
import java.util.function.Supplier;

/** What is kept of objects of the program, as long as they live. An object is told by what it is, and not by what it equals. */
final class Keyed<V> {
    private final Map<Object, V> values = new ConcurrentHashMap<>();
    private final ReferenceQueue<Object> gone = new ReferenceQueue<>();

    /** An object, which this keeps from nothing. */
    private static final class Key extends WeakReference<Object> {
        private final int hash;

        Key(Object object, ReferenceQueue<Object> gone) {
            super(object, gone);
            hash = System.identityHashCode(object);
        }

        @Override
        public boolean equals(Object other) {
            return this == other || other instanceof Key key && get() != null && get() == key.get();
        }

        @Override
        public int hashCode() {
            return hash;
        }
    }

    /** What finds the key of an object. */
    private static final class Sought {
        private final Object object;

        Sought(Object object) {
            this.object = object;
        }

        @Override
        public boolean equals(Object other) {
            return other instanceof Key key && key.refersTo(object);
        }

        @Override
        public int hashCode() {
            return System.identityHashCode(object);
        }
    }

    /** Null if nothing is kept of the object. */
    V known(Object object) {
        return values.get(new Sought(object));
    }

    V of(Object object, Supplier<V> make) {
        V known = known(object);
        if (known != null) {
            return known;
        }
        forgetGone();
        return values.computeIfAbsent(new Key(object, gone), key -> make.get());
    }

    void put(Object object, V value) {
        forgetGone();
        values.put(new Key(object, gone), value);
    }

    /** Gives what was kept. Null if that is nothing. */
    V remove(Object object) {
        return values.remove(new Key(object, null));
    }

    /** What is kept of all that live. */
    Collection<V> all() {
        return values.values();
    }

    private void forgetGone() {
        for (Reference<?> old = gone.poll(); old != null; old = gone.poll()) {
            if (values.remove(old) instanceof Place.Mark mark) {
                mark.end(); // Nobody comes after it any more.
            }
        }
    }
}
