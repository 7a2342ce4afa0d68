package example.hometturi.itctrace;

import example.hometturi.itctrace.Place.Gives;
import example.hometturi.itctrace.Place.Mark;
import java.util.AbstractMap;
import java.util.AbstractSet;
import java.util.Iterator;
import java.util.Map;
import java.util.Objects;
import java.util.Set;
import java.util.concurrent.ConcurrentMap;
import java.util.function.BiFunction;
import java.util.function.Function;

/** A map whose values carry the place where they were put. Whoever sees a value comes after that place. */
public final class TracedMap<K, V> extends AbstractMap<K, V> implements ConcurrentMap<K, V> {
    private static final Gives ENTRY = Gives.order("entry", "put entry", "see entry");

    /** A value, and where it was put. It equals what the value does. */
    public static final class Carried<V> {
        private final V value;
        private final Mark mark;

        private Carried(V value) {
            this.value = Objects.requireNonNull(value);
            this.mark = Traced.mark(ENTRY, Traced.site());
        }

        private V seen() {
            Traced.take(mark, Traced.site());
            return value;
        }

        /** The value, which is in the map no longer. */
        private V gone() {
            V seen = seen();
            Mark.endShared(mark);
            return seen;
        }

        @Override
        public boolean equals(Object other) {
            return other instanceof Carried<?> carried && value.equals(carried.value);
        }

        @Override
        public int hashCode() {
            return value.hashCode();
        }
    }

    private final ConcurrentMap<K, Carried<V>> map;

    TracedMap(ConcurrentMap<K, Carried<V>> map) {
        if (!map.isEmpty()) {
            throw new IllegalArgumentException("the map has entries already");
        }
        this.map = map;
    }

    private static <V> V seen(Carried<V> carried) {
        return carried == null ? null : carried.seen();
    }

    private static <V> V gone(Carried<V> carried) {
        return carried == null ? null : carried.gone();
    }

    private static <V> Carried<V> carried(V value) {
        return value == null ? null : new Carried<>(value);
    }

    @Override
    public V get(Object key) {
        return seen(map.get(key));
    }

    @Override
    public V getOrDefault(Object key, V absent) {
        Carried<V> carried = map.get(key);
        return carried == null ? absent : carried.seen();
    }

    @Override
    public boolean containsKey(Object key) {
        return seen(map.get(key)) != null;
    }

    @Override
    public V put(K key, V value) {
        return gone(map.put(key, new Carried<>(value)));
    }

    @Override
    public V remove(Object key) {
        return gone(map.remove(key));
    }

    @Override
    public V putIfAbsent(K key, V value) {
        Carried<V> own = new Carried<>(value);
        Carried<V> there = map.putIfAbsent(key, own);
        if (there != null) {
            Mark.endIfAny(own.mark);
        }
        return seen(there);
    }

    @Override
    public boolean remove(Object key, Object value) {
        boolean[] isRemoved = {false};
        if (key == null || value == null) {
            return false;
        }
        @SuppressWarnings("unchecked")
        K own = (K) key;
        map.computeIfPresent(own, (same, there) -> {
            V seen = there.seen();
            isRemoved[0] = seen.equals(value);
            return isRemoved[0] ? null : there;
        });
        return isRemoved[0];
    }

    @Override
    public boolean replace(K key, V before, V value) {
        boolean[] isReplaced = {false};
        map.computeIfPresent(key, (same, there) -> {
            isReplaced[0] = there.seen().equals(before);
            return isReplaced[0] ? new Carried<>(value) : there;
        });
        return isReplaced[0];
    }

    @Override
    public V replace(K key, V value) {
        return gone(map.replace(key, new Carried<>(value)));
    }

    /** The function is called once for the key. Whoever sees what it gives comes after it. */
    @Override
    public V computeIfAbsent(K key, Function<? super K, ? extends V> body) {
        return seen(map.computeIfAbsent(key, absent -> carried(body.apply(absent))));
    }

    @Override
    public V computeIfPresent(K key, BiFunction<? super K, ? super V, ? extends V> body) {
        return seen(map.computeIfPresent(key, (present, there) -> carried(body.apply(present, there.gone()))));
    }

    @Override
    public V compute(K key, BiFunction<? super K, ? super V, ? extends V> body) {
        return seen(map.compute(key, (same, there) -> carried(body.apply(same, gone(there)))));
    }

    @Override
    public V merge(K key, V value, BiFunction<? super V, ? super V, ? extends V> body) {
        return seen(map.merge(key, new Carried<>(value), (there, own) -> carried(body.apply(there.gone(), own.gone()))));
    }

    @Override
    public int size() {
        return map.size();
    }

    @Override
    public boolean isEmpty() {
        return map.isEmpty();
    }

    @Override
    public Set<Entry<K, V>> entrySet() {
        return new AbstractSet<>() {
            @Override
            public Iterator<Entry<K, V>> iterator() {
                return entries(map.entrySet().iterator());
            }

            @Override
            public int size() {
                return map.size();
            }
        };
    }

    private Iterator<Entry<K, V>> entries(Iterator<Map.Entry<K, Carried<V>>> entries) {
        return new Iterator<>() {
            @Override
            public boolean hasNext() {
                return entries.hasNext();
            }

            @Override
            public Entry<K, V> next() {
                Map.Entry<K, Carried<V>> entry = entries.next();
                return new SimpleEntry<>(entry.getKey(), entry.getValue().seen()) {
                    private static final long serialVersionUID = 1;

                    @Override
                    public V setValue(V value) {
                        put(getKey(), value);
                        return super.setValue(value);
                    }
                };
            }

            @Override
            public void remove() {
                entries.remove();
            }
        };
    }
}
