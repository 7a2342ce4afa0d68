package example.hometturi.itctrace;

import example.hometturi.itctrace.Place.Gives;
import example.hometturi.itctrace.Place.Mark;
import java.util.concurrent.Exchanger;
import java.util.concurrent.TimeUnit;
import java.util.concurrent.TimeoutException;

/** An exchanger. Each of the two comes after what the other one did before. */
final class TracedExchanger<V> extends Exchanger<V> {
    private static final Gives OFFER = Gives.order("offer", "offer for exchange", "exchange");

    private final Exchanger<Offer<V>> exchanger = new Exchanger<>();

    private record Offer<V>(V value, Mark mark) {}

    private Offer<V> offer(V value) {
        return new Offer<>(value, Traced.mark(OFFER, Traced.site()));
    }

    private V taken(Offer<V> other) {
        Traced.take(other.mark, Traced.site());
        Mark.endIfAny(other.mark);
        return other.value;
    }

    @Override
    public V exchange(V value) throws InterruptedException {
        return taken(exchanger.exchange(offer(value)));
    }

    @Override
    public V exchange(V value, long time, TimeUnit unit) throws InterruptedException, TimeoutException {
        return taken(exchanger.exchange(offer(value), time, unit));
    }
}
