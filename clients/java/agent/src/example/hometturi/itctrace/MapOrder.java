package example.hometturi.itctrace;

import example.hometturi.itctrace.Row.Site;
import java.util.HashMap;
import java.util.Map;

/** The orders of the entries of one map, by their keys, and of what is done with the whole map. */
final class MapOrder {
    /** So many keys have an order of their own. What is done with another one counts as done with the whole map. */
    private static final int MOST = 2_000;

    private final Map<Object, EntryOrder> entries = new HashMap<>();
    private final EntryOrder whole = new EntryOrder();
    private Task user;
    private boolean isUsedBySeveral;

    EntryOrder whole() {
        return whole;
    }

    /** That of a key. Null if nobody has changed it yet. */
    synchronized EntryOrder known(Object key) {
        return entries.get(key);
    }

    synchronized EntryOrder of(Object key) {
        return hasRoom(key) ? entries.computeIfAbsent(key, fresh -> new EntryOrder()) : whole;
    }

    /** Whether the key has an order of its own, or may have one. */
    synchronized boolean hasRoom(Object key) {
        return entries.size() < MOST || entries.containsKey(key);
    }

    synchronized void seeAll(Site site) {
        whole.see(true, site);
        entries.values().forEach(entry -> entry.see(true, site));
    }

    synchronized boolean isUsedBySeveral(Task task) {
        user = user == null ? task : user;
        isUsedBySeveral |= user != task;
        return isUsedBySeveral;
    }
}
