package example.hometturi.itctrace;

import example.hometturi.itctrace.Place.Gives;
import example.hometturi.itctrace.Place.Mark;
import example.hometturi.itctrace.Row.Site;
import java.util.HashMap;
import java.util.List;
import java.util.Map;
import java.util.function.Supplier;

/** What somebody may come after, of each task at most one place. Whoever comes, comes after all of them. */
final class Givers {
    /** From so many marks of tasks on, it is looked which of the tasks have ended. */
    static final int MANY = 64;

    private final Map<Integer, Mark> marks = new HashMap<>();
    private int swept;
    /** A task that comes after those of ended tasks, so that one mark stands for all of them. */
    private Task keeper;

    /** Whoever comes from now on, comes after this place too. A later place of a task stands for its earlier ones. */
    synchronized void give(Gives gives, Site site) {
        add(Traced.mark(gives, site));
    }

    /** Whoever comes from now on, comes after this place alone, which comes after the others. */
    synchronized void replace(Gives gives, Site site) {
        Mark mark = Traced.mark(gives, site);
        clear();
        add(mark);
    }

    private void add(Mark mark) {
        if (mark != null) {
            Mark.endIfAny(marks.put(mark.place.task.number, mark));
            if (marks.size() > 2 * swept + MANY) {
                sweep(mark.noted.gives());
            }
        }
    }

    private void sweep(Gives gives) {
        List<Mark> ended = marks.values().stream().filter(mark -> mark.place.task.isEnded).toList();
        if (!ended.isEmpty()) {
            Mark kept = Traced.keep(keeper, ended, gives);
            keeper = kept.place.task;
            ended.forEach(mark -> marks.remove(mark.place.task.number).end());
            Mark.endIfAny(marks.put(keeper.number, kept));
        }
        swept = marks.size();
    }

    /** Whether another task than this one has given something. */
    synchronized boolean isOfOthers(Task task) {
        return marks.size() > 1 || !marks.isEmpty() && !marks.containsKey(task.number);
    }

    synchronized void take(Site site) {
        marks.values().forEach(mark -> Traced.take(mark, site));
    }

    /** Takes all, and forgets them. */
    synchronized void takeAway(Site site) {
        take(site);
        clear();
    }

    synchronized void clear() {
        marks.values().forEach(Mark::end);
        marks.clear();
    }

    /** Does this while nobody else gives or takes. */
    synchronized <T> T with(Supplier<T> body) {
        return body.get();
    }
}
